//! The lowest tables of a program, and its rounds.

use crate::grade::{Grade, Held};
use crate::program::{Program, Table};
use std::collections::BTreeSet;

/// An entry of a method's table: the method, and the number of the entry.
type Place = (usize, usize);

/// The tables before the first round: declared ones as they are, "every undeclared table all 0".
fn start(program: &Program) -> Vec<Table> {
    let table = |method: &crate::program::Method| match &method.declared {
        Some(declared) => declared.clone(),
        None => vec![Grade::Const; method.entries()],
    };
    program.methods.iter().map(table).collect()
}

/// The lowest tables that meet the constraints of the undeclared methods, with declared tables fixed.
///
/// No rounds here: an entry is worked out again whenever an entry that it has looked at has risen. Every operation on
/// grades is monotone, so the order does not matter.
pub fn tables(program: &Program) -> Vec<Table> {
    let mut tables = start(program);
    let mut lookers: Vec<Vec<BTreeSet<Place>>> =
        tables.iter().map(|table| vec![BTreeSet::new(); table.len()]).collect();
    let mut waiting: BTreeSet<Place> = undeclared_places(program).collect();
    while !waiting.is_empty() {
        for (method, entry) in std::mem::take(&mut waiting) {
            let grade = program.methods[method].root.grade(Held::of_entry(entry), &mut |callee, held| {
                lookers[callee][held.entry()].insert((method, entry));
                tables[callee][held.entry()]
            });
            if grade > tables[method][entry] {
                tables[method][entry] = grade;
                waiting.extend(&lookers[method][entry]);
            }
        }
    }
    tables
}

fn undeclared_places(program: &Program) -> impl Iterator<Item = Place> + '_ {
    let undeclared = program.methods.iter().enumerate().filter(|(_, method)| method.declared.is_none());
    undeclared.flat_map(|(number, method)| (0..method.entries()).map(move |entry| (number, entry)))
}

/// "One round gives every undeclared method its root's table, all worked out from the tables before the round."
fn round(program: &Program, before: &[Table]) -> Vec<Table> {
    let after = |(method, own): (&crate::program::Method, &Table)| match method.declared {
        Some(_) => own.clone(),
        None => method.root_table(before),
    };
    program.methods.iter().zip(before).map(after).collect()
}

/// The tables before the first round, and then those after each round that changes something.
pub fn history(program: &Program) -> Vec<Vec<Table>> {
    let mut history = Vec::new();
    let mut next = Some(start(program));
    while let Some(tables) = next {
        next = Some(round(program, &tables)).filter(|after| *after != tables);
        history.push(tables);
    }
    history
}

/// "Rounds is the least n such that round n+1 changes nothing", and the tables then reached.
pub fn rounds(program: &Program) -> (u16, Vec<Table>) {
    let mut history = history(program);
    let reached = history.pop().expect("the tables before the first round");
    (history.len() as u16, reached)
}
