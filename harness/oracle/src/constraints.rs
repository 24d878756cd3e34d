//! The closed constraints, in the paper's order.

use crate::grade::{Grade, Held};
use crate::program::{Method, Program, Table};
use ikhzorvan::{Broken, Kind};

/// The first constraint that the tables break.
pub fn first_broken(program: &Program, tables: &[Table]) -> Option<Broken> {
    (0..program.methods.len()).find_map(|method| broken_in(program, tables, method))
}

fn broken_in(program: &Program, tables: &[Table], number: usize) -> Option<Broken> {
    let method = &program.methods[number];
    let broken = |kind, entry| Broken { method: number as u8, kind, held: entry as u8 };
    let declared = || broken_declaration(method, tables).map(|entry| broken(Kind::Declared, entry));
    let main = || broken_main(number, tables).map(|entry| broken(Kind::Main, entry));
    let fork = || {
        method.forks.iter().find_map(|fork| {
            let kind = Kind::Fork { node: fork.node as u16 };
            broken_fork(&tables[fork.method]).map(|entry| broken(kind, entry))
        })
    };
    declared().or_else(main).or_else(fork)
}

/// Kind 1: "the root's table is no larger than the declared one".
fn broken_declaration(method: &Method, tables: &[Table]) -> Option<usize> {
    let declared = method.declared.as_ref()?;
    let root = method.root_table(tables);
    (0..method.entries()).find(|&entry| root[entry] > declared[entry])
}

/// Kind 2: "method 0, the main: its own table is at most 3 at its one entry".
fn broken_main(number: usize, tables: &[Table]) -> Option<usize> {
    (number == 0 && tables[0][0] > Grade::Cmpd).then_some(0)
}

/// Kind 3: "the forked method's table is at most 3 wherever its lock 0, the thread's own lock, is held".
fn broken_fork(forked: &Table) -> Option<usize> {
    (0..forked.len()).find(|&entry| Held::of_entry(entry).has(0) && forked[entry] > Grade::Cmpd)
}
