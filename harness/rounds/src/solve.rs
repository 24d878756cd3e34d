//! Tables round by round, and the constraints.

use crate::read::{Field, Method, Node, Op, Program};
use ikhzorvan::{Broken, Kind};

/// A grade for each held set of a method's names; entries past 2^k are 0.
pub type Table = [u8; 16];
pub type Tables = Vec<Table>;

const COMPOSED: [[u8; 5]; 5] = [[0, 1, 2, 3, 4], [1, 1, 2, 3, 4], [2, 2, 3, 3, 4], [3, 3, 3, 3, 4], [4, 4, 4, 4, 4]];
const REPEATED: [u8; 5] = [0, 1, 3, 3, 4];
const ASSERTED: [u8; 5] = [0, 1, 2, 4, 4];

fn compose(first: u8, second: u8) -> u8 {
    COMPOSED[usize::from(first)][usize::from(second)]
}

fn read_access(field: Field, is_held: bool) -> u8 {
    match field.guard {
        0 => 0,
        1 if is_held => 1,
        1 => 4,
        2 if is_held => 1,
        _ => field.unprotected,
    }
}

fn write_access(field: Field, is_held: bool) -> u8 {
    match field.guard {
        0 => 4,
        1 if is_held => 1,
        1 => 4,
        2 if !is_held => 4,
        _ => field.unprotected,
    }
}

/// The two straightforward ways to work out the table of a method's root.
#[derive(Clone, Copy, Debug, PartialEq, Eq)]
pub enum Way {
    /// The table of each node, from the first node up to the root.
    Upwards,
    /// The grade of the root under each held set, by recursion down to the nodes without children.
    Recursion,
}

/// The lowest tables and the rounds that they took.
pub fn lowest(way: Way, program: &Program) -> (Tables, u16) {
    let mut tables: Tables = program.methods.iter().map(|method| method.declared.unwrap_or_default()).collect();
    let mut after = tables.clone();
    let mut scratch = Vec::new();
    let mut rounds = 0;
    loop {
        for (method, table) in program.methods.iter().zip(&mut after) {
            if method.declared.is_none() {
                *table = root_table(way, program, method, &tables, &mut scratch);
            }
        }
        if after == tables {
            return (tables, rounds);
        }
        std::mem::swap(&mut tables, &mut after);
        rounds += 1;
    }
}

/// The table of a method's root; `scratch` is room for the tables of its nodes.
fn root_table(way: Way, program: &Program, method: &Method, tables: &[Table], scratch: &mut Vec<Table>) -> Table {
    let nodes = &program.nodes[method.nodes.clone()];
    match way {
        Way::Upwards => table_upwards(nodes, method.entries(), tables, scratch),
        Way::Recursion => {
            let mut table = [0; 16];
            for (held, grade) in table[..method.entries()].iter_mut().enumerate() {
                *grade = grade_under(nodes, nodes.len() - 1, held, tables);
            }
            table
        }
    }
}

/// Children come before their nodes, so one walk up does it.
fn table_upwards(nodes: &[Node], entries: usize, tables: &[Table], scratch: &mut Vec<Table>) -> Table {
    scratch.clear();
    for node in nodes {
        let table = if node.counts { node_table(&node.op, entries, tables, scratch) } else { [0; 16] };
        scratch.push(table);
    }
    scratch[scratch.len() - 1]
}

/// The grade of one node under one held set.
fn grade_under(nodes: &[Node], node: usize, held: usize, tables: &[Table]) -> u8 {
    let below = |child: usize| grade_under(nodes, child, held, tables);
    match nodes[node].op {
        Op::Plain => 0,
        Op::Read { x, field, lock } => compose(below(x), read_access(field, held & lock != 0)),
        Op::Write { x, y, field, lock } => compose(compose(below(x), below(y)), write_access(field, held & lock != 0)),
        Op::Sequence { x, y } => compose(below(x), below(y)),
        Op::Choice { x, y, z } => compose(below(x), below(y).max(below(z))),
        Op::Loop { x, y } => {
            let test = below(x);
            compose(test, REPEATED[usize::from(compose(below(y), test))])
        }
        Op::Synchronised { x, lock } if held & lock != 0 => below(x),
        Op::Synchronised { x, lock } => grade_under(nodes, x, held | lock, tables).max(2),
        Op::Assert { x } => ASSERTED[usize::from(below(x))],
        Op::Call { x, method, locks, free } => {
            compose(below(x), largest_entry(&tables[method], callee_entry(held, locks), usize::from(free)))
        }
        Op::Fork { x, .. } => compose(below(x), 2),
    }
}

fn node_table(op: &Op, entries: usize, tables: &[Table], below: &[Table]) -> Table {
    let mut table = [0; 16];
    let own = &mut table[..entries];
    match *op {
        Op::Plain => {}
        Op::Read { x, field, lock } => {
            for (held, grade) in own.iter_mut().enumerate() {
                *grade = compose(below[x][held], read_access(field, held & lock != 0));
            }
        }
        Op::Write { x, y, field, lock } => {
            for (held, grade) in own.iter_mut().enumerate() {
                let before = compose(below[x][held], below[y][held]);
                *grade = compose(before, write_access(field, held & lock != 0));
            }
        }
        Op::Sequence { x, y } => {
            for (held, grade) in own.iter_mut().enumerate() {
                *grade = compose(below[x][held], below[y][held]);
            }
        }
        Op::Choice { x, y, z } => {
            for (held, grade) in own.iter_mut().enumerate() {
                *grade = compose(below[x][held], below[y][held].max(below[z][held]));
            }
        }
        Op::Loop { x, y } => {
            for (held, grade) in own.iter_mut().enumerate() {
                let again = compose(below[y][held], below[x][held]);
                *grade = compose(below[x][held], REPEATED[usize::from(again)]);
            }
        }
        Op::Synchronised { x, lock } => {
            for (held, grade) in own.iter_mut().enumerate() {
                let inside = below[x][held | lock];
                *grade = if held & lock != 0 { inside } else { inside.max(2) };
            }
        }
        Op::Assert { x } => {
            for (held, grade) in own.iter_mut().enumerate() {
                *grade = ASSERTED[usize::from(below[x][held])];
            }
        }
        Op::Call { x, method, locks, free } => {
            let callee = freed(tables[method], usize::from(free));
            for (held, grade) in own.iter_mut().enumerate() {
                *grade = compose(below[x][held], callee[callee_entry(held, locks)]);
            }
        }
        Op::Fork { x, .. } => {
            for (held, grade) in own.iter_mut().enumerate() {
                *grade = compose(below[x][held], 2);
            }
        }
    }
    table
}

fn callee_entry(held: usize, locks: [usize; 4]) -> usize {
    let mut entry = 0;
    for (j, lock) in locks.into_iter().enumerate() {
        if held & lock != 0 {
            entry |= 1 << j;
        }
    }
    entry
}

/// The largest entry over all choices for the free names, from all of them held down to none.
fn largest_entry(table: &Table, named: usize, free: usize) -> u8 {
    let mut largest = table[named];
    let mut chosen = free;
    while chosen != 0 {
        largest = largest.max(table[named | chosen]);
        chosen = (chosen - 1) & free;
    }
    largest
}

/// The table with the largest entry over all choices for the free names at each entry: one name after the other, the entries
/// with it and without it both get the larger of the two.
fn freed(mut table: Table, free: usize) -> Table {
    for name in [1, 2, 4, 8] {
        if free & name == 0 {
            continue;
        }
        for without in (0..16).filter(|entry| entry & name == 0) {
            let larger = table[without].max(table[without | name]);
            table[without] = larger;
            table[without | name] = larger;
        }
    }
    table
}

/// The first broken constraint: method by method, in each its declaration, the main, its forks.
pub fn first_broken(way: Way, program: &Program, tables: &[Table]) -> Option<Broken> {
    let mut scratch = Vec::new();
    for (number, method) in program.methods.iter().enumerate() {
        let broken = |kind, held: usize| Some(Broken { method: number as u8, kind, held: held as u8 });
        if let Some(declared) = method.declared {
            let root = root_table(way, program, method, tables, &mut scratch);
            if let Some(held) = (0..method.entries()).find(|&held| root[held] > declared[held]) {
                return broken(Kind::Declared, held);
            }
        }
        if number == 0 && tables[0][0] > 3 {
            return broken(Kind::Main, 0);
        }
        for (node, own) in program.nodes[method.nodes.clone()].iter().enumerate() {
            if let Op::Fork { method: forked, .. } = own.op {
                let entries = program.methods[forked].entries();
                if let Some(held) = (1..entries).step_by(2).find(|&held| tables[forked][held] > 3) {
                    return broken(Kind::Fork { node: node as u16 }, held);
                }
            }
        }
    }
    None
}
