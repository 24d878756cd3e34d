//! Programs whose grades have varied reasons: suppliers with any declared tables, methods that call them and each other with
//! names and with FF, and every op around the calls. Nearly all of them are accepted.

use crate::program::{op, Field, Method, Node, Program, NO_NAME};
use crate::rng::Rng;

/// Each kind of field, by its place: final, guarded, write-guarded, write-guarded and wide, unguarded, unguarded and wide.
const FIELDS: [Field; 6] = [
    Field { wide: 0, guard: 0 },
    Field { wide: 0, guard: 1 },
    Field { wide: 0, guard: 2 },
    Field { wide: 1, guard: 2 },
    Field { wide: 0, guard: 3 },
    Field { wide: 1, guard: 3 },
];

/// The number of the method that forks name: it does nothing, so that no fork is refused.
const FORKED: usize = 1;

/// A random program. The main does nothing most times, so that the grades of the others need not be low.
pub fn program(rng: &mut Rng) -> Program {
    let suppliers = rng.between(1, 3);
    let callers = if rng.percent(5) { rng.between(8, 30) } else { rng.between(2, 7) };
    let mut names = vec![0, rng.between(1, 4) as u8];
    names.extend((0..suppliers + callers).map(|_| rng.pick(&[0, 1, 1, 2, 2, 2, 3, 4])));
    let is_supplier = |number: usize| (2..2 + suppliers).contains(&number);
    let methods = (0..names.len()).map(|number| match number {
        0 if rng.percent(80) => Method::idle(0),
        FORKED => Method::idle(names[number]),
        _ if is_supplier(number) => Method { declared: Some(table(rng, names[number])), ..Method::idle(names[number]) },
        _ => {
            let size = rng.pick(&[2, 3, 4, 5, 6, 8, 10, 14]);
            let mut body = Body { rng, names: &names, suppliers, method: Method::new(names[number]) };
            body.tree(size);
            body.method
        }
    });
    Program { fields: FIELDS.to_vec(), methods: methods.collect() }
}

/// A table without order: atomic here and there in something lower, or any grades.
fn table(rng: &mut Rng, k: u8) -> Vec<u8> {
    let low = rng.below(2) as u8;
    let grades: &[u8] = match rng.below(4) {
        0 => &[0, 1, 2, 2, 3, 4],
        1 => &[1, 2, 3],
        _ => &[low, low, low, 2],
    };
    (0..1 << k).map(|_| rng.pick(grades)).collect()
}

/// A caller's body while it grows.
struct Body<'a> {
    rng: &'a mut Rng,
    /// How many lock names each method has.
    names: &'a [u8],
    suppliers: usize,
    method: Method,
}

impl Body<'_> {
    /// Adds a tree of at most so many nodes, at least 1, and tells its root.
    fn tree(&mut self, size: usize) -> u16 {
        let node = match (size, self.rng.below(20)) {
            (..=1, _) => Node::default(),
            (_, 0) if self.method.k > 0 => {
                let child = self.tree(size - 1);
                Node::of(op::SYNCHRONISED, &[child]).naming(0, &[self.lock(0)])
            }
            (_, 1) => Node::of(op::ASSERT, &[self.tree(size - 1)]),
            (_, 2) => Node::of(op::FORK, &[self.tree(size - 1)]).naming(FORKED as u8, &[]),
            (_, 3 | 4) => {
                let child = self.tree(size - 1);
                self.access(Node::of(op::READ, &[child]))
            }
            (..=2, _) | (_, 5..=11) => {
                let child = self.tree(size - 1);
                self.call(child)
            }
            (_, 12) => {
                let children = self.trees(size - 1, 2);
                self.access(Node::of(op::WRITE, &children))
            }
            (_, 13 | 14) => Node::of(op::LOOP, &self.trees(size - 1, 2)),
            (4.., 15..=17) => Node::of(op::CHOICE, &self.trees(size - 1, 3)),
            _ => Node::of(op::SEQUENCE, &self.trees(size - 1, 2)),
        };
        self.method.push(node)
    }

    /// So many trees of about the same size.
    fn trees(&mut self, size: usize, count: usize) -> Vec<u16> {
        (0..count).map(|_| self.tree((size / count).max(1))).collect()
    }

    fn access(&mut self, node: Node) -> Node {
        let field = self.rng.pick(&[0, 1, 1, 2, 2, 3, 4, 4, 5]);
        let is_guarded = matches!(FIELDS[usize::from(field)].guard, 1 | 2);
        let lock = if is_guarded { self.lock(20) } else { 0 };
        node.naming(field, &[lock])
    }

    /// A call of a supplier or of another caller, the method itself too. Most calls of suppliers have names, so that what the
    /// supplier declares for each set comes through to methods whose callers have none.
    fn call(&mut self, before: u16) -> Node {
        let is_supplier = self.rng.percent(40);
        let callee = match is_supplier {
            true => self.rng.between(2, 1 + self.suppliers),
            false => self.rng.between(2 + self.suppliers, self.names.len() - 1),
        };
        let free = if is_supplier { self.rng.pick(&[0, 0, 0, 50]) } else { self.rng.pick(&[0, 30, 60, 100]) };
        let in_order = self.rng.percent(50);
        let locks: Vec<u8> = (0..self.names[callee])
            .map(|name| match in_order && name < self.method.k && !self.rng.percent(free) {
                true => name,
                false => self.lock(free),
            })
            .collect();
        Node::of(op::CALL, &[before]).naming(callee as u8, &locks)
    }

    /// FF so many times in a hundred, else any name of the method's.
    fn lock(&mut self, free: usize) -> u8 {
        match self.method.k {
            0 => NO_NAME,
            _ if self.rng.percent(free) => NO_NAME,
            k => self.rng.below(usize::from(k)) as u8,
        }
    }
}

#[cfg(test)]
mod tests {
    use super::*;

    #[test]
    fn every_program_can_be_read_and_most_are_accepted() {
        let rng = &mut Rng::of_seed(207);
        let numbers: Vec<u8> =
            (0..500).map(|_| oracle::graded(&program(rng).text()).expect("readable").verdict.number()).collect();
        let accepted = numbers.iter().filter(|&&number| number == 0).count();
        assert!(accepted > 400, "{accepted}");
    }
}
