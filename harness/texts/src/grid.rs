//! Programs of even size, to see how time grows with one number while the others stay.

use crate::program::{op, Field, Method, Node, Program, NO_NAME};

/// A program of methods that are all alike.
#[derive(Clone, Copy, Debug)]
pub struct Grid {
    /// At least 3.
    pub methods: usize,
    /// For each method; at least 8.
    pub nodes: usize,
    pub locks: u8,
    /// At least 1 and below the number of methods: a chain of so many methods calls one another, and a grade goes up it.
    pub rounds: usize,
}

const FINAL: u8 = 0;
const UNGUARDED: u8 = 1;

fn fields() -> Vec<Field> {
    vec![Field { wide: 0, guard: 0 }, Field { wide: 0, guard: 3 }]
}

impl Grid {
    pub fn program(self) -> Program {
        Program { fields: fields(), methods: (0..self.methods).map(|number| self.method(number)).collect() }
    }

    /// Methods 1 up to the number of rounds each call the next; the last of them is the source of the grade.
    fn method(self, number: usize) -> Method {
        let is_source = number == self.rounds;
        let is_link = (1..self.rounds).contains(&number);
        let mut method = Method::new(if number == 0 { 0 } else { self.locks });
        let plain = method.push(Node::default());
        method.push(match (is_source, is_link) {
            (true, _) => Node::of(op::READ, &[plain]).naming(UNGUARDED, &[]),
            (_, true) => {
                Node::of(op::CALL, &[plain]).naming(number as u8 + 1, &[0, 1, 2, 3][..usize::from(self.locks)])
            }
            _ => Node::of(op::CALL, &[plain]).naming(0, &[]),
        });
        fill(&mut method, self.nodes, FINAL);
        method
    }
}

/// A program of full size, 64 methods of 16 nodes with 4 lock names but for the main, in which nearly every node is a call.
/// The last so many of the four names in each are FF. No grade hangs on a held set, so FF leaves the grades and the rounds.
pub fn calls(free: usize) -> Program {
    let mut locks = [0, 1, 2, 3];
    locks[4 - free..].fill(NO_NAME);
    let methods = (0..64).map(|number| chain_of_calls(number, locks));
    Program { fields: fields(), methods: methods.collect() }
}

/// Fifteen calls one after the other. The main, which has no names, calls itself; the last method reads before it calls.
fn chain_of_calls(number: usize, locks: [u8; 4]) -> Method {
    let mut method = Method::new(if number == 0 { 0 } else { 4 });
    let mut last = method.push(Node::default());
    for which in 1..16 {
        let callee = 1 + (15 * number + which) % 63;
        last = method.push(match (number, which) {
            (0, _) => Node::of(op::CALL, &[last]).naming(0, &[]),
            (63, 1) => Node::of(op::READ, &[last]).naming(UNGUARDED, &[]),
            _ => Node::of(op::CALL, &[last]).naming(callee as u8, &locks),
        });
    }
    method
}

/// Adds nodes above the root that leave its grade as it is, up to the number wanted.
pub fn fill(method: &mut Method, nodes: usize, final_field: u8) {
    for which in 0.. {
        let root = method.nodes.len() as u16 - 1;
        let room = nodes - method.nodes.len();
        match (which % 3, room) {
            (_, 0) => return,
            (0, 2..) => {
                let plain = method.push(Node::default());
                method.push(Node::of(op::SEQUENCE, &[root, plain]));
            }
            (1, 3..) => {
                let other = method.push(Node::default());
                let test = method.push(Node::default());
                method.push(Node::of(op::CHOICE, &[test, root, other]));
            }
            _ => {
                method.push(Node::of(op::READ, &[root]).naming(final_field, &[]));
            }
        }
    }
}

#[cfg(test)]
mod tests {
    use super::*;
    use ikhzorvan::{Accepted, Verdict};

    #[test]
    fn a_grid_has_the_size_and_the_rounds_that_it_says() {
        for (methods, nodes, locks, rounds) in [(3, 8, 0, 1), (5, 9, 2, 4), (64, 16, 4, 63), (64, 16, 1, 17)] {
            let program = Grid { methods, nodes, locks, rounds }.program();
            assert_eq!(program.node_count(), methods * nodes);
            let verdict = oracle::graded(&program.text()).expect("readable").verdict;
            assert_eq!(verdict, Verdict::Accepted(Accepted { methods: methods as u8, rounds: rounds as u16 }));
        }
    }

    #[test]
    fn calls_are_graded_the_same_whatever_is_ff() {
        let graded = |free: usize| oracle::graded(&calls(free).text()).expect("readable");
        assert_eq!(calls(0).node_count(), 1024);
        assert_eq!(graded(0).verdict.number(), 0);
        for free in 1..=4 {
            assert_eq!((graded(free).verdict, graded(free).tables), (graded(0).verdict, graded(0).tables));
        }
    }
}
