//! Programs that take many rounds: rings of methods, each of which calls the next.

use crate::grid::fill;
use crate::program::{op, Field, Method, Node, Program, NO_NAME};
use crate::rng::Rng;

/// The lock names as they are.
const SAME: [u8; 4] = [0, 1, 2, 3];

/// The one field of a ring: narrow and write-guarded, so that a read of it is 1 with its lock held and 2 without.
const FIELD: Field = Field { wide: 0, guard: 2 };

/// A method that only calls another.
fn caller(callee: usize, locks: [u8; 4]) -> Method {
    let mut method = Method::new(4);
    let plain = method.push(Node::default());
    method.push(Node::of(op::CALL, &[plain]).naming(callee as u8, &locks));
    method
}

/// A ring of 3 to 63 methods with as many rounds as we know how to make: some 12 for each method.
///
/// A grade that has risen goes round the ring, from callee to caller. Where it comes back to the first method it has the
/// lock names turned by one, so that it rises anew at other held sets; once there are none left, an assert makes error of
/// cmpd, and the next grade goes round.
pub fn longest(methods: usize) -> Program {
    // The main does nothing, so that the ring is accepted whatever its grades are.
    let mut ring = vec![Method::idle(0), turning(), caller(3, SAME)];
    ring.extend((3..=methods).map(|number| caller(number % methods + 1, SAME)));
    Program { fields: vec![FIELD], methods: ring }
}

/// The longest ring of all, filled up to 1,024 nodes, so that each of its rounds has the most to do.
pub fn longest_and_full() -> Program {
    let mut program = longest(63);
    program.fields.push(Field { wide: 0, guard: 0 });
    for method in &mut program.methods {
        fill(method, 16, 1);
    }
    program
}

/// The first method of the longest ring: a choice of an assert within locks and a call with the names turned.
fn turning() -> Method {
    let mut method = Method::new(4);
    let choice = method.push(Node::default());
    let plain = method.push(Node::default());
    let call = method.push(Node::of(op::CALL, &[plain]).naming(2, &[2, 2, 2, 3]));
    let locked = method.push(Node::of(op::SYNCHRONISED, &[call]).naming(0, &[2]));
    let asserted = method.push(Node::of(op::ASSERT, &[locked]));
    let plain = method.push(Node::default());
    let read = method.push(Node::of(op::READ, &[plain]).naming(0, &[2]));
    let turned = method.push(Node::of(op::CALL, &[read]).naming(2, &[3, 0, 1, 2]));
    method.push(Node::of(op::CHOICE, &[choice, asserted, turned]));
    method
}

/// A ring of random length whose methods call the next with any names, and some of which do more than that.
pub fn random(rng: &mut Rng) -> Program {
    let methods = if rng.percent(5) { rng.between(20, 63) } else { rng.between(2, 12) };
    if methods > 2 && rng.percent(10) {
        return longest(methods);
    }
    let mut ring = vec![Method::idle(0)];
    for number in 1..=methods {
        let mut method = caller(number % methods + 1, locks(rng));
        if number == 1 || rng.percent(15) {
            more(rng, &mut method, methods);
        }
        ring.push(method);
    }
    Program { fields: vec![FIELD], methods: ring }
}

fn locks(rng: &mut Rng) -> [u8; 4] {
    match rng.below(4) {
        0 => [1, 2, 3, 0],
        1 => std::array::from_fn(|_| rng.pick(&[0, 1, 2, 3, NO_NAME])),
        _ => SAME,
    }
}

/// Puts one to four nodes more above a method's root.
fn more(rng: &mut Rng, method: &mut Method, methods: usize) {
    for _ in 0..rng.between(1, 4) {
        let root = (method.nodes.len() - 1) as u16;
        let lock = rng.below(4) as u8;
        let node = match rng.below(6) {
            0 => Node::of(op::ASSERT, &[root]),
            1 => Node::of(op::SYNCHRONISED, &[root]).naming(0, &[lock]),
            2 => Node::of(op::FORK, &[root]).naming(rng.between(1, methods) as u8, &[]),
            3 => Node::of(op::CALL, &[root]).naming(rng.between(1, methods) as u8, &locks(rng)),
            _ => Node::of(op::READ, &[root]).naming(0, &[lock]),
        };
        method.push(node);
    }
}

#[cfg(test)]
mod tests {
    use super::*;
    use ikhzorvan::{Accepted, Verdict};

    fn rounds(program: Program) -> usize {
        match oracle::graded(&program.text()).expect("readable").verdict {
            Verdict::Accepted(Accepted { rounds, .. }) => usize::from(rounds),
            refused => panic!("{refused:?}"),
        }
    }

    #[test]
    fn the_longest_ring_takes_twelve_rounds_for_each_method() {
        assert_eq!(rounds(longest(24)) - rounds(longest(12)), 12 * 12);
    }

    #[test]
    fn filling_the_longest_ring_leaves_its_rounds() {
        assert_eq!(longest_and_full().node_count(), 1024);
        assert_eq!(rounds(longest_and_full()), rounds(longest(63)));
    }
}
