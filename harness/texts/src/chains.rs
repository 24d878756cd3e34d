//! Programs with long reasons: a grade goes round a ring of methods again and again, each time at another held set, first as
//! atomic and then as cmpd.

use crate::program::{op, Field, Method, Node, Program};
use crate::rng::Rng;

/// The lock names as they are.
const SAME: [u8; 4] = [0, 1, 2, 3];

/// A field that is final, so that a read of it leaves the grade below it as it is.
const FINAL: Field = Field { wide: 0, guard: 0 };

/// The number of the supplier, and of the ring's first method.
const SUPPLIER: u8 = 1;
const FIRST: usize = 2;

/// The one set at which the supplier is declared atomic; it is const elsewhere.
const START: usize = 14;

/// The names that the ring's first method calls the next by, one call for each. At every held set but ∅ and all four, one of
/// these is a set that got its grade a turn before.
const NAMES: [[u8; 4]; 4] = [[1, 1, 2, 3], [0, 3, 2, 3], [3, 2, 2, 3], [0, 1, 2, 0]];

/// The names by which the set that gets atomic last is the one that starts, where it meets the supplier's atomic.
const BACK: [u8; 4] = [3, 3, 0, 3];

/// A program of so many nodes in all with a ring of so many methods, 1 to 62; it has at least [`fewest_nodes`].
///
/// Atomic comes from the supplier, at one held set, and turns up at one set more with each turn of the ring, thirteen in all.
/// Back at the first set it meets the supplier's, atomic twice is cmpd, and that goes the same way. The reason for the last of
/// these grades goes back over all turns, and in each over all methods.
pub fn longest(ring: usize, nodes: usize) -> Program {
    let mut methods = vec![Method::idle(0), supplier(), first(ring)];
    methods.extend((1..ring).map(|number| caller(FIRST + (number + 1) % ring)));
    let mut program = Program { fields: vec![FINAL], methods };
    // What is left is spread over the ring.
    for left in (0..nodes - program.node_count()).rev() {
        let method = &mut program.methods[FIRST + left % ring];
        let root = method.nodes.len() as u16 - 1;
        method.push(Node::of(op::READ, &[root]).naming(0, &[]));
    }
    program
}

/// The entry of the longest reason, method and held set: the method that the ring's first calls, which is the last that a grade
/// comes to, at the set that gets cmpd last.
pub fn last(ring: usize) -> (usize, usize) {
    (FIRST + 1 % ring, 11)
}

/// How many nodes a ring of so many methods has before it is filled.
pub fn fewest_nodes(ring: usize) -> usize {
    longest(ring, 2 + first(ring).nodes.len() + 2 * (ring - 1)).node_count()
}

/// A random one that is not too long, for a reason of some hundred steps.
pub fn random(rng: &mut Rng) -> Program {
    let ring = rng.pick(&[1, 1, 2, 3, 5]);
    let more = if rng.percent(5) { rng.below(300) } else { rng.below(20) };
    longest(ring, fewest_nodes(ring) + more)
}

fn supplier() -> Method {
    Method { declared: Some((0..16).map(|set| if set == START { 2 } else { 0 }).collect()), ..Method::idle(4) }
}

fn call(method: &mut Method, callee: usize, names: [u8; 4]) -> u16 {
    let plain = method.push(Node::default());
    method.push(Node::of(op::CALL, &[plain]).naming(callee as u8, &names))
}

/// A method of the ring that only calls the next.
fn caller(callee: usize) -> Method {
    let mut method = Method::new(4);
    call(&mut method, callee, SAME);
    method
}

/// The ring's first method: a choice of calls, the first of which comes first.
fn first(ring: usize) -> Method {
    let next = FIRST + 1 % ring;
    let mut method = Method::new(4);
    let supplied = call(&mut method, usize::from(SUPPLIER), SAME);
    let back = call(&mut method, next, BACK);
    let mut root = method.push(Node::of(op::SEQUENCE, &[supplied, back]));
    for names in NAMES {
        let other = call(&mut method, next, names);
        let plain = method.push(Node::default());
        root = method.push(Node::of(op::CHOICE, &[plain, other, root]));
    }
    method
}

#[cfg(test)]
mod tests {
    use super::*;

    fn steps(ring: usize, nodes: usize) -> usize {
        let program = longest(ring, nodes);
        assert_eq!(program.node_count(), nodes);
        let (method, set) = last(ring);
        oracle::explain(&program.text(), method, set).expect("accepted").len()
    }

    #[test]
    fn each_node_more_is_gone_over_twenty_six_times() {
        for ring in [1, 2, 5] {
            let nodes = fewest_nodes(ring);
            assert_eq!(steps(ring, nodes + 3) - steps(ring, nodes), 26 * 3, "{ring}");
        }
    }

    #[test]
    fn the_longest_of_full_programs() {
        assert!(steps(1, 1024) > 26_000);
        assert!(steps(62, 1024) > 24_000);
    }
}
