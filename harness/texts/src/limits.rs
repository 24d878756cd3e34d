//! Texts at each limit of the paper and one past it.

use crate::program::{op, Field, Method, Node, Program, NO_NAME};
use crate::random::{undeclared, Shape};
use crate::rng::Rng;
use ikhzorvan::LONGEST_TEXT;

/// A text at a limit or just past it.
pub fn text(rng: &mut Rng) -> Vec<u8> {
    let past = rng.below(2);
    match rng.below(8) {
        0 => with_locks(rng, 4 + past as u8).text(),
        1 => full(rng, |shape| shape.methods = 64 + past).text(),
        2 => full(rng, |shape| shape.fields = 64 + past).text(),
        3 => full(rng, |shape| shape.nodes = 1024 + past).text(),
        4 => one_method(1024 + past).text(),
        5 => lines_up_to(LONGEST_TEXT + past),
        6 => far_fork(rng).text(),
        _ => padded(rng, LONGEST_TEXT + past),
    }
}

fn full(rng: &mut Rng, change: impl Fn(&mut Shape)) -> Program {
    let mut shape = Shape { methods: rng.between(1, 64), fields: rng.below(65), fewest_names: 0, ..Shape::full() };
    change(&mut shape);
    undeclared(rng, shape)
}

/// A method with so many lock names, which the main calls without any.
fn with_locks(rng: &mut Rng, k: u8) -> Program {
    let mut main = Method::new(0);
    let plain = main.push(Node::default());
    main.push(Node::of(op::CALL, &[plain]).naming(1, &[NO_NAME; 4]));
    let mut method = Method::new(k);
    let mut last = method.push(Node::default());
    for lock in 0..k {
        let guarded = Node::of(op::READ, &[last]).naming(0, &[lock]);
        last = method.push(guarded);
        if rng.percent(80) {
            last = method.push(Node::of(op::SYNCHRONISED, &[last]).naming(0, &[lock]));
        }
    }
    Program { fields: vec![Field { wide: 0, guard: rng.between(1, 2) as u8 }], methods: vec![main, method] }
}

/// A main of so many nodes, each naming the one before it.
pub fn one_method(nodes: usize) -> Program {
    let mut main = Method::new(0);
    let mut last = main.push(Node::default());
    while main.nodes.len() < nodes {
        last = main.push(Node::of(op::ASSERT, &[last]));
    }
    Program { fields: Vec::new(), methods: vec![main] }
}

/// 1,024 nodes, all but one in a main, each naming the one before it, and far down a call with four locks without a name.
pub fn deepest() -> Program {
    let mut main = Method::new(0);
    let first = main.push(Node::default());
    let mut last = main.push(Node::of(op::CALL, &[first]).naming(1, &[NO_NAME; 4]));
    while main.nodes.len() < 1023 {
        last = main.push(Node::of(op::ASSERT, &[last]));
    }
    let mut callee = Method::new(4);
    callee.push(Node::default());
    Program { fields: Vec::new(), methods: vec![main, callee] }
}

/// A fork far down a long method, of a method that is an error unless all its locks are held.
fn far_fork(rng: &mut Rng) -> Program {
    let idle = one_method(1).methods.remove(0);
    let mut forking = Method { k: rng.below(5) as u8, ..one_method(rng.between(1, 1000)).methods.remove(0) };
    let root = forking.nodes.len() as u16 - 1;
    forking.push(Node::of(op::FORK, &[root]).naming(2, &[]));
    let mut forked = Method::new(rng.between(1, 4) as u8);
    let mut last = forked.push(Node::default());
    for lock in 0..forked.k {
        last = forked.push(Node::of(op::READ, &[last]).naming(0, &[lock]));
    }
    Program { fields: vec![Field { wide: 0, guard: 1 }], methods: vec![idle, forking, forked] }
}

/// A text of just so many bytes, of good lines as far as they go.
fn lines_up_to(len: usize) -> Vec<u8> {
    let mut text = one_method(1024).text();
    while text.len() < len {
        let room = len - text.len();
        let digits = if room > 60 { 26 } else { room - 1 };
        text.extend(std::iter::repeat_n(b'0', digits));
        text.push(b'\n');
    }
    text
}

/// A random program's text, padded by any bytes to so many.
fn padded(rng: &mut Rng, len: usize) -> Vec<u8> {
    let mut text = full(rng, |_| ()).text();
    let pad = rng.pick(b"0\n \0A");
    text.resize(len, pad);
    text
}
