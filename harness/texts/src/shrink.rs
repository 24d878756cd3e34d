//! Shrinking a text while something about it stays.

use crate::program::{op, Method, Node, Program};

/// The smallest text that can be had from this one by small steps, each of which `stays`.
pub fn shrunk(text: &[u8], stays: &dyn Fn(&[u8]) -> bool) -> Vec<u8> {
    let mut best = text.to_vec();
    while let Some(smaller) = smaller(&best, stays) {
        best = smaller;
    }
    best
}

fn smaller(text: &[u8], stays: &dyn Fn(&[u8]) -> bool) -> Option<Vec<u8>> {
    let program = Program::of_text(text);
    let by_program = program.iter().flat_map(smaller_programs).map(|program| program.text());
    let mut candidates = by_program.chain(fewer_lines(text));
    candidates.find(|candidate| weight(candidate) < weight(text) && stays(candidate))
}

/// What falls with each step: bytes first, then how much of them is not 0.
fn weight(text: &[u8]) -> (usize, usize) {
    (text.len(), text.iter().filter(|&&byte| byte != b'0').count())
}

fn fewer_lines(text: &[u8]) -> impl Iterator<Item = Vec<u8>> + '_ {
    let lines: Vec<&[u8]> = text.split_inclusive(|&byte| byte == b'\n').collect();
    let count = lines.len();
    let halves = [count / 2, count / 4, count / 8].into_iter().filter(|&len| len > 1);
    let spans = halves.flat_map(move |len| (0..=count - len).step_by(len).map(move |at| (at, len)));
    let spans = spans.chain((0..count).map(|at| (at, 1)));
    spans.map(move |(at, len)| [&lines[..at], &lines[at + len..]].concat().concat())
}

/// Programs that have a little less, largest steps first.
fn smaller_programs(program: &Program) -> impl Iterator<Item = Program> + '_ {
    let methods = (1..program.methods.len()).map(|number| without_method(program, number));
    let fields = (0..program.fields.len()).map(|number| without_field(program, number));
    let declarations = (0..program.methods.len()).filter_map(|number| without_declaration(program, number));
    let places = || {
        let methods = program.methods.iter().enumerate();
        methods.flat_map(|(number, method)| (0..method.nodes.len()).map(move |node| (number, node)))
    };
    let lifted = places().flat_map(|(method, node)| in_place_of_child(program, method, node));
    let unnamed = places().filter_map(|(method, node)| without_unnamed(program, method, node));
    let plain = places().map(|(method, node)| with_plain(program, method, node));
    methods.chain(fields).chain(declarations).chain(lifted).chain(unnamed).chain(plain)
}

/// The program without a method; calls and forks of it become plain.
fn without_method(program: &Program, number: usize) -> Program {
    let mut program = program.clone();
    program.methods.remove(number);
    renumbered(program, [op::CALL, op::FORK], number)
}

/// The program without a field; accesses to it become plain.
fn without_field(program: &Program, number: usize) -> Program {
    let mut program = program.clone();
    program.fields.remove(number);
    renumbered(program, [op::READ, op::WRITE], number)
}

/// The program once what the nodes of two ops name, the field or method `gone`, is there no more.
fn renumbered(mut program: Program, ops: [u8; 2], gone: usize) -> Program {
    for node in program.methods.iter_mut().flat_map(|method| &mut method.nodes) {
        if ops.contains(&node.op) {
            renumber(node, gone);
        }
    }
    program
}

/// U once the field or method `gone` is there no more.
fn renumber(node: &mut Node, gone: usize) {
    if usize::from(node.u) == gone {
        *node = Node::default();
    } else if usize::from(node.u) > gone {
        node.u -= 1;
    }
}

fn without_declaration(program: &Program, number: usize) -> Option<Program> {
    let mut program = program.clone();
    program.methods[number].declared.take()?;
    Some(program)
}

fn with_plain(program: &Program, method: usize, node: usize) -> Program {
    let mut program = program.clone();
    program.methods[method].nodes[node] = Node::default();
    program
}

/// The program without a node that no other names; where it is the root, the node before it becomes that.
fn without_unnamed(program: &Program, method: usize, node: usize) -> Option<Program> {
    let nodes = &program.methods[method].nodes;
    let is_named = nodes.iter().any(|other| other.named().contains(&(node as u16)));
    if is_named || nodes.len() == 1 {
        return None;
    }
    let mut program = program.clone();
    remove_node(&mut program.methods[method], node);
    Some(program)
}

/// Programs in which one of a node's children stands in the node's place.
fn in_place_of_child(program: &Program, method: usize, node: usize) -> Vec<Program> {
    let named = program.methods[method].nodes[node].named().to_vec();
    let lifted = named.into_iter().filter(|&child| usize::from(child) < node).map(|child| {
        let mut program = program.clone();
        let own = &mut program.methods[method];
        own.nodes[node] = own.nodes[usize::from(child)];
        remove_node(own, usize::from(child));
        program
    });
    lifted.collect()
}

fn remove_node(method: &mut Method, gone: usize) {
    method.nodes.remove(gone);
    for node in &mut method.nodes {
        let count = op::children(node.op);
        for child in &mut node.children[..count] {
            if usize::from(*child) > gone {
                *child -= 1;
            }
        }
    }
}

#[cfg(test)]
mod tests {
    use super::*;
    use crate::random::{undeclared, Shape};
    use crate::rng::Rng;

    fn loops(text: &[u8]) -> bool {
        let readable = oracle::graded(text).is_ok();
        let has_loop = |method: &Method| method.nodes.iter().any(|node| node.op == op::LOOP);
        readable && Program::of_text(text).is_some_and(|program| program.methods.iter().any(has_loop))
    }

    #[test]
    fn a_readable_text_with_a_loop_shrinks_to_just_that() {
        let text = undeclared(&mut Rng::of_seed(7), Shape { nodes: 200, methods: 9, ..Shape::full() }).text();
        assert!(loops(&text));
        let shrunk = Program::of_text(&shrunk(&text, &loops)).expect("a program");
        assert_eq!(shrunk.node_count(), 3 + shrunk.methods.len() - 1, "{shrunk:?}");
        assert!(shrunk.methods.len() <= 2 && shrunk.fields.is_empty(), "{shrunk:?}");
    }

    #[test]
    fn a_text_that_is_no_program_shrinks_by_lines() {
        let shrunk = shrunk(b"01\n02\nzz\n03\n04", &|text| text.contains(&b'z'));
        assert_eq!(shrunk, b"zz\n");
    }
}
