//! From text to program.

use ikhzorvan::{Refusal, LONGEST_TEXT};
use std::ops::Range;

pub struct Program {
    pub methods: Vec<Method>,
    /// The nodes of all methods, one method after the other.
    pub nodes: Vec<Node>,
}

pub struct Method {
    pub k: u8,
    pub declared: Option<[u8; 16]>,
    /// Where the method's nodes stand. The last is its root.
    pub nodes: Range<usize>,
}

impl Method {
    pub fn entries(&self) -> usize {
        1 << self.k
    }
}

#[derive(Clone, Copy)]
pub struct Field {
    pub unprotected: u8,
    pub guard: u8,
}

/// Children count from 0 within the method. A `lock` is the bit of the lock's name, and 0 where it has none; `free` has the
/// bits of the callee's names that are FF.
pub enum Op {
    Plain,
    Read { x: usize, field: Field, lock: usize },
    Write { x: usize, y: usize, field: Field, lock: usize },
    Sequence { x: usize, y: usize },
    Choice { x: usize, y: usize, z: usize },
    Loop { x: usize, y: usize },
    Synchronised { x: usize, lock: usize },
    Assert { x: usize },
    Call { x: usize, method: usize, locks: [usize; 4], free: u8 },
    Fork { x: usize, method: usize },
}

pub struct Node {
    pub op: Op,
    /// Is the node the root, or below it?
    pub counts: bool,
}

const NO_NAME: u8 = 0xFF;

struct Lines<'a> {
    text: &'a [u8],
    at: usize,
    line: u16,
    frame: [u8; 21],
}

impl Lines<'_> {
    /// Reads the next line into `frame`, and tells how many bytes it stands for; 0 at the text's end.
    fn next(&mut self) -> Result<usize, Refusal> {
        self.line += 1;
        let rest = &self.text[self.at..];
        if rest.is_empty() {
            return Ok(0);
        }
        let malformed = Refusal::Malformed { line: self.line };
        let end = rest.iter().position(|&b| b == b'\n').ok_or(malformed)?;
        if end == 0 || end % 2 != 0 {
            return Err(malformed);
        }
        for (i, pair) in rest[..end].chunks_exact(2).enumerate() {
            let (Some(high), Some(low)) = (digit(pair[0]), digit(pair[1])) else {
                return Err(malformed);
            };
            // A longer line is refused for its length, and its bytes are only looked at for being digits.
            if let Some(byte) = self.frame.get_mut(i) {
                *byte = high * 16 + low;
            }
        }
        self.at += end + 1;
        Ok(end / 2)
    }

    fn expect(&mut self, kind: u8, len: usize) -> Result<(), Refusal> {
        let found = self.next()?;
        if found != len || self.frame[0] != kind {
            return Err(self.misframed());
        }
        Ok(())
    }

    fn expect_end(&mut self) -> Result<(), Refusal> {
        match self.next()? {
            0 => Ok(()),
            _ => Err(self.misframed()),
        }
    }

    fn two_bytes(&self, at: usize) -> usize {
        usize::from(self.frame[at]) * 256 + usize::from(self.frame[at + 1])
    }

    fn misframed(&self) -> Refusal {
        Refusal::Misplaced { line: self.line }
    }

    fn check_value(&self, ok: bool) -> Result<(), Refusal> {
        if ok {
            Ok(())
        } else {
            Err(Refusal::OutOfRange { line: self.line })
        }
    }

    fn check_naming(&self, ok: bool) -> Result<(), Refusal> {
        if ok {
            Ok(())
        } else {
            Err(Refusal::Unlinked { line: self.line })
        }
    }
}

fn digit(byte: u8) -> Option<u8> {
    match byte {
        b'0'..=b'9' => Some(byte - b'0'),
        b'A'..=b'F' => Some(byte - b'A' + 10),
        _ => None,
    }
}

pub fn program(text: &[u8]) -> Result<Program, Refusal> {
    if text.len() > LONGEST_TEXT {
        return Err(Refusal::Overlong);
    }
    let mut lines = Lines { text, at: 0, line: 0, frame: [0; 21] };
    let (method_count, field_count, node_count) = header(&mut lines)?;
    let fields = fields(&mut lines, field_count)?;
    let methods = methods(&mut lines, method_count, node_count)?;
    let mut nodes = Vec::with_capacity(node_count);
    for method in &methods {
        let first = nodes.len();
        let mut named = vec![false; method.nodes.len()];
        for own in 0..method.nodes.len() {
            lines.expect(3, 13)?;
            let op = op(&lines, &fields, &methods, method.k, own, &mut named)?;
            nodes.push(Node { op, counts: false });
        }
        mark_what_counts(&mut nodes[first..]);
    }
    lines.expect_end()?;
    Ok(Program { methods, nodes })
}

fn header(lines: &mut Lines) -> Result<(usize, usize, usize), Refusal> {
    lines.expect(1, 5)?;
    let methods = usize::from(lines.frame[1]);
    let fields = usize::from(lines.frame[2]);
    let nodes = lines.two_bytes(3);
    lines.check_value((1..=64).contains(&methods) && fields <= 64 && (1..=1024).contains(&nodes))?;
    Ok((methods, fields, nodes))
}

fn fields(lines: &mut Lines, count: usize) -> Result<Vec<Field>, Refusal> {
    let mut fields = Vec::with_capacity(count);
    for _ in 0..count {
        lines.expect(2, 3)?;
        let [_, wide, guard, ..] = lines.frame;
        lines.check_value(wide <= 1 && guard <= 3)?;
        fields.push(Field { unprotected: 2 + wide, guard });
    }
    Ok(fields)
}

fn methods(lines: &mut Lines, count: usize, node_count: usize) -> Result<Vec<Method>, Refusal> {
    let mut methods = Vec::with_capacity(count);
    let mut total = 0;
    for number in 0..count {
        lines.expect(4, 21)?;
        let k = lines.frame[1];
        let nodes = lines.two_bytes(2);
        let declared = lines.frame[4];
        let mut grades = [0; 16];
        grades.copy_from_slice(&lines.frame[5..21]);
        lines.check_value(k <= 4 && (number > 0 || k == 0))?;
        lines.check_value((1..=1024).contains(&nodes))?;
        lines.check_value(declared <= 1 && grades.iter().all(|&grade| grade <= 4))?;
        let own = if declared == 1 { 1 << k } else { 0 };
        lines.check_value(grades[own..].iter().all(|&grade| grade == 0))?;
        methods.push(Method { k, declared: (declared == 1).then_some(grades), nodes: total..total + nodes });
        total += nodes;
    }
    lines.check_naming(total == node_count)?;
    Ok(methods)
}

/// The op of the node line just read, which is number `own` of a method with `k` lock names.
fn op(
    lines: &Lines,
    fields: &[Field],
    methods: &[Method],
    k: u8,
    own: usize,
    named: &mut [bool],
) -> Result<Op, Refusal> {
    let [x, y, z] = [2, 4, 6].map(|at| lines.two_bytes(at));
    let u = usize::from(lines.frame[8]);
    let t = [9, 10, 11, 12].map(|at| lines.frame[at]);
    let (children, lists_u, names) = match lines.frame[1] {
        0 => (0, false, 0),
        1 => (1, true, 1),
        2 => (2, true, 1),
        3 | 5 => (2, false, 0),
        4 => (3, false, 0),
        6 => (1, false, 1),
        7 => (1, false, 0),
        8 => (1, true, 4),
        9 => (1, true, 0),
        _ => return Err(Refusal::OutOfRange { line: lines.line }),
    };
    lines.check_value((children > 0 || x == 0) && (children > 1 || y == 0) && (children > 2 || z == 0))?;
    lines.check_value(lists_u || u == 0)?;
    lines.check_value(t[names..].iter().all(|&t| t == 0))?;

    for &child in &[x, y, z][..children] {
        lines.check_naming(child < own && !named[child])?;
        named[child] = true;
    }
    let lock_bit = |t: u8| if t == NO_NAME { 0 } else { 1 << t };
    Ok(match lines.frame[1] {
        0 => Op::Plain,
        op @ (1 | 2) => {
            lines.check_naming(u < fields.len())?;
            let field = fields[u];
            let needs_lock = field.guard == 1 || field.guard == 2;
            lines.check_naming(if needs_lock { t[0] < k || t[0] == NO_NAME } else { t[0] == 0 })?;
            let lock = if needs_lock { lock_bit(t[0]) } else { 0 };
            if op == 1 {
                Op::Read { x, field, lock }
            } else {
                Op::Write { x, y, field, lock }
            }
        }
        3 => Op::Sequence { x, y },
        4 => Op::Choice { x, y, z },
        5 => Op::Loop { x, y },
        6 => {
            lines.check_naming(t[0] < k)?;
            Op::Synchronised { x, lock: lock_bit(t[0]) }
        }
        7 => Op::Assert { x },
        8 => {
            lines.check_naming(u < methods.len())?;
            let mut locks = [0; 4];
            let mut free = 0;
            for (j, &t) in t.iter().enumerate() {
                let needed = j < usize::from(methods[u].k);
                lines.check_naming(if needed { t < k || t == NO_NAME } else { t == 0 })?;
                locks[j] = if needed { lock_bit(t) } else { 0 };
                free |= u8::from(t == NO_NAME) << j;
            }
            Op::Call { x, method: u, locks, free }
        }
        _ => {
            lines.check_naming(u < methods.len() && methods[u].k > 0)?;
            Op::Fork { x, method: u }
        }
    })
}

/// Marks the root of a method and all nodes below it. Children are below their nodes, so one walk down does it.
fn mark_what_counts(nodes: &mut [Node]) {
    if let Some(root) = nodes.last_mut() {
        root.counts = true;
    }
    for own in (0..nodes.len()).rev() {
        if !nodes[own].counts {
            continue;
        }
        let children = match nodes[own].op {
            Op::Plain => [None; 3],
            Op::Read { x, .. }
            | Op::Synchronised { x, .. }
            | Op::Assert { x }
            | Op::Call { x, .. }
            | Op::Fork { x, .. } => [Some(x), None, None],
            Op::Write { x, y, .. } | Op::Sequence { x, y } | Op::Loop { x, y } => [Some(x), Some(y), None],
            Op::Choice { x, y, z } => [Some(x), Some(y), Some(z)],
        };
        for child in children.into_iter().flatten() {
            nodes[child].counts = true;
        }
    }
}
