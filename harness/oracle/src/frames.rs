//! Reading a text: frames, and refusals 3 to 6 in their order.

use crate::grade::Grade;
use crate::program::{Access, Call, Field, Fork, Guard, Lock, Method, Node, Op, Program, Reading, Table};
use ikhzorvan::Refusal;

/// What can be wrong with a line. In each line they are looked for in this order.
#[derive(Clone, Copy, Debug)]
enum Fault {
    Malformed,
    Misplaced,
    OutOfRange,
    Unlinked,
}

/// The kinds of frame, with the byte that each begins with.
#[derive(Clone, Copy, Debug, PartialEq, Eq)]
enum Due {
    Header = 1,
    Field = 2,
    Node = 3,
    Method = 4,
}

impl Due {
    /// "Lengths in bytes are fixed."
    fn len(self) -> usize {
        match self {
            Due::Header => 5,
            Due::Field => 3,
            Due::Method => 21,
            Due::Node => 13,
        }
    }
}

/// The lines of a text that are not read yet.
struct Lines<'a> {
    rest: &'a [u8],
    /// The number of the line read last, from 1.
    line: u16,
}

impl<'a> Lines<'a> {
    fn of(text: &'a [u8]) -> Self {
        Lines { rest: text, line: 0 }
    }

    fn refuse(&self, fault: Fault) -> Refusal {
        let line = self.line;
        match fault {
            Fault::Malformed => Refusal::Malformed { line },
            Fault::Misplaced => Refusal::Misplaced { line },
            Fault::OutOfRange => Refusal::OutOfRange { line },
            Fault::Unlinked => Refusal::Unlinked { line },
        }
    }

    /// The bytes that the next line stands for, or none where the text has ended.
    fn next_line(&mut self) -> Result<Option<Vec<u8>>, Fault> {
        self.line += 1;
        if self.rest.is_empty() {
            return Ok(None);
        }
        let end = self.rest.iter().position(|&byte| byte == b'\n').ok_or(Fault::Malformed)?;
        let digits = &self.rest[..end];
        self.rest = &self.rest[end + 1..];
        bytes_of(digits).map(Some)
    }

    /// Reads the next line as a frame of the kind due, and what `read` makes of the frame's bytes after the kind.
    fn read<T>(&mut self, due: Due, read: impl FnOnce(&[u8]) -> Result<T, Fault>) -> Result<T, Refusal> {
        let frame = self.next_line().and_then(|line| line.ok_or(Fault::Misplaced));
        let value = frame.and_then(|frame| {
            if frame[0] != due as u8 || frame.len() != due.len() {
                return Err(Fault::Misplaced);
            }
            read(&frame[1..])
        });
        value.map_err(|fault| self.refuse(fault))
    }

    /// Refuses a line too many.
    fn end(&mut self) -> Result<(), Refusal> {
        match self.next_line() {
            Ok(None) => Ok(()),
            Ok(Some(_)) => Err(self.refuse(Fault::Misplaced)),
            Err(fault) => Err(self.refuse(fault)),
        }
    }
}

/// The bytes of a line without its 0A, two digits a byte.
fn bytes_of(digits: &[u8]) -> Result<Vec<u8>, Fault> {
    if digits.is_empty() || digits.len() % 2 == 1 {
        return Err(Fault::Malformed);
    }
    let pair = |pair: &[u8]| Ok(digit(pair[0])? * 16 + digit(pair[1])?);
    digits.chunks(2).map(pair).collect()
}

/// The worth of a digit: 0-9 and A-F, no others.
fn digit(byte: u8) -> Result<u8, Fault> {
    match byte {
        b'0'..=b'9' => Ok(byte - b'0'),
        b'A'..=b'F' => Ok(byte - b'A' + 10),
        _ => Err(Fault::Malformed),
    }
}

/// A two-byte number, high byte first.
fn two_bytes(bytes: &[u8]) -> usize {
    usize::from(bytes[0]) * 256 + usize::from(bytes[1])
}

/// A value is wanted to be so, else refusal 5.
fn wanted(so: bool) -> Result<(), Fault> {
    so.then_some(()).ok_or(Fault::OutOfRange)
}

struct Header {
    methods: usize,
    fields: usize,
    nodes: usize,
}

fn header(bytes: &[u8]) -> Result<Header, Fault> {
    let header =
        Header { methods: usize::from(bytes[0]), fields: usize::from(bytes[1]), nodes: two_bytes(&bytes[2..4]) };
    wanted((1..=64).contains(&header.methods))?;
    wanted(header.fields <= 64)?;
    wanted((1..=1024).contains(&header.nodes))?;
    Ok(header)
}

fn field(bytes: &[u8]) -> Result<Field, Fault> {
    wanted(bytes[0] <= 1)?;
    let guard = match bytes[1] {
        0 => Guard::Final,
        1 => Guard::Guarded,
        2 => Guard::WriteGuarded,
        3 => Guard::None,
        _ => return Err(Fault::OutOfRange),
    };
    Ok(Field { wide: bytes[0] == 1, guard })
}

/// What a method's line says of it; its nodes come later.
struct Signature {
    names: usize,
    nodes: usize,
    declared: Option<Table>,
}

fn signature(bytes: &[u8], is_main: bool) -> Result<Signature, Fault> {
    let names = usize::from(bytes[0]);
    let nodes = two_bytes(&bytes[1..3]);
    wanted(names <= if is_main { 0 } else { 4 })?;
    wanted((1..=1024).contains(&nodes))?;
    wanted(bytes[3] <= 1)?;
    let is_declared = bytes[3] == 1;
    let grades: Table =
        bytes[4..].iter().map(|&grade| Grade::of_number(grade).ok_or(Fault::OutOfRange)).collect::<Result<_, _>>()?;
    // "Grades after the 2^k-th, and all 16 if undeclared, are 00."
    let (own, rest) = grades.split_at(if is_declared { 1 << names } else { 0 });
    wanted(rest.iter().all(|&grade| grade == Grade::Const))?;
    Ok(Signature { names, nodes, declared: is_declared.then(|| own.to_vec()) })
}

/// A node's line, before it is known what it names.
struct NodeFrame {
    op: u8,
    children: [usize; 3],
    index: u8,
    locks: [u8; 4],
}

/// How many children and locks each op lists, and whether it lists U. What is listed always comes first: X before Y
/// before Z, and T0 before T1.
fn listed(op: u8) -> Option<(usize, bool, usize)> {
    match op {
        0 => Some((0, false, 0)),
        1 => Some((1, true, 1)),
        2 => Some((2, true, 1)),
        3 => Some((2, false, 0)),
        4 => Some((3, false, 0)),
        5 => Some((2, false, 0)),
        6 => Some((1, false, 1)),
        7 => Some((1, false, 0)),
        8 => Some((1, true, 4)),
        9 => Some((1, true, 0)),
        _ => None,
    }
}

fn node_frame(bytes: &[u8]) -> Result<NodeFrame, Fault> {
    let frame = NodeFrame {
        op: bytes[0],
        children: [1, 3, 5].map(|at| two_bytes(&bytes[at..])),
        index: bytes[7],
        locks: [8, 9, 10, 11].map(|at| bytes[at]),
    };
    let (children, index, locks) = listed(frame.op).ok_or(Fault::OutOfRange)?;
    // "Operands that an op doesn't list are 00."
    wanted(frame.children[children..].iter().all(|&child| child == 0))?;
    wanted(index || frame.index == 0)?;
    wanted(frame.locks[locks..].iter().all(|&lock| lock == 0))?;
    Ok(frame)
}

/// A method whose nodes are being read.
struct Body<'a> {
    fields: &'a [Field],
    signatures: &'a [Signature],
    reading: Reading,
    names: usize,
    /// The tree of each node read so far; none once another node has named it.
    trees: Vec<Option<Box<Node>>>,
    forks: Vec<Fork>,
}

impl Body<'_> {
    /// Takes in one more node.
    fn take(&mut self, bytes: &[u8]) -> Result<(), Fault> {
        let frame = node_frame(bytes)?;
        let node = self.node(&frame).ok_or(Fault::Unlinked)?;
        self.trees.push(Some(Box::new(node)));
        Ok(())
    }

    /// The node of a frame, unless it names what it may not: refusal 6.
    fn node(&mut self, frame: &NodeFrame) -> Option<Node> {
        let [x, y, z] = frame.children;
        let op = match frame.op {
            0 => Op::Plain,
            1 => Op::Read(self.child(x)?, self.access(frame)?),
            2 => Op::Write(self.child(x)?, self.child(y)?, self.access(frame)?),
            3 => Op::Sequence(self.child(x)?, self.child(y)?),
            4 => Op::Choice(self.child(x)?, self.child(y)?, self.child(z)?),
            5 => Op::Loop { test: self.child(x)?, body: self.child(y)? },
            6 => Op::Synchronised(self.lock(frame.locks[0])??, self.child(x)?),
            7 => Op::Assert(self.child(x)?),
            8 => Op::Call(self.child(x)?, self.call(frame)?),
            _ => {
                let fork = self.fork(frame)?;
                self.forks.push(fork);
                Op::Fork(self.child(x)?)
            }
        };
        Some(Node { number: self.trees.len(), op })
    }

    /// A child is below its node and "is named as a child at most once": naming it takes its tree away.
    fn child(&mut self, node: usize) -> Option<Box<Node>> {
        self.trees.get_mut(node)?.take()
    }

    /// A lock name below k, or FF.
    fn lock(&self, byte: u8) -> Option<Lock> {
        match byte {
            0xFF => Some(None),
            name if usize::from(name) < self.names => Some(Some(usize::from(name))),
            _ => None,
        }
    }

    fn access(&self, frame: &NodeFrame) -> Option<Access> {
        let field = *self.fields.get(usize::from(frame.index))?;
        let lock = match field.guard.names_a_lock() {
            true => self.lock(frame.locks[0])?,
            false => unused(frame.locks[0])?,
        };
        Some(Access { field, lock })
    }

    fn call(&self, frame: &NodeFrame) -> Option<Call> {
        let method = usize::from(frame.index);
        let (needed, rest) = frame.locks.split_at(self.signatures.get(method)?.names);
        rest.iter().try_for_each(|&byte| unused(byte).map(|_| ()))?;
        let locks = needed.iter().map(|&byte| self.lock(byte)).collect::<Option<_>>()?;
        Some(Call { method, locks, reading: self.reading })
    }

    fn fork(&self, frame: &NodeFrame) -> Option<Fork> {
        let method = usize::from(frame.index);
        let has_own_lock = self.signatures.get(method)?.names > 0;
        has_own_lock.then_some(Fork { node: self.trees.len(), method })
    }
}

/// A listed lock that this field or callee has no use for is 00.
fn unused(byte: u8) -> Option<Lock> {
    (byte == 0).then_some(None)
}

fn method(
    lines: &mut Lines,
    signature: &Signature,
    signatures: &[Signature],
    fields: &[Field],
    reading: Reading,
) -> Result<Method, Refusal> {
    let mut body = Body { fields, signatures, reading, names: signature.names, trees: Vec::new(), forks: Vec::new() };
    for _ in 0..signature.nodes {
        lines.read(Due::Node, |bytes| body.take(bytes))?;
    }
    // "A method's last node is its root": it is the one just read, and no other node can have named it.
    let root = *body.trees.pop().flatten().expect("a method has a node");
    Ok(Method { names: signature.names, declared: signature.declared.clone(), root, forks: body.forks })
}

fn signatures(lines: &mut Lines, header: &Header) -> Result<Vec<Signature>, Refusal> {
    let mut signatures: Vec<Signature> = Vec::new();
    for number in 0..header.methods {
        let next = lines.read(Due::Method, |bytes| {
            let next = signature(bytes, number == 0)?;
            let total = signatures.iter().map(|method| method.nodes).sum::<usize>() + next.nodes;
            // "Node counts don't total the header's (at the last method line)."
            if number + 1 == header.methods && total != header.nodes {
                return Err(Fault::Unlinked);
            }
            Ok(next)
        })?;
        signatures.push(next);
    }
    Ok(signatures)
}

/// The program of a text, or refusal 2 to 6.
pub fn read(reading: Reading, text: &[u8]) -> Result<Program, Refusal> {
    if text.len() > ikhzorvan::LONGEST_TEXT {
        return Err(Refusal::Overlong);
    }
    let lines = &mut Lines::of(text);
    let header = lines.read(Due::Header, header)?;
    let fields = (0..header.fields).map(|_| lines.read(Due::Field, field)).collect::<Result<Vec<_>, _>>()?;
    let signatures = signatures(lines, &header)?;
    let methods = signatures.iter().map(|one| method(lines, one, &signatures, &fields, reading));
    let methods = methods.collect::<Result<Vec<_>, _>>()?;
    lines.end()?;
    Ok(Program { methods })
}
