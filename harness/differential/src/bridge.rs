//! The proved checker in another process, for machines that cannot link its archive: see `bridge/bridge.c`.

use crate::explainers::{Explainer, Question};
use crate::graders::Grader;
use ikhzorvan::Step;
use std::cell::RefCell;
use std::io::{self, BufReader, Read, Write};
use std::process::{Child, ChildStdin, ChildStdout, Command, Stdio};

/// The environment variable with the command that runs the bridge, its words parted by blanks.
pub const COMMAND: &str = "IKHZORVAN_BRIDGE";

/// What the bridge is taken to return where the checker wrote outside of what it was lent: no grader returns it, so that it
/// shows as a difference.
const WROTE_OUTSIDE: u64 = 0xFE;

pub struct Bridge {
    pipes: RefCell<Pipes>,
    _child: Child,
}

struct Pipes {
    requests: ChildStdin,
    replies: BufReader<ChildStdout>,
}

impl Bridge {
    /// The bridge that the environment names, if it names one.
    pub fn of_environment() -> Option<Bridge> {
        let command = std::env::var(COMMAND).ok()?;
        Some(Bridge::start(&command).unwrap_or_else(|error| panic!("{COMMAND}: {error}")))
    }

    fn start(command: &str) -> io::Result<Bridge> {
        let mut words = command.split_whitespace();
        let program = words.next().ok_or(io::ErrorKind::InvalidInput)?;
        let mut child = Command::new(program).args(words).stdin(Stdio::piped()).stdout(Stdio::piped()).spawn()?;
        let requests = child.stdin.take().expect("piped");
        let replies = BufReader::new(child.stdout.take().expect("piped"));
        Ok(Bridge { pipes: RefCell::new(Pipes { requests, replies }), _child: child })
    }

    fn call(&self, which: u8, numbers: [usize; 2], text: &[u8], first: &mut [u8], second: &mut [u8]) -> u64 {
        self.pipes.borrow_mut().call(which, numbers, text, first, second).expect("the bridge answers")
    }
}

impl Pipes {
    fn call(
        &mut self,
        which: u8,
        numbers: [usize; 2],
        text: &[u8],
        first: &mut [u8],
        second: &mut [u8],
    ) -> io::Result<u64> {
        let mut request = vec![which];
        for number in numbers {
            request.extend((number as u64).to_be_bytes());
        }
        for len in [text.len(), first.len(), second.len()] {
            request.extend((len as u32).to_be_bytes());
        }
        for bytes in [text, first, second] {
            request.extend(bytes);
        }
        self.requests.write_all(&request)?;
        let (mut returned, mut intact) = ([0; 8], [0]);
        for bytes in [&mut returned[..], &mut intact, first, second] {
            self.replies.read_exact(bytes)?;
        }
        Ok(if intact == [1] { u64::from_be_bytes(returned) } else { WROTE_OUTSIDE })
    }
}

impl Grader for Bridge {
    fn name(&self) -> &'static str {
        "engine (emulated)"
    }

    fn grade(&self, text: &[u8], answer: &mut [u8], record: &mut [u8]) -> u8 {
        self.call(b'g', [0, 0], text, answer, record) as u8
    }

    fn session(&self, text: &[u8], out: &mut [u8]) -> usize {
        self.call(b's', [0, 0], text, out, &mut []) as usize
    }
}

impl Explainer for Bridge {
    fn name(&self) -> &'static str {
        "engine (emulated)"
    }

    fn explain(&self, text: &[u8], question: Question, steps: &mut [Step], page: &mut [u8]) -> u8 {
        let mut bytes: Vec<u8> = steps.iter().flat_map(bytes_of_step).collect();
        let number = self.call(b'e', [question.method, question.set], text, &mut bytes, page);
        for (step, bytes) in steps.iter_mut().zip(bytes.chunks(size_of::<Step>())) {
            *step = step_of_bytes(bytes);
        }
        number as u8
    }
}

/// A step as x86-64 has it in memory.
fn bytes_of_step(step: &Step) -> [u8; size_of::<Step>()] {
    let ([node, node_high], [round, round_high]) = (step.node.to_le_bytes(), step.round.to_le_bytes());
    [step.method, 0, node, node_high, step.set, 0, round, round_high, step.grade, step.rule]
}

fn step_of_bytes(bytes: &[u8]) -> Step {
    let two = |at: usize| u16::from_le_bytes([bytes[at], bytes[at + 1]]);
    Step { method: bytes[0], node: two(2), set: bytes[4], round: two(6), grade: bytes[8], rule: bytes[9] }
}
