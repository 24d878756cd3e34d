//! What is measured.

use differential::compare::Expected;
use ikhzorvan::{Accepted, Verdict, ANSWER_LEN, LONGEST_TEXT};
use texts::grid::{self, Grid};
use texts::program::Program;
use texts::random::{undeclared, Shape};
use texts::{ring, Rng};

/// Which of the two functions is called.
#[derive(Clone, Copy, PartialEq, Eq)]
pub enum Call {
    Grade { answer_len: usize },
    Session,
}

const GRADE: Call = Call::Grade { answer_len: ANSWER_LEN };

pub struct Input {
    pub name: String,
    pub text: Vec<u8>,
    pub call: Call,
    /// The refusal number that it must come to, so that what is measured is what its name says.
    pub number: u8,
}

/// Inputs that are shown together, made when they are due.
pub struct Group {
    pub title: &'static str,
    pub inputs: fn() -> Vec<Input>,
}

/// The text of "One whole session".
pub const SESSION: &str = "\
010301000A
020001
040000020000000000000000000000000000000000
040100030000000000000000000000000000000000
040100050000000000000000000000000000000000
03000000000000000000000000
030800000000000002FF000000
03000000000000000000000000
03010000000000000000000000
03060001000000000000000000
03000000000000000000000000
03080000000000000100000000
03000000000000000000000000
03080002000000000100000000
03030001000300000000000000
";

fn graded(name: impl Into<String>, number: u8, text: Vec<u8>) -> Input {
    Input { name: name.into(), text, call: GRADE, number }
}

fn accepted(name: impl Into<String>, text: Vec<u8>) -> Input {
    graded(name, 0, text)
}

/// The same, with its rounds in the name.
fn with_rounds(name: impl Into<String>, text: Vec<u8>) -> Input {
    let name = name.into();
    match Expected::of(&text).outcome.verdict {
        Verdict::Accepted(Accepted { rounds, .. }) => accepted(format!("{name} ({rounds} rounds)"), text),
        Verdict::Refused(refusal) => panic!("{name}: {refusal:?}"),
    }
}

pub fn groups() -> Vec<Group> {
    vec![
        Group { title: "the paper's session", inputs: session },
        Group { title: "random, 64 methods, 1,024 nodes, 4 locks", inputs: full },
        Group { title: "calls, 64 methods, 1,024 nodes, 4 locks", inputs: calls },
        Group { title: "the most rounds", inputs: most_rounds },
        Group { title: "refused", inputs: refused },
        Group { title: "growth with nodes (16 a method, 4 locks, 3 rounds)", inputs: by_nodes },
        Group { title: "growth with locks (1,024 nodes, 3 rounds)", inputs: by_locks },
        Group { title: "growth with rounds (1,024 nodes, 4 locks)", inputs: by_rounds },
    ]
}

fn session() -> Vec<Input> {
    let text = || SESSION.as_bytes().to_vec();
    let declared = SESSION.replacen("04010005000000", "04010005010202", 1).into_bytes();
    vec![
        accepted("accepted", text()),
        Input { call: Call::Session, ..accepted("accepted, with its output", text()) },
        graded("line 5 declared, refusal 7", 7, declared),
    ]
}

/// Random programs of full size with this refusal number, the first few from a fixed seed.
pub fn full_with(number: u8, count: usize) -> Vec<Program> {
    let rng = &mut Rng::of_seed(64);
    let programs = std::iter::repeat_with(|| undeclared(rng, Shape { careless: 0, ..Shape::full() }));
    let is_wanted = |program: &Program| Expected::of(&program.text()).outcome.verdict.number() == number;
    programs.filter(is_wanted).take(count).collect()
}

fn full() -> Vec<Input> {
    let programs = full_with(0, 3).into_iter().enumerate();
    let mut inputs: Vec<Input> =
        programs.map(|(which, program)| with_rounds(format!("accepted, no. {}", which + 1), program.text())).collect();
    let output = Input { call: Call::Session, ..accepted("accepted, no. 1, with its output", inputs[0].text.clone()) };
    inputs.push(output);
    inputs.extend(full_with(7, 1).into_iter().map(|program| graded("refusal 7", 7, program.text())));
    inputs
}

fn calls() -> Vec<Input> {
    let calls = |name: &str, free: usize| with_rounds(name, grid::calls(free).text());
    vec![
        calls("every name named", 0),
        calls("one of four FF", 1),
        calls("two of four FF", 2),
        calls("every name FF", 4),
    ]
}

fn most_rounds() -> Vec<Input> {
    vec![
        with_rounds("longest ring", ring::longest(63).text()),
        with_rounds("longest ring, 1,024 nodes", ring::longest_and_full().text()),
    ]
}

fn refused() -> Vec<Input> {
    let full = Grid { methods: 64, nodes: 16, locks: 4, rounds: 3 }.program().text();
    let last_line = full.len() - 27;
    let changed = |at: usize, byte: u8| {
        let mut text = full.clone();
        text[at] = byte;
        text
    };
    let wrong_answer = Input {
        call: Call::Grade { answer_len: ANSWER_LEN - 1 },
        ..graded("1, full text, answer of 1,023 bytes", 1, full.clone())
    };
    vec![
        wrong_answer,
        graded("2, one byte too long", 2, vec![b'0'; LONGEST_TEXT + 1]),
        graded("3, first line", 3, changed(0, b'a')),
        graded("3, last line of 1,091", 3, changed(last_line, b'a')),
        graded("3, one line of 32,768 bytes", 3, vec![b'0'; LONGEST_TEXT]),
        graded("4, last line of 1,091 is missing", 4, full[..last_line].to_vec()),
        graded("5, last line of 1,091", 5, changed(last_line + 2, b'F')),
        // X of the last node becomes F00 or more.
        graded("6, last line of 1,091", 6, changed(last_line + 4, b'F')),
    ]
}

fn by_nodes() -> Vec<Input> {
    let grid = |methods: usize| Grid { methods, nodes: 16, locks: 4, rounds: 3 }.program().text();
    [4, 8, 16, 32, 64].map(|methods| accepted(format!("{} nodes", 16 * methods), grid(methods))).into()
}

fn by_locks() -> Vec<Input> {
    let grid = |locks: u8| Grid { methods: 64, nodes: 16, locks, rounds: 3 }.program().text();
    [0, 1, 2, 3, 4].map(|locks| accepted(format!("{locks} lock names"), grid(locks))).into()
}

fn by_rounds() -> Vec<Input> {
    let grid = |rounds: usize| Grid { methods: 64, nodes: 16, locks: 4, rounds }.program().text();
    [1, 2, 4, 8, 16, 32, 63].map(|rounds| accepted(format!("rounds: {rounds}"), grid(rounds))).into()
}
