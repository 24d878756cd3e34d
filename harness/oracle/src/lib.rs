//! The paper's rules in plain Rust, with what document 02 has changed in them (W-204) and the reasons that it asks for
//! (W-207), written to be held against both line by line, not to be fast.
//!
//! It shares no form with the checker that it judges: programs are trees, grades an enum, the lowest tables are found by a
//! worklist, and the rounds are counted apart from that.

mod constraints;
mod frames;
mod grade;
mod lowest;
mod program;
mod reasons;

pub use grade::Grade;
pub use program::{Reading, Table};
pub use reasons::Reasons;

use ikhzorvan::{Accepted, Refusal, Step, Verdict, ANSWER_LEN};
use program::Program;

/// All that is to be known of a text that can be read.
#[derive(Clone, Debug)]
pub struct Graded {
    /// Accepted or refusal 7.
    pub verdict: Verdict,
    /// The lowest tables, method by method, for a text of refusal 7 too.
    pub tables: Vec<Table>,
}

/// Grades a text whose answer has the right length, or gives refusal 2 to 6.
pub fn graded(text: &[u8]) -> Result<Graded, Refusal> {
    graded_as(Reading::W204, text)
}

/// The same by either reading of a call's FF.
pub fn graded_as(reading: Reading, text: &[u8]) -> Result<Graded, Refusal> {
    let program = frames::read(reading, text)?;
    let tables = lowest::tables(&program);
    let (rounds, reached) = lowest::rounds(&program);
    assert_eq!(tables, reached, "the worklist and the rounds find other tables");
    let verdict = match constraints::first_broken(&program, &tables) {
        Some(broken) => Verdict::Refused(Refusal::Broken(broken)),
        None => Verdict::Accepted(Accepted { methods: count(&program), rounds }),
    };
    Ok(Graded { verdict, tables })
}

fn count(program: &Program) -> u8 {
    program.methods.len() as u8
}

/// Grades a text into a lent answer, which a refusal leaves untouched.
pub fn grade(text: &[u8], answer: &mut [u8]) -> Verdict {
    grade_as(Reading::W204, text, answer)
}

/// The same by either reading of a call's FF.
pub fn grade_as(reading: Reading, text: &[u8], answer: &mut [u8]) -> Verdict {
    if answer.len() != ANSWER_LEN {
        return Verdict::Refused(Refusal::WrongLength);
    }
    match graded_as(reading, text) {
        Err(refusal) => Verdict::Refused(refusal),
        Ok(graded) => {
            if let Verdict::Accepted(_) = graded.verdict {
                answer.copy_from_slice(&graded.answer());
            }
            graded.verdict
        }
    }
}

impl Graded {
    /// "Entry number h of method m at 16m + h; every other byte 0."
    pub fn answer(&self) -> [u8; ANSWER_LEN] {
        let mut answer = [0; ANSWER_LEN];
        for (method, table) in self.tables.iter().enumerate() {
            for (entry, grade) in table.iter().enumerate() {
                answer[16 * method + entry] = grade.number();
            }
        }
        answer
    }

    fn answer_lines(&self, accepted: Accepted) -> String {
        let mut lines = format!("10{:02X}{:04X}\n", accepted.methods, accepted.rounds);
        for (method, table) in self.tables.iter().enumerate() {
            let grades: String = table.iter().map(|grade| format!("{:02X}", grade.number())).collect();
            lines += &format!("11{method:02X}{:02X}{grades}\n", table.len().ilog2());
        }
        lines
    }
}

/// "1F, number, line in two bytes, method, kind, node in two bytes, held set".
fn refusal_line(refusal: Refusal) -> String {
    let (method, kind, node, held) = match refusal {
        Refusal::Broken(broken) => {
            let node = match broken.kind {
                ikhzorvan::Kind::Fork { node } => node,
                ikhzorvan::Kind::Declared | ikhzorvan::Kind::Main => 0,
            };
            (broken.method, broken.kind.number(), node, broken.held)
        }
        _ => (0, 0, 0, 0),
    };
    format!("1F{:02X}{:04X}{method:02X}{kind:02X}{node:04X}{held:02X}\n", refusal.number(), refusal.line())
}

/// What the grading program prints for a text.
pub fn session(text: &[u8]) -> Vec<u8> {
    let lines = match graded(text) {
        Err(refusal) => refusal_line(refusal),
        Ok(graded) => match graded.verdict {
            Verdict::Accepted(accepted) => graded.answer_lines(accepted),
            Verdict::Refused(refusal) => refusal_line(refusal),
        },
    };
    lines.into_bytes()
}

/// The reasons for the grades of an accepted text, or refusal 2 to 7.
pub fn reasons(text: &[u8]) -> Result<Reasons, Refusal> {
    let program = frames::read(Reading::W204, text)?;
    match constraints::first_broken(&program, &lowest::tables(&program)) {
        Some(broken) => Err(Refusal::Broken(broken)),
        None => Ok(Reasons::of(program)),
    }
}

/// The reason for the grade of a method under a held set. "Refusals: after 2 to 7, 10 if the method or held set doesn't
/// exist."
pub fn explain(text: &[u8], method: usize, set: usize) -> Result<Vec<Step>, Refusal> {
    reasons(text)?.reason(method, set).ok_or(Refusal::NoEntry)
}

/// A reason in lines: a frame 13 for each step, or the frame of the refusal.
pub fn reason_lines(reason: &Result<Vec<Step>, Refusal>) -> String {
    match reason {
        Ok(steps) => steps.iter().map(step_line).collect(),
        Err(refusal) => refusal_line(*refusal),
    }
}

/// "Frame 13: method, node (two bytes), held set, round (two bytes), grade, rule".
fn step_line(step: &Step) -> String {
    let Step { method, node, set, round, grade, rule } = step;
    format!("13{method:02X}{node:04X}{set:02X}{round:04X}{grade:02X}{rule:02X}\n")
}
