//! Holds a grader against the oracle on one text: what is returned, and every byte that could have been written.

use crate::graders::{laid_out, recorded, Grader};
use ikhzorvan::{Refusal, Verdict, ANSWER_LEN, RECORD_LEN};
use oracle::Reading;

/// What grading a text comes to where the answer has the right length: the verdict, with its rounds, and the answer's bytes,
/// all 0 in a refusal.
#[derive(Clone, Copy, Debug, PartialEq, Eq)]
pub struct Outcome {
    pub verdict: Verdict,
    pub answer: [u8; ANSWER_LEN],
}

impl Outcome {
    /// The oracle's, by either reading of a call's FF.
    pub fn of(reading: Reading, text: &[u8]) -> Outcome {
        let mut answer = [0; ANSWER_LEN];
        Outcome { verdict: oracle::grade_as(reading, text, &mut answer), answer }
    }

    pub fn by(grader: &dyn Grader, text: &[u8]) -> Outcome {
        let (mut answer, mut record) = ([0; ANSWER_LEN], [0; RECORD_LEN]);
        grader.grade(text, &mut answer, &mut record);
        Outcome { verdict: Verdict::from_record(&record).expect("a verdict's record"), answer }
    }
}

/// What the oracle says of a text.
pub struct Expected {
    pub outcome: Outcome,
    session: Vec<u8>,
}

impl Expected {
    pub fn of(text: &[u8]) -> Expected {
        Expected { outcome: Outcome::of(Reading::W204, text), session: oracle::session(text) }
    }

    fn grade(&self, answer: &mut [u8], record: &mut [u8]) -> u8 {
        recorded(record, || {
            if answer.len() != ANSWER_LEN {
                return Verdict::Refused(Refusal::WrongLength);
            }
            if let Verdict::Accepted(_) = self.outcome.verdict {
                answer.copy_from_slice(&self.outcome.answer);
            }
            self.outcome.verdict
        })
    }
}

/// Lengths that are wrong, to be tried beside the right ones.
#[derive(Clone, Copy, Debug)]
pub struct WrongLengths {
    /// Not 1,024.
    pub answer: usize,
    /// Not 11.
    pub record: usize,
    /// How many bytes there are past the session.
    pub slack: usize,
}

/// Bytes to be lent, with guard bytes before and after.
#[derive(PartialEq, Eq)]
pub(crate) struct Room {
    bytes: Vec<u8>,
    len: usize,
}

impl Room {
    const GUARD: usize = 48;

    /// Filled with bytes that are no grades, no digits and not all alike.
    pub(crate) fn new(len: usize) -> Room {
        let fill = |at: usize| 0x80 | (at * 37 % 101) as u8;
        Room { bytes: (0..len + 2 * Room::GUARD).map(fill).collect(), len }
    }

    pub(crate) fn lent(&mut self) -> &mut [u8] {
        &mut self.bytes[Room::GUARD..Room::GUARD + self.len]
    }
}

/// What differs between a grader and the oracle on a text, in words.
pub fn difference(grader: &dyn Grader, text: &[u8], wrong: WrongLengths) -> Option<String> {
    difference_from(&Expected::of(text), grader, text, wrong)
}

/// The same where the oracle has been asked already.
pub fn difference_from(expected: &Expected, grader: &dyn Grader, text: &[u8], wrong: WrongLengths) -> Option<String> {
    let grades = [(ANSWER_LEN, RECORD_LEN), (wrong.answer, RECORD_LEN), (ANSWER_LEN, wrong.record)];
    let needed = expected.session.len();
    let sessions = [needed, needed + wrong.slack, needed - 1, 0];
    let in_grades = || grades.iter().find_map(|&lens| difference_in_grade(expected, grader, text, lens));
    let in_sessions = || sessions.iter().find_map(|&len| difference_in_session(expected, grader, text, len));
    in_grades().or_else(in_sessions).map(|what| format!("{}: {what}", grader.name()))
}

fn difference_in_grade(
    expected: &Expected,
    grader: &dyn Grader,
    text: &[u8],
    (answer_len, record_len): (usize, usize),
) -> Option<String> {
    let run = |grade: &dyn Fn(&mut [u8], &mut [u8]) -> u8| {
        let (mut answer, mut record) = (Room::new(answer_len), Room::new(record_len));
        let returned = grade(answer.lent(), record.lent());
        (returned, answer, record)
    };
    let (due, due_answer, due_record) = run(&|answer, record| expected.grade(answer, record));
    let (found, answer, record) = run(&|answer, record| grader.grade(text, answer, record));
    let call = format!("grade with an answer of {answer_len} bytes and a record of {record_len}");
    if found != due {
        return Some(format!("{call} returns {found}, not {due}"));
    }
    let in_record = differing("record", &record, &due_record);
    in_record.or_else(|| differing("answer", &answer, &due_answer)).map(|what| format!("{call}: {what}"))
}

fn difference_in_session(expected: &Expected, grader: &dyn Grader, text: &[u8], len: usize) -> Option<String> {
    let (mut out, mut due_out) = (Room::new(len), Room::new(len));
    let found = grader.session(text, out.lent());
    let due = laid_out(due_out.lent(), &expected.session);
    let call = format!("session with room for {len} bytes");
    if found != due {
        return Some(format!("{call} returns {found}, not {due}"));
    }
    differing("output", &out, &due_out).map(|what| format!("{call}: {what}"))
}

/// The first byte at which two rooms differ. Guard bytes have places below 0 or past the end.
pub(crate) fn differing(what: &str, found: &Room, due: &Room) -> Option<String> {
    let at = (0..due.bytes.len()).find(|&at| found.bytes[at] != due.bytes[at])?;
    let place = at as i64 - Room::GUARD as i64;
    Some(format!("byte {place} of the {what} is {:02X}, not {:02X}", found.bytes[at], due.bytes[at]))
}

#[cfg(test)]
mod tests {
    use super::*;
    use crate::graders::{Oracle, Rounds};
    use rounds::Way;

    const WRONG: WrongLengths = WrongLengths { answer: 1023, record: 12, slack: 5 };
    const MAIN: &[u8] = b"0101000001\n040000010000000000000000000000000000000000\n03000000000000000000000000\n";

    /// A grader that is the oracle but for one fault.
    struct Faulty(Fault);

    #[derive(Clone, Copy, PartialEq)]
    enum Fault {
        WritesOnRefusal,
        WritesPastTheSession,
        WritesIntoRoomTooSmall,
        LeavesTheRecord,
        ForgetsTheLastByte,
    }

    impl Grader for Faulty {
        fn name(&self) -> &'static str {
            "faulty"
        }

        fn grade(&self, text: &[u8], answer: &mut [u8], record: &mut [u8]) -> u8 {
            let (last, before) = (answer.last().copied(), record.to_vec());
            let number = Oracle.grade(text, answer, record);
            match (self.0, answer.last_mut(), last) {
                (Fault::WritesOnRefusal, Some(byte), _) if number != 0 => *byte = 0,
                (Fault::ForgetsTheLastByte, Some(byte), Some(last)) => *byte = last,
                (Fault::LeavesTheRecord, _, _) => record.copy_from_slice(&before),
                _ => {}
            }
            number
        }

        fn session(&self, text: &[u8], out: &mut [u8]) -> usize {
            let len = Oracle.session(text, out);
            match self.0 {
                Fault::WritesPastTheSession if out.len() > len => out[len] = 0,
                Fault::WritesIntoRoomTooSmall if out.len() < len => out.fill(0),
                _ => {}
            }
            len
        }
    }

    #[test]
    fn no_difference_is_seen_where_there_is_none() {
        for text in [MAIN, b"", b"01\n", &MAIN[1..]] {
            assert_eq!(difference(&Oracle, text, WRONG), None);
            assert_eq!(difference(&Rounds(Way::Upwards), text, WRONG), None);
            assert_eq!(difference(&Rounds(Way::Recursion), text, WRONG), None);
        }
    }

    #[test]
    fn each_fault_is_seen() {
        use Fault::*;
        for fault in
            [WritesOnRefusal, WritesPastTheSession, WritesIntoRoomTooSmall, LeavesTheRecord, ForgetsTheLastByte]
        {
            assert!(difference(&Faulty(fault), MAIN, WRONG).is_some());
        }
    }
}
