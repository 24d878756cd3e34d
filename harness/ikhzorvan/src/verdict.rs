//! What grading a text comes to, and the paper's number for each case.
//!
//! A [`Verdict`] and its [`Record`] say the same thing, once for people and once in bytes.

use std::fmt;

/// How many bytes an answer has: entry number h of method m stands at 16m + h, every other byte is 0.
pub const ANSWER_LEN: usize = 1024;

/// The longest text that is read at all.
pub const LONGEST_TEXT: usize = 32_768;

/// How many bytes a record has.
pub const RECORD_LEN: usize = 11;

/// The longest session: the answer frame, and 64 methods with 16 grades each.
pub const LONGEST_SESSION: usize = 9 + 64 * 39;

/// A verdict in bytes: refusal number; line (two bytes); method; kind; fork node (two bytes); held set; methods; rounds
/// (two bytes). Two-byte numbers are high byte first, and numbers that don't apply are 0.
pub type Record = [u8; RECORD_LEN];

/// What grading a text comes to.
#[derive(Clone, Copy, Debug, PartialEq, Eq)]
pub enum Verdict {
    /// Refusal number 0: the answer holds the lowest grades that meet every constraint.
    Accepted(Accepted),
    /// Refusal numbers 1 to 7: the answer is untouched.
    Refused(Refusal),
}

/// The numbers of an accepted text.
#[derive(Clone, Copy, Debug, PartialEq, Eq)]
pub struct Accepted {
    /// How many methods the text has, 1 to 64.
    pub methods: u8,
    /// The least n such that round n + 1 changes no table.
    pub rounds: u16,
}

/// Why a text is refused, or a question about it. Lines count from 1. The names are those that Rattle's `Refusal` in `frames`,
/// `checker` and `explainer`, the header for C and README have.
///
/// ```
/// use ikhzorvan::{Broken, Kind, Refusal};
///
/// let refusal = Refusal::OutOfRange { line: 3 };
/// assert_eq!((refusal.number(), refusal.line()), (5, 3));
/// assert_eq!(refusal.to_string(), "line 3 has a value out of its range, or another byte where 00 is due");
///
/// let refusal = Refusal::Broken(Broken { method: 2, kind: Kind::Declared, held: 0b101 });
/// assert_eq!(refusal.to_string(), "method 2 is graded higher than declared with held {0, 2}");
/// ```
#[derive(Clone, Copy, Debug, PartialEq, Eq)]
pub enum Refusal {
    /// 1: the answer is not 1,024 bytes long.
    WrongLength,
    /// 2: the text is longer than 32,768 bytes.
    Overlong,
    /// 3: the line is empty, has a byte that is no digit or an odd count of digits, or lacks its 0A.
    Malformed { line: u16 },
    /// 4: the frame is not of the kind due or of wrong length, the text ended early, or this is a line too many.
    Misplaced { line: u16 },
    /// 5: a value is out of its range, or a byte that must be 00 isn't.
    OutOfRange { line: u16 },
    /// 6: node counts don't total the header's, or a child, field, method or lock name cannot be named here.
    Unlinked { line: u16 },
    /// 7: the text can be read, and this is its first constraint that its lowest grades break.
    Broken(Broken),
    /// 10, of explaining alone: the text has no such method, or the method no such held set.
    NoEntry,
}

impl fmt::Display for Refusal {
    fn fmt(&self, out: &mut fmt::Formatter) -> fmt::Result {
        match self {
            Refusal::WrongLength => write!(out, "the answer is not 1,024 bytes long"),
            Refusal::Overlong => write!(out, "the text is longer than 32,768 bytes"),
            Refusal::Malformed { line } => write!(
                out,
                "line {line} is empty, has a byte that is no digit (0-9, A-F) or an odd count of digits, or lacks its 0A"
            ),
            Refusal::Misplaced { line } => write!(
                out,
                "line {line} is not a frame of the kind and length due there, or the text ended before it, or it is one too many"
            ),
            Refusal::OutOfRange { line } => {
                write!(out, "line {line} has a value out of its range, or another byte where 00 is due")
            }
            Refusal::Unlinked { line } => write!(
                out,
                "line {line} names a child, field, method or lock that it cannot, or the node counts don't total the header's"
            ),
            Refusal::Broken(broken) => broken.fmt(out),
            Refusal::NoEntry => write!(out, "there is no such method, or it has no such held set"),
        }
    }
}

impl std::error::Error for Refusal {}

/// The first broken constraint of a text.
#[derive(Clone, Copy, Debug, PartialEq, Eq)]
pub struct Broken {
    /// The method that the constraint belongs to; for a fork the one that the fork stands in.
    pub method: u8,
    pub kind: Kind,
    /// The lowest held set at which the constraint is broken: bit j says that lock name j is held.
    pub held: u8,
}

impl fmt::Display for Broken {
    fn fmt(&self, out: &mut fmt::Formatter) -> fmt::Result {
        let Broken { method, kind, held } = *self;
        match kind {
            Kind::Declared => write!(out, "method {method} is graded higher than declared")?,
            Kind::Main => write!(out, "method {method}, the main, is graded error")?,
            Kind::Fork { node } => write!(out, "the method that method {method} forks at node {node} is graded error")?,
        }
        let names: Vec<String> = (0..8).filter(|name| held >> name & 1 == 1).map(|name| name.to_string()).collect();
        write!(out, " with held {{{}}}", names.join(", "))
    }
}

/// The three kinds of constraint.
#[derive(Clone, Copy, Debug, PartialEq, Eq)]
pub enum Kind {
    /// 1: a declared method's body is no worse than the method's declaration.
    Declared,
    /// 2: the main, method 0, is at most cmpd.
    Main,
    /// 3: a forked method is at most cmpd wherever its lock 0 is held. The node counts from 0 within its method.
    Fork { node: u16 },
}

impl Kind {
    /// The paper's number of the kind.
    pub fn number(self) -> u8 {
        match self {
            Kind::Declared => 1,
            Kind::Main => 2,
            Kind::Fork { .. } => 3,
        }
    }
}

impl Refusal {
    /// The paper's number of the refusal.
    pub fn number(self) -> u8 {
        match self {
            Refusal::WrongLength => 1,
            Refusal::Overlong => 2,
            Refusal::Malformed { .. } => 3,
            Refusal::Misplaced { .. } => 4,
            Refusal::OutOfRange { .. } => 5,
            Refusal::Unlinked { .. } => 6,
            Refusal::Broken(_) => 7,
            Refusal::NoEntry => 10,
        }
    }

    /// The line that refusals 3 to 6 give, and 0 for the others.
    pub fn line(self) -> u16 {
        match self {
            Refusal::Malformed { line }
            | Refusal::Misplaced { line }
            | Refusal::OutOfRange { line }
            | Refusal::Unlinked { line } => line,
            Refusal::WrongLength | Refusal::Overlong | Refusal::Broken(_) | Refusal::NoEntry => 0,
        }
    }
}

impl Verdict {
    /// The paper's refusal number, 0 for an accepted text.
    pub fn number(self) -> u8 {
        match self {
            Verdict::Accepted(_) => 0,
            Verdict::Refused(refusal) => refusal.number(),
        }
    }

    /// The verdict in bytes.
    pub fn record(self) -> Record {
        let mut record = [0; RECORD_LEN];
        record[0] = self.number();
        match self {
            Verdict::Accepted(Accepted { methods, rounds }) => {
                record[8] = methods;
                record[9..11].copy_from_slice(&rounds.to_be_bytes());
            }
            Verdict::Refused(Refusal::Broken(broken)) => {
                record[3] = broken.method;
                record[4] = broken.kind.number();
                if let Kind::Fork { node } = broken.kind {
                    record[5..7].copy_from_slice(&node.to_be_bytes());
                }
                record[7] = broken.held;
            }
            Verdict::Refused(refusal) => record[1..3].copy_from_slice(&refusal.line().to_be_bytes()),
        }
        record
    }

    /// The verdict of a grading that a record stands for, if it is the record of one.
    pub fn from_record(record: &Record) -> Option<Verdict> {
        let two = |at: usize| u16::from_be_bytes([record[at], record[at + 1]]);
        let line = two(1);
        let verdict = match record[0] {
            0 => Verdict::Accepted(Accepted { methods: record[8], rounds: two(9) }),
            1 => Verdict::Refused(Refusal::WrongLength),
            2 => Verdict::Refused(Refusal::Overlong),
            3 => Verdict::Refused(Refusal::Malformed { line }),
            4 => Verdict::Refused(Refusal::Misplaced { line }),
            5 => Verdict::Refused(Refusal::OutOfRange { line }),
            6 => Verdict::Refused(Refusal::Unlinked { line }),
            7 => {
                let kind = match record[4] {
                    1 => Kind::Declared,
                    2 => Kind::Main,
                    3 => Kind::Fork { node: two(5) },
                    _ => return None,
                };
                Verdict::Refused(Refusal::Broken(Broken { method: record[3], kind, held: record[7] }))
            }
            _ => return None,
        };
        // Numbers that don't apply are 0: nothing of the record may be lost.
        (verdict.record() == *record).then_some(verdict)
    }
}

#[cfg(test)]
mod tests {
    use super::*;

    const EACH: [(Verdict, Record); 8] = [
        (Verdict::Accepted(Accepted { methods: 64, rounds: 0x0123 }), [0, 0, 0, 0, 0, 0, 0, 0, 64, 1, 0x23]),
        (Verdict::Refused(Refusal::WrongLength), [1, 0, 0, 0, 0, 0, 0, 0, 0, 0, 0]),
        (Verdict::Refused(Refusal::Overlong), [2, 0, 0, 0, 0, 0, 0, 0, 0, 0, 0]),
        (Verdict::Refused(Refusal::Malformed { line: 0x0102 }), [3, 1, 2, 0, 0, 0, 0, 0, 0, 0, 0]),
        (Verdict::Refused(Refusal::Unlinked { line: 7 }), [6, 0, 7, 0, 0, 0, 0, 0, 0, 0, 0]),
        (broken(Kind::Declared, 3), [7, 0, 0, 5, 1, 0, 0, 3, 0, 0, 0]),
        (broken(Kind::Main, 0), [7, 0, 0, 5, 2, 0, 0, 0, 0, 0, 0]),
        (broken(Kind::Fork { node: 0x0203 }, 15), [7, 0, 0, 5, 3, 2, 3, 15, 0, 0, 0]),
    ];

    const fn broken(kind: Kind, held: u8) -> Verdict {
        Verdict::Refused(Refusal::Broken(Broken { method: 5, kind, held }))
    }

    #[test]
    fn each_verdict_has_its_record() {
        for (verdict, record) in EACH {
            assert_eq!(verdict.record(), record);
            assert_eq!(Verdict::from_record(&record), Some(verdict));
        }
    }

    #[test]
    fn each_broken_constraint_has_its_words() {
        let words = |kind: Kind, held: u8| Refusal::Broken(Broken { method: 5, kind, held }).to_string();
        assert_eq!(words(Kind::Declared, 3), "method 5 is graded higher than declared with held {0, 1}");
        assert_eq!(words(Kind::Main, 0), "method 5, the main, is graded error with held {}");
        assert_eq!(
            words(Kind::Fork { node: 7 }, 9),
            "the method that method 5 forks at node 7 is graded error with held {0, 3}"
        );
    }

    #[test]
    fn a_record_of_no_verdict_is_not_read() {
        assert_eq!(Verdict::from_record(&[8, 0, 0, 0, 0, 0, 0, 0, 0, 0, 0]), None);
        assert_eq!(Verdict::from_record(&[7, 0, 0, 0, 4, 0, 0, 0, 0, 0, 0]), None);
        assert_eq!(Verdict::from_record(&[7, 0, 0, 0, 1, 0, 1, 0, 0, 0, 0]), None);
        assert_eq!(Verdict::from_record(&[1, 0, 1, 0, 0, 0, 0, 0, 0, 0, 0]), None);
    }
}
