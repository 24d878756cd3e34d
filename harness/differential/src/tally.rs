//! Counts what the random texts have reached, so that a run that reaches too little fails.

use crate::compare::Outcome;
use ikhzorvan::{Kind, Refusal, Verdict};
use oracle::Reading;
use std::fmt;
use texts::program::{op, Method, Node, Program, NO_NAME};

/// A thing to be reached, with how often it must be and how often it was.
struct Line {
    what: &'static str,
    wanted: usize,
    reached: usize,
}

/// The things to be reached, in the order of their table.
pub struct Counts {
    lines: Vec<Line>,
    /// Is the run long enough to be held to what is wanted?
    is_judged: bool,
}

impl Counts {
    pub fn of(wanted: &[(&'static str, usize)], is_judged: bool) -> Counts {
        let lines = wanted.iter().map(|&(what, wanted)| Line { what, wanted, reached: 0 });
        Counts { lines: lines.collect(), is_judged }
    }

    pub fn count(&mut self, what: &str) {
        self.count_if(what, true);
    }

    pub fn count_if(&mut self, what: &str, reached: bool) {
        let line = self.lines.iter_mut().find(|line| line.what == what).expect("a line of the table");
        line.reached += usize::from(reached);
    }

    /// Has each thing been reached often enough? A short run need not have.
    pub fn is_enough(&self) -> bool {
        !self.is_judged || self.lines.iter().all(|line| line.reached >= line.wanted)
    }
}

impl fmt::Display for Counts {
    fn fmt(&self, out: &mut fmt::Formatter) -> fmt::Result {
        for Line { what, wanted, reached } in &self.lines {
            write!(out, "  {what:<44} {reached:>7}")?;
            match self.is_judged {
                true if reached < wanted => writeln!(out, "  (wanted {wanted})  TOO FEW")?,
                true => writeln!(out, "  (wanted {wanted})")?,
                false => writeln!(out)?,
            }
        }
        Ok(())
    }
}

/// What the random texts have reached.
pub struct Tally {
    counts: Counts,
    most_rounds: u16,
    longest: usize,
}

/// How many texts a run must have to be held to [`WANTED`].
pub const JUDGED_TEXTS: usize = 120_000;

const WANTED: [(&str, usize); 32] = [
    ("accepted", 10_000),
    ("refusal 1", 1_000),
    ("refusal 2", 100),
    ("refusal 3", 500),
    ("refusal 4", 500),
    ("refusal 5", 500),
    ("refusal 6", 500),
    ("refusal 7, kind 1", 500),
    ("refusal 7, kind 2", 500),
    ("refusal 7, kind 3", 500),
    ("refusal 7, held set not 0", 500),
    ("accepted, 3 or more rounds", 5_000),
    ("accepted, 10 or more rounds", 500),
    ("accepted, declared methods", 3_000),
    ("accepted, call with 1 FF name", 3_000),
    ("accepted, call with 2 FF names", 3_000),
    ("accepted, call with 3 FF names", 3_000),
    ("accepted, call with 4 FF names", 3_000),
    ("accepted, call with FF and names", 3_000),
    ("accepted, call with two names for one lock", 3_000),
    ("accepted, the same beside FF", 3_000),
    ("accepted, synchronised", 3_000),
    ("accepted, loop", 3_000),
    ("accepted, choice", 3_000),
    ("accepted, assert", 3_000),
    ("accepted, fork", 3_000),
    ("W-204 gives another outcome than 01", 10_000),
    ("both accept, with another answer", 5_000),
    ("W-204 refuses alone, kind 1", 500),
    ("W-204 refuses alone, kind 2", 500),
    ("W-204 refuses alone, kind 3", 500),
    ("both refuse, by another constraint", 500),
];

impl Tally {
    /// The tally of a run of so many texts.
    pub fn of_texts(count: usize) -> Tally {
        Tally { counts: Counts::of(&WANTED, count >= JUDGED_TEXTS), most_rounds: 0, longest: 0 }
    }

    fn count(&mut self, what: &str) {
        self.counts.count(what);
    }

    fn count_if(&mut self, what: &str, reached: bool) {
        self.counts.count_if(what, reached);
    }

    /// Takes in what the oracle has found of a text.
    pub fn take(&mut self, text: &[u8], outcome: &Outcome) {
        // An answer of wrong length has been tried with every text.
        self.count("refusal 1");
        self.longest = self.longest.max(text.len());
        match outcome.verdict {
            Verdict::Accepted(accepted) => {
                self.count("accepted");
                self.most_rounds = self.most_rounds.max(accepted.rounds);
                self.count_if("accepted, 3 or more rounds", accepted.rounds >= 3);
                self.count_if("accepted, 10 or more rounds", accepted.rounds >= 10);
                self.take_program(&Program::of_text(text).expect("an accepted text is a program"));
            }
            Verdict::Refused(refusal) => self.take_refusal(refusal),
        }
        self.take_rules(outcome, &Outcome::of(Reading::Of01, text));
    }

    /// Takes in how W-204's outcome and 01's differ.
    fn take_rules(&mut self, outcome: &Outcome, of_01: &Outcome) {
        if outcome == of_01 {
            return;
        }
        self.count("W-204 gives another outcome than 01");
        match (outcome.verdict, of_01.verdict) {
            (Verdict::Accepted(_), Verdict::Accepted(_)) => self.count("both accept, with another answer"),
            (Verdict::Refused(Refusal::Broken(broken)), Verdict::Accepted(_)) => self.count(match broken.kind {
                Kind::Declared => "W-204 refuses alone, kind 1",
                Kind::Main => "W-204 refuses alone, kind 2",
                Kind::Fork { .. } => "W-204 refuses alone, kind 3",
            }),
            (Verdict::Refused(_), Verdict::Refused(_)) => self.count("both refuse, by another constraint"),
            // W-204's grades are nowhere lower, which the laws try.
            _ => {}
        }
    }

    fn take_refusal(&mut self, refusal: Refusal) {
        let what = match refusal {
            Refusal::WrongLength | Refusal::NoEntry => return,
            Refusal::Overlong => "refusal 2",
            Refusal::Malformed { .. } => "refusal 3",
            Refusal::Misplaced { .. } => "refusal 4",
            Refusal::OutOfRange { .. } => "refusal 5",
            Refusal::Unlinked { .. } => "refusal 6",
            Refusal::Broken(broken) => {
                self.count_if("refusal 7, held set not 0", broken.held != 0);
                match broken.kind {
                    Kind::Declared => "refusal 7, kind 1",
                    Kind::Main => "refusal 7, kind 2",
                    Kind::Fork { .. } => "refusal 7, kind 3",
                }
            }
        };
        self.count(what);
    }

    fn take_program(&mut self, program: &Program) {
        let methods = &program.methods;
        let has = |found: &dyn Fn(&Node) -> bool| methods.iter().flat_map(|method| &method.nodes).any(found);
        let has_op = |op: u8| has(&|node| node.op == op);
        let calls = |found: &dyn Fn(&[u8]) -> bool| {
            has(&|node| node.op == op::CALL && found(&node.t[..usize::from(methods[usize::from(node.u)].k)]))
        };
        let is_declared = |method: &Method| method.declared.is_some();
        self.count_if("accepted, declared methods", methods.iter().any(is_declared));
        let free = |locks: &[u8]| locks.iter().filter(|&&lock| lock == NO_NAME).count();
        self.count_if("accepted, call with 1 FF name", calls(&|locks| free(locks) == 1));
        self.count_if("accepted, call with 2 FF names", calls(&|locks| free(locks) == 2));
        self.count_if("accepted, call with 3 FF names", calls(&|locks| free(locks) == 3));
        self.count_if("accepted, call with 4 FF names", calls(&|locks| free(locks) == 4));
        self.count_if("accepted, call with FF and names", calls(&|locks| (1..locks.len()).contains(&free(locks))));
        self.count_if("accepted, call with two names for one lock", calls(&has_alias));
        self.count_if("accepted, the same beside FF", calls(&|locks| free(locks) > 0 && has_alias(locks)));
        self.count_if("accepted, synchronised", has_op(op::SYNCHRONISED));
        self.count_if("accepted, loop", has_op(op::LOOP));
        self.count_if("accepted, choice", has_op(op::CHOICE));
        self.count_if("accepted, assert", has_op(op::ASSERT));
        self.count_if("accepted, fork", has_op(op::FORK));
    }

    /// Has each thing been reached often enough? A short run need not have.
    pub fn is_enough(&self) -> bool {
        self.counts.is_enough()
    }
}

fn has_alias(locks: &[u8]) -> bool {
    let named = |at: usize| locks[at] != NO_NAME && locks[..at].contains(&locks[at]);
    (0..locks.len()).any(named)
}

impl fmt::Display for Tally {
    fn fmt(&self, out: &mut fmt::Formatter) -> fmt::Result {
        self.counts.fmt(out)?;
        writeln!(out, "  {:<44} {:>7}", "most rounds", self.most_rounds)?;
        write!(out, "  {:<44} {:>7}", "longest text", self.longest)
    }
}

#[cfg(test)]
mod tests {
    use super::*;

    #[test]
    fn only_a_long_run_is_judged() {
        let (short, long) = (Tally::of_texts(JUDGED_TEXTS - 1), Tally::of_texts(JUDGED_TEXTS));
        assert!(short.is_enough() && !short.to_string().contains("TOO FEW"));
        assert!(!long.is_enough() && long.to_string().contains("TOO FEW"));
    }
}
