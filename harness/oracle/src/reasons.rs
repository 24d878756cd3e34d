//! W-207: the reason for each grade of a program, step by step.

use crate::grade::{Grade, Held};
use crate::lowest;
use crate::program::{Call, Node, Op, Program, Table};
use ikhzorvan::{rule, Step};

/// An accepted program with its tables of all rounds.
#[derive(Debug)]
pub struct Reasons {
    program: Program,
    /// At n the tables after round n; at 0 those before the first.
    after: Vec<Vec<Table>>,
}

/// Where a step stands.
struct Place<'a> {
    method: usize,
    node: &'a Node,
    held: Held,
    round: usize,
}

/// A part of a node, with its grade.
struct Part<'a> {
    grade: Grade,
    what: What<'a>,
}

enum What<'a> {
    Child(&'a Node, Held),
    Access,
    Fork,
    /// The callee, and the entry of it that counts.
    Callee(usize, Held),
}

impl Reasons {
    pub(crate) fn of(program: Program) -> Reasons {
        let after = lowest::history(&program);
        Reasons { program, after }
    }

    /// The tables that the rounds end with, method by method.
    pub fn tables(&self) -> &[Table] {
        self.after.last().expect("the tables before the first round")
    }

    /// The tables after a round; after the last one nothing changes.
    fn after(&self, round: usize) -> &[Table] {
        self.after.get(round).map_or(self.tables(), Vec::as_slice)
    }

    /// The tables before a round, which "count from 1".
    pub fn before(&self, round: usize) -> &[Table] {
        self.after(round - 1)
    }

    /// The reason for the grade of a method under a held set, if there are such a method and such a set.
    pub fn reason(&self, method: usize, set: usize) -> Option<Vec<Step>> {
        let asked = self.program.methods.get(method)?;
        let grade = *self.tables()[method].get(set)?;
        let held = Held::of_entry(set);
        if asked.declared.is_some() {
            // "A declared method asked for gives one step: its root, round 0, its declared grade, rule 7."
            return Some(vec![step(&Place { method, node: &asked.root, held, round: 0 }, grade, rule::DECLARED)]);
        }
        // "The first step is the method's root, in the first round at which its entry is final."
        let mut steps = Vec::new();
        let mut next = Some(self.root(method, held, grade));
        while let Some(place) = next {
            let (step, after) = self.turn(&place);
            steps.push(step);
            next = after;
        }
        Some(steps)
    }

    /// The root of a method in the round at which its entry first got a grade. "Rounds count from 1, also for a grade of 0."
    fn root(&self, method: usize, held: Held, grade: Grade) -> Place<'_> {
        let got = |round: &usize| self.after(*round)[method][held.entry()] == grade;
        let round = (1..=self.after.len()).find(got).expect("the entry gets the grade");
        Place { method, node: &self.program.methods[method].root, held, round }
    }

    /// The step at a place, and the place of the next one.
    fn turn<'a>(&'a self, place: &Place<'a>) -> (Step, Option<Place<'a>>) {
        let Place { method, round, .. } = *place;
        // "The grade is the definition's, from the tables before that round."
        let tables = self.before(round);
        let whole = grade(place.node, place.held, tables);
        let parts = parts(place, tables);
        let Some((part, added)) = deciding(&parts, whole) else {
            return (step(place, whole, ending(&place.node.op)), None);
        };
        let (rule, next) = match part.what {
            What::Child(node, held) => (rule::CHILD, Some(Place { method, node, held, round })),
            What::Access => (rule::ACCESS, None),
            What::Fork => (rule::FORK, None),
            What::Callee(callee, _) if self.program.methods[callee].declared.is_some() => (rule::DECLARED, None),
            // "A call's own part goes to the callee's root in the round at which its entry [...] first got that grade."
            What::Callee(callee, held) => (rule::CALLEE, Some(self.root(callee, held, part.grade))),
        };
        (step(place, whole, rule + added), next)
    }
}

/// "A node's parts are its children in the order X, Y, Z, then its own access, callee entry or fork's 2; a synchronised
/// child counts under the set with the lock added."
fn parts<'a>(place: &Place<'a>, tables: &[Table]) -> Vec<Part<'a>> {
    let held = place.held;
    let under = |node: &'a Node, held: Held| Part { grade: grade(node, held, tables), what: What::Child(node, held) };
    let child = |node: &'a Node| under(node, held);
    match &place.node.op {
        Op::Plain => vec![],
        Op::Read(x, access) => vec![child(x), Part { grade: access.read(held), what: What::Access }],
        Op::Write(x, y, access) => {
            vec![child(x), child(y), Part { grade: access.write(held), what: What::Access }]
        }
        Op::Sequence(x, y) => vec![child(x), child(y)],
        Op::Choice(x, y, z) => vec![child(x), child(y), child(z)],
        Op::Loop { test, body } => vec![child(test), child(body)],
        Op::Synchronised(lock, x) => vec![under(x, held.with(*lock))],
        Op::Assert(x) => vec![child(x)],
        Op::Call(x, call) => vec![child(x), callee(call, held, &tables[call.method])],
        Op::Fork(x) => vec![child(x), Part { grade: Grade::Atomic, what: What::Fork }],
    }
}

fn grade(node: &Node, held: Held, tables: &[Table]) -> Grade {
    node.grade(held, &mut |method, held| tables[method][held.entry()])
}

fn step(place: &Place, grade: Grade, rule: u8) -> Step {
    Step {
        method: place.method as u8,
        node: place.node.number as u16,
        set: place.held.entry() as u8,
        round: place.round as u16,
        grade: grade.number(),
        rule,
    }
}

/// The part that a step tells of, if there is one, and what that adds to the rule.
fn deciding<'a, 'b>(parts: &'b [Part<'a>], whole: Grade) -> Option<(&'b Part<'a>, u8)> {
    // "The next step is the first part whose grade equals the step's own."
    if let Some(part) = parts.iter().find(|part| part.grade == whole) {
        return Some((part, 0));
    }
    // "Where the whole is 3 and no part is, it is the last part of grade 2, and 8 is added to the rule."
    let last_atomic = parts.iter().rfind(|part| part.grade == Grade::Atomic);
    last_atomic.filter(|_| whole == Grade::Cmpd).map(|part| (part, rule::TWO_ATOMIC))
}

/// The rule of a node none of whose parts has its grade.
fn ending(op: &Op) -> u8 {
    match op {
        Op::Plain => rule::PLAIN,
        // "A lock taken that turned 0 or 1 into 2."
        Op::Synchronised(..) => rule::LOCK,
        // "An assert that turned 3 into 4."
        Op::Assert(_) => rule::ASSERT,
        _ => unreachable!("one of its parts makes the grade of {op:?}"),
    }
}

/// A callee's "entry, the lowest among the largest where there is FF". The callee's name j is held exactly if the caller's
/// lock for it is; at FF each choice counts.
fn callee<'a>(call: &Call, held: Held, table: &Table) -> Part<'a> {
    let chosen = |set: &usize| {
        let names = call.locks.iter().enumerate();
        names.into_iter().all(|(name, lock)| lock.is_none_or(|lock| Held::of_entry(*set).has(name) == held.has(lock)))
    };
    let choices: Vec<usize> = (0..table.len()).filter(chosen).collect();
    let largest = choices.iter().map(|&set| table[set]).max().expect("there is a choice");
    let lowest = choices.into_iter().find(|&set| table[set] == largest).expect("the largest is one of them");
    Part { grade: largest, what: What::Callee(call.method, Held::of_entry(lowest)) }
}

#[cfg(test)]
mod tests {
    use crate::{explain, reason_lines};

    /// A text of these frames, each filled up by zeros, as the paper's two dots have it.
    fn text(frames: &str) -> Vec<u8> {
        let digits = |frame: &str| match &frame[..2] {
            "01" => 10,
            "02" => 6,
            "03" => 26,
            _ => 42,
        };
        let lines = frames.split_whitespace().map(|frame| format!("{frame:0<0$}\n", digits(frame)));
        lines.collect::<String>().into_bytes()
    }

    /// Is the reason for an entry of these steps, each as its frame has it after the 13?
    fn expect(frames: &str, method: usize, set: usize, steps: &str) {
        let due: String = steps.split_whitespace().map(|step| format!("13{step}\n")).collect();
        assert_eq!(reason_lines(&explain(&text(frames), method, set)), due, "{method} {set}");
    }

    #[test]
    fn p12_is_cmpd_by_its_own_atomic_of_the_round_before() {
        let p12 = "0101010003 020003 04000003 03 0301 03080001";
        expect(p12, 0, 0, "000002000002030A 0000020000010201 0000010000010203");
    }

    #[test]
    fn rounds_count_from_1_for_a_grade_of_0_too() {
        expect("0101000001 04000001 03", 0, 0, "0000000000010000");
    }

    #[test]
    fn the_first_part_that_is_equal_but_the_last_of_two_atomic_ones() {
        // A choice: the test reads, then both branches do.
        let frames = "0101010007 020003 04000007 03 0301 03 03010002 03 03010004 0304000100030005";
        expect(frames, 0, 0, "0000060000010309 0000050000010203");
        // Wide reads are cmpd each.
        let frames = "0101010007 020103 04000007 03 0301 03 03010002 03 03010004 0304000100030005";
        expect(frames, 0, 0, "0000060000010301 0000010000010303");
        // A loop whose test alone is atomic.
        let frames = "0101010004 020003 04000004 03 0301 03 030500010002";
        expect(frames, 0, 0, "0000030000010309 0000010000010203");
    }

    #[test]
    fn a_synchronised_child_counts_with_the_lock_added() {
        // Method 1 takes its lock 1, and within that 0, around a read that lock 1 guards.
        let frames = "0102010005 020001 04000001 04020004 03 03 03010000000000000001 03060001 03060002000000000001";
        expect(frames, 1, 0, "0100030000010201 0100020200010205");
        expect(frames, 1, 1, "0100030100010205");
        expect(frames, 1, 2, "0100030200010201 0100020200010205");
        expect(frames, 1, 3, "0100030300010101 0100020300010101 0100010300010103");
    }

    #[test]
    fn an_assert_ends_only_over_cmpd() {
        // Method 1 asserts a wide read, method 2 one whose lock has no name.
        let frames = "0103020007 020103 020001 04000001 04000003 04000003 \
                      03 03 0301 03070001 03 030100000000000001FF 03070001";
        expect(frames, 1, 0, "0100020000010406");
        expect(frames, 2, 0, "0200020000010401 0200010000010403");
    }

    #[test]
    fn the_lowest_among_the_largest_entries_counts() {
        // Method 1 is declared [1,2,2,0], method 2 calls it by name, and method 3 calls that with FF twice.
        let frames = "0104000006 04000001 0402000101010202 04020002 04000002 \
                      03 03 03 0308000000000000010001 03 030800000000000002FFFF";
        expect(frames, 3, 0, "0300010000020202 0200010100010207");
        expect(frames, 1, 2, "0100000200000207");
    }
}
