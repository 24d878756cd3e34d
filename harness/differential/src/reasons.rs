//! The reasons of many random programs, by the oracle and by each that explains: what is returned, and every step and byte that
//! could have been written.

use crate::compare::{differing, Room};
use crate::explainers::{laid_out, Explainer, Question};
use crate::random::{self, EscapeLines};
use crate::tally::Counts;
use ikhzorvan::{rule, Refusal, Step, PAGE_LEN};
use oracle::{Reasons, Table};
use std::fmt;
use texts::program::NO_NAME;
use texts::shrink::shrunk;
use texts::unnamed::{self, Slope};
use texts::{chains, limits, ring, Program, Rng};

/// How many accepted programs a run must have to be held to [`WANTED`].
pub const JUDGED_PROGRAMS: usize = 24_000;

/// Programs with no more entries are asked about every one, others about so many.
const FEW_ENTRIES: usize = 64;

/// A reason that the oracle gives, or why there is none.
type Reason = Result<Vec<Step>, Refusal>;

/// The text of a case: the same seed and number give the same text.
fn text(rng: &mut Rng) -> Vec<u8> {
    match rng.below(100) {
        0..=57 => texts::reasons::program(rng).text(),
        58..=59 => chains::random(rng).text(),
        60..=74 => texts::random::program(rng).text(),
        75..=89 => unnamed::program(rng, Slope::Rising).text(),
        90..=94 => ring::random(rng).text(),
        95 => limits::text(rng),
        _ => random::text(rng),
    }
}

/// Explains so many accepted programs, and tries the refusals of those that come between. Gives the tally, or a failing text in
/// words, shrunk.
pub fn run(seed: u64, count: usize, explainers: &[Box<dyn Explainer>]) -> Result<Tally, String> {
    let mut tally = Tally::of_programs(count);
    let mut case = 0;
    while tally.accepted < count {
        let rng = &mut Rng::of_case(seed, case);
        let text = text(rng);
        let reasons = oracle::reasons(&text);
        let program = Program::of_text(&text);
        for question in questions(rng, &reasons) {
            let due = reason(&reasons, question);
            let rooms = rooms(rng, due.as_ref().map_or(0, Vec::len));
            for explainer in explainers {
                let difference = |&room: &_| difference(explainer.as_ref(), &text, question, &due, room);
                if let Some(what) = rooms.iter().find_map(difference) {
                    return Err(format!("case {case} of seed {seed}: {}", failure(explainer.as_ref(), &text, what)));
                }
            }
            tally.take_reason(&due, &rooms);
            if let (Ok(reasons), Some(program), Ok(steps)) = (&reasons, &program, &due) {
                tally.take_steps(program, reasons, steps);
            }
        }
        tally.accepted += usize::from(reasons.is_ok());
        case += 1;
    }
    Ok(tally)
}

/// "After 2 to 7, 10 if the method or held set doesn't exist."
fn reason(reasons: &Result<Reasons, Refusal>, question: Question) -> Reason {
    let reasons = reasons.as_ref().map_err(|refusal| *refusal)?;
    reasons.reason(question.method, question.set).ok_or(Refusal::NoEntry)
}

/// What is asked of a text: every entry of a small program, some of a large one, and a few that there are not.
fn questions(rng: &mut Rng, reasons: &Result<Reasons, Refusal>) -> Vec<Question> {
    let Ok(reasons) = reasons else {
        return vec![Question { method: 0, set: 0 }, Question { method: rng.pick(&[1, 64, 200]), set: rng.below(300) }];
    };
    let mut questions = entries(reasons.tables());
    if questions.len() > FEW_ENTRIES {
        questions = (0..FEW_ENTRIES).map(|_| rng.pick(&questions)).collect();
    }
    let methods = reasons.tables().len();
    let method = rng.below(methods);
    let sets = reasons.tables()[method].len();
    questions.push(Question { method: rng.pick(&[methods, 64, 256, 256 + method, usize::MAX]), set: 0 });
    questions.push(Question { method, set: rng.pick(&[sets, 16, 256, 256 + sets - 1, usize::MAX]) });
    questions
}

fn entries(tables: &[Table]) -> Vec<Question> {
    let sets = |(method, table): (usize, &Table)| (0..table.len()).map(move |set| Question { method, set });
    tables.iter().enumerate().flat_map(sets).collect()
}

/// Room for so many steps, with guard steps before and after.
struct Steps {
    steps: Vec<Step>,
    len: usize,
}

impl Steps {
    const GUARD: usize = 5;

    /// Filled with steps that are no step of a reason, and not all alike.
    fn new(len: usize) -> Steps {
        let fill = |at: usize| Step {
            method: 0x80 | at as u8,
            node: 0x8000 | at as u16,
            set: 0x90 | at as u8,
            round: 0xF000 | at as u16,
            grade: 0xA5,
            rule: 0x5A,
        };
        Steps { steps: (0..len + 2 * Steps::GUARD).map(fill).collect(), len }
    }

    fn lent(&mut self) -> &mut [Step] {
        &mut self.steps[Steps::GUARD..Steps::GUARD + self.len]
    }
}

/// How many steps and how many bytes of a page are lent.
type Lens = (usize, usize);

/// A list that is long enough, at times one that is too short, and at times a page of wrong length.
fn rooms(rng: &mut Rng, needed: usize) -> Vec<Lens> {
    let mut rooms = vec![(needed + rng.pick(&[0, 0, 1, 7, 50]), PAGE_LEN)];
    if needed > 0 && rng.percent(30) {
        let any = rng.below(needed);
        rooms.push((rng.pick(&[0, any, needed - 1]), PAGE_LEN));
    }
    if rng.percent(5) {
        rooms.push((needed, rng.pick(&[0, 1, PAGE_LEN - 2, PAGE_LEN - 1, PAGE_LEN + 1, 2 * PAGE_LEN])));
    }
    rooms
}

/// What differs between a reason that is due and what is found, in words, where the room has so many steps and bytes.
fn difference(
    explainer: &dyn Explainer,
    text: &[u8],
    question: Question,
    due: &Reason,
    (steps_len, page_len): Lens,
) -> Option<String> {
    let run = |explain: &dyn Fn(&mut [Step], &mut [u8]) -> u8| {
        let (mut steps, mut page) = (Steps::new(steps_len), Room::new(page_len));
        let returned = explain(steps.lent(), page.lent());
        (returned, steps, page)
    };
    let (due, due_steps, due_page) = run(&|steps, page| laid_out(due, steps, page));
    let (found, steps, page) = run(&|steps, page| explainer.explain(text, question, steps, page));
    let Question { method, set } = question;
    let call = format!(
        "{}: explain {method} {set} with room for {steps_len} steps and a page of {page_len} bytes",
        explainer.name()
    );
    if found != due {
        return Some(format!("{call} returns {found}, not {due}"));
    }
    let in_steps = || {
        let at = (0..due_steps.steps.len()).find(|&at| steps.steps[at] != due_steps.steps[at])?;
        let place = at as i64 - Steps::GUARD as i64;
        Some(format!("step {place} is {:?}, not {:?}", steps.steps[at], due_steps.steps[at]))
    };
    differing("page", &page, &due_page).or_else(in_steps).map(|what| format!("{call}: {what}"))
}

/// What differs on any entry of a text, and on one that there is not.
fn difference_anywhere(explainer: &dyn Explainer, text: &[u8]) -> Option<String> {
    let reasons = oracle::reasons(text);
    let mut questions = reasons.as_ref().map_or(Vec::new(), |reasons| entries(reasons.tables()));
    questions.push(Question { method: usize::MAX, set: 0 });
    questions.into_iter().find_map(|question| {
        let due = reason(&reasons, question);
        let needed = due.as_ref().map_or(0, Vec::len);
        let rooms = [(needed + 3, PAGE_LEN), (needed.saturating_sub(1), PAGE_LEN)];
        rooms.into_iter().find_map(|room| difference(explainer, text, question, &due, room))
    })
}

/// The text on which an explainer differs, as small as it can be had, printed as frames.
fn failure(explainer: &dyn Explainer, text: &[u8], what: String) -> String {
    let text = shrunk(text, &|text| difference_anywhere(explainer, text).is_some());
    let what = difference_anywhere(explainer, &text).unwrap_or(what);
    format!("{what}\nthe text:\n{}", text.escape_ascii_lines())
}

/// Counts what the reasons have reached, so that a run that reaches too little fails.
pub struct Tally {
    counts: Counts,
    /// How many programs were accepted.
    pub accepted: usize,
    questions: usize,
    longest: usize,
    most_callees: usize,
    /// Steps with rule 8, 13 or 14, which cannot be.
    impossible: usize,
}

/// Each rule by its number, then what else there is to see.
const WANTED: [(&str, usize); 34] = [
    ("rule 0, plain value", 2_000),
    ("rule 1, child", 2_000),
    ("rule 2, callee", 2_000),
    ("rule 3, access", 2_000),
    ("rule 4, fork", 2_000),
    ("rule 5, lock taken", 2_000),
    ("rule 6, assert", 2_000),
    ("rule 7, declared", 2_000),
    ("rule 9, child, two atomic", 2_000),
    ("rule 10, callee, two atomic", 2_000),
    ("rule 11, access, two atomic", 2_000),
    ("rule 12, fork, two atomic", 2_000),
    ("rule 15, declared callee, two atomic", 2_000),
    ("declared method asked for", 2_000),
    ("10 or more steps", 2_000),
    ("100 or more steps", 500),
    ("5 or more callees", 2_000),
    ("a node twice, under two held sets", 2_000),
    ("a node twice, in two grades", 500),
    ("callee by FF", 2_000),
    ("callee by FF, not the first set", 2_000),
    ("callee by FF, several largest", 2_000),
    ("callee by FF, several, not the first set", 500),
    ("callee by FF, another by the last tables", 500),
    ("callee that rises further later", 2_000),
    ("callee not of the round before", 500),
    ("refusal 2", 10),
    ("refusal 3", 50),
    ("refusal 4", 50),
    ("refusal 5", 50),
    ("refusal 6", 50),
    ("refusal 7", 1_000),
    ("refusal 10", 10_000),
    ("refusal 11", 10_000),
];

impl Tally {
    /// The tally of a run of so many accepted programs.
    pub fn of_programs(count: usize) -> Tally {
        let counts = Counts::of(&WANTED, count >= JUDGED_PROGRAMS);
        Tally { counts, accepted: 0, questions: 0, longest: 0, most_callees: 0, impossible: 0 }
    }

    fn take_reason(&mut self, reason: &Reason, rooms: &[Lens]) {
        self.questions += 1;
        match reason {
            Ok(steps) => {
                let is_short = |&(len, page): &Lens| len < steps.len() && page == PAGE_LEN;
                self.counts.count_if("refusal 11", rooms.iter().any(is_short));
            }
            Err(refusal) => match refusal.number() {
                1 => {}
                number => self.counts.count(&format!("refusal {number}")),
            },
        }
    }

    fn take_steps(&mut self, program: &Program, reasons: &Reasons, steps: &[Step]) {
        let callees = steps.iter().filter(|step| step.rule % rule::TWO_ATOMIC == rule::CALLEE).count();
        self.longest = self.longest.max(steps.len());
        self.most_callees = self.most_callees.max(callees);
        steps.iter().for_each(|step| self.take_rule(step.rule));
        self.counts.count_if("declared method asked for", steps[0].round == 0);
        self.counts.count_if("10 or more steps", steps.len() >= 10);
        self.counts.count_if("100 or more steps", steps.len() >= 100);
        self.counts.count_if("5 or more callees", callees >= 5);
        // Only a method that is come back to has a node twice.
        if callees > 0 {
            let first = |step: &Step| steps.iter().find(|other| (other.method, other.node) == (step.method, step.node));
            let again = |differs: fn(&Step, &Step) -> bool| {
                steps.iter().take(200).any(|step| first(step).is_some_and(|first| differs(first, step)))
            };
            self.counts.count_if("a node twice, under two held sets", again(|one, other| one.set != other.set));
            self.counts.count_if("a node twice, in two grades", again(|one, other| one.grade != other.grade));
        }
        for pair in steps.windows(2).filter(|pair| pair[0].rule % rule::TWO_ATOMIC == rule::CALLEE) {
            self.take_callee(program, reasons, &pair[0], &pair[1]);
        }
    }

    fn take_rule(&mut self, rule: u8) {
        let line = WANTED.iter().find(|(what, _)| what.starts_with(&format!("rule {rule},")));
        match line {
            Some((what, _)) => self.counts.count(what),
            None => self.impossible += 1,
        }
    }

    /// Takes in how a call came to the entry that is the next step's.
    fn take_callee(&mut self, program: &Program, reasons: &Reasons, call: &Step, root: &Step) {
        let callee = usize::from(root.method);
        let (then, last) = (&reasons.before(usize::from(call.round))[callee], &reasons.tables()[callee]);
        let picked = usize::from(root.set);
        self.counts.count_if("callee that rises further later", last[picked] > then[picked]);
        self.counts.count_if("callee not of the round before", root.round + 1 != call.round);
        let node = &program.methods[usize::from(call.method)].nodes[usize::from(call.node)];
        let names = &node.t[..usize::from(program.methods[callee].k)];
        if !names.contains(&NO_NAME) {
            return;
        }
        let choices = choices(names, call.set);
        let several = choices.iter().filter(|&&set| then[set] == then[picked]).count() > 1;
        let not_first = picked != choices[0];
        self.counts.count("callee by FF");
        self.counts.count_if("callee by FF, not the first set", not_first);
        self.counts.count_if("callee by FF, several largest", several);
        self.counts.count_if("callee by FF, several, not the first set", several && not_first);
        let largest = choices.iter().map(|&set| last[set]).max();
        let by_last = choices.iter().find(|&&set| Some(last[set]) == largest);
        self.counts.count_if("callee by FF, another by the last tables", by_last != Some(&picked));
    }

    /// Has each thing been reached often enough, and nothing that cannot be?
    pub fn is_enough(&self) -> bool {
        self.impossible == 0 && self.counts.is_enough()
    }
}

/// The sets of a callee's names that a call leaves open, the lowest first.
fn choices(names: &[u8], held: u8) -> Vec<usize> {
    let fits =
        |set: usize, (name, lock): (usize, &u8)| *lock == NO_NAME || set >> name & 1 == usize::from(held >> lock & 1);
    (0..1 << names.len()).filter(|&set| names.iter().enumerate().all(|name| fits(set, name))).collect()
}

impl fmt::Display for Tally {
    fn fmt(&self, out: &mut fmt::Formatter) -> fmt::Result {
        self.counts.fmt(out)?;
        writeln!(out, "  {:<44} {:>7}", "questions", self.questions)?;
        writeln!(out, "  {:<44} {:>7}", "most steps", self.longest)?;
        writeln!(out, "  {:<44} {:>7}", "most callees in a reason", self.most_callees)?;
        write!(out, "  {:<44} {:>7}", "steps with rule 8, 13 or 14", self.impossible)
    }
}

#[cfg(test)]
mod tests {
    use super::*;
    use crate::graders::Oracle;
    use crate::random::tests::without_loops;

    /// Explains as the oracle does, but takes a text with a loop for one that is not.
    struct BlindToLoops;

    impl Explainer for BlindToLoops {
        fn name(&self) -> &'static str {
            "blind"
        }

        fn explain(&self, text: &[u8], question: Question, steps: &mut [Step], page: &mut [u8]) -> u8 {
            Oracle.explain(&without_loops(text), question, steps, page)
        }
    }

    #[test]
    fn a_difference_is_found_and_shrunk() {
        let failure = run(1, 10_000, &[Box::new(BlindToLoops)]).err().expect("a difference");
        let loops = failure.lines().filter(|line| line.starts_with("  0305")).count();
        assert_eq!(loops, 1, "{failure}");
        assert!(failure.lines().count() < 14, "{failure}");
    }

    /// Explains as the oracle does, but for one fault.
    struct Faulty(Fault);

    #[derive(Clone, Copy, Debug, PartialEq)]
    enum Fault {
        WritesOnRefusal,
        WritesIntoListTooShort,
        WritesPastTheSteps,
        ForgetsTheLastStep,
        LeavesThePage,
        CountsOneMore,
        RoundsFrom0,
        WrongRule,
    }

    impl Explainer for Faulty {
        fn name(&self) -> &'static str {
            "faulty"
        }

        fn explain(&self, text: &[u8], question: Question, steps: &mut [Step], page: &mut [u8]) -> u8 {
            let (before, last) = (page.to_vec(), steps.last().copied());
            let number = Oracle.explain(text, question, steps, page);
            let count = oracle::explain(text, question.method, question.set).map_or(0, |steps| steps.len());
            match (self.0, number) {
                (Fault::WritesOnRefusal, 2..=10) => steps.fill(Step::default()),
                (Fault::WritesIntoListTooShort, 11) => steps.fill(Step::default()),
                (Fault::WritesPastTheSteps, 0) if steps.len() > count => steps[count] = Step::default(),
                (Fault::ForgetsTheLastStep, 0) if steps.len() == count => steps[count - 1] = last.expect("a step"),
                (Fault::LeavesThePage, _) => page.copy_from_slice(&before),
                (Fault::CountsOneMore, 0) => page[PAGE_LEN - 1] += 1,
                (Fault::RoundsFrom0, 0) => steps[..count].iter_mut().for_each(|step| step.round -= 1),
                (Fault::WrongRule, 0) => steps[0].rule += 1,
                _ => {}
            }
            number
        }
    }

    /// The main writes a field without a guard, then reads a final one: a reason of two steps.
    const TEXT: &[u8] = b"\
0101020004
020003
020000
040000040000000000000000000000000000000000
03000000000000000000000000
03000000000000000000000000
03020000000100000000000000
03010002000000000100000000
";

    fn difference_in_all_rooms(explainer: &dyn Explainer) -> Option<String> {
        let questions = [(0, 0), (0, 1), (1, 0)].map(|(method, set)| Question { method, set });
        questions.into_iter().find_map(|question| {
            let due = oracle::explain(TEXT, question.method, question.set);
            let rooms = [(2, PAGE_LEN), (3, PAGE_LEN), (1, PAGE_LEN), (0, PAGE_LEN), (2, PAGE_LEN + 1)];
            rooms.into_iter().find_map(|room| difference(explainer, TEXT, question, &due, room))
        })
    }

    #[test]
    fn no_difference_is_seen_where_there_is_none() {
        assert_eq!(difference_in_all_rooms(&Oracle), None);
    }

    #[test]
    fn each_fault_is_seen() {
        use Fault::*;
        for fault in [
            WritesOnRefusal,
            WritesIntoListTooShort,
            WritesPastTheSteps,
            ForgetsTheLastStep,
            LeavesThePage,
            CountsOneMore,
            RoundsFrom0,
            WrongRule,
        ] {
            assert!(difference_in_all_rooms(&Faulty(fault)).is_some(), "{fault:?}");
        }
    }
}
