//! Explaining, measured against grading the same text by the same archive.

use crate::inputs::{full_with, SESSION};
use crate::measure::medians;
use crate::{in_words, print_row};
use differential::explainers::{self, Explainer, Question};
use differential::graders::{self, Grader, Oracle};
use ikhzorvan::{Step, ANSWER_LEN, MOST_STEPS, PAGE_LEN, RECORD_LEN};
use texts::{chains, ring, Program};

/// An entry to be explained.
struct Input {
    name: String,
    text: Vec<u8>,
    question: Question,
}

/// Inputs that are shown together, made when they are due.
struct Group {
    title: &'static str,
    inputs: fn() -> Vec<Input>,
    /// How many gradings of the same text explaining may take at most.
    most: f64,
}

const GROUPS: [Group; 4] = [
    Group { title: "explaining the paper's session", inputs: session, most: 2.0 },
    Group { title: "explaining random, 64 methods, 1,024 nodes, 4 locks", inputs: full, most: 2.0 },
    Group { title: "explaining the most rounds", inputs: rings, most: 20.0 },
    Group { title: "explaining the longest reasons, 1,024 nodes", inputs: longest, most: 20.0 },
];

/// Measures the groups with this word in their title. Does none take more gradings than it may?
pub fn measure(word: &str) -> bool {
    let (grader, explainer) = subject();
    println!("median time of one call of {}: explaining one entry, and grading the text that it is of", grader.name());
    print_row("", &["grading", "explaining", "gradings", "at most"].map(str::to_string));
    let mut is_fast = true;
    for group in GROUPS.iter().filter(|group| group.title.contains(word)) {
        println!("{}", group.title);
        for input in (group.inputs)() {
            let times = times(grader.as_ref(), explainer.as_ref(), &input);
            let ratio = times[1] / times[0];
            let is_slow = ratio > group.most;
            is_fast &= !is_slow;
            let mark = if is_slow { "  TOO SLOW" } else { "" };
            let most = format!("{}{mark}", group.most);
            print_row(
                &format!("  {}", input.name),
                &[in_words(times[0]), in_words(times[1]), format!("{ratio:.2}"), most],
            );
        }
    }
    is_fast
}

/// The proved checker if it is linked, else the oracle.
fn subject() -> (Box<dyn Grader>, Box<dyn Explainer>) {
    match (graders::linked().pop(), explainers::linked().pop()) {
        (Some(grader), Some(explainer)) => (grader, explainer),
        _ => (Box::new(Oracle), Box::new(Oracle)),
    }
}

fn times(grader: &dyn Grader, explainer: &dyn Explainer, input: &Input) -> Vec<f64> {
    let (mut answer, mut record) = ([0; ANSWER_LEN], [0; RECORD_LEN]);
    let (mut steps, mut page) = (vec![Step::default(); MOST_STEPS], [0; PAGE_LEN]);
    let mut calls: [Box<dyn FnMut() -> usize>; 2] = [
        Box::new(|| usize::from(grader.grade(&input.text, &mut answer, &mut record))),
        Box::new(|| usize::from(explainer.explain(&input.text, input.question, &mut steps, &mut page))),
    ];
    assert_eq!(calls.each_mut().map(|call| call()), [0, 0], "{}", input.name);
    medians(&mut calls)
}

/// An entry of a program, with the length of its reason in the name.
fn asked(name: impl std::fmt::Display, program: &Program, (method, set): (usize, usize)) -> Input {
    let text = program.text();
    let steps = oracle::explain(&text, method, set).expect("an accepted text").len();
    Input { name: format!("{name} ({steps} steps)"), text, question: Question { method, set } }
}

/// The entry with the longest reason of all.
fn asked_longest(name: impl std::fmt::Display, program: &Program) -> Input {
    let reasons = oracle::reasons(&program.text()).expect("an accepted text");
    let entries = program.methods.iter().enumerate();
    let entries = entries.flat_map(|(method, own)| (0..own.entries()).map(move |set| (method, set)));
    let steps = |&(method, set): &(usize, usize)| reasons.reason(method, set).expect("an entry").len();
    asked(name, program, entries.max_by_key(steps).expect("a program has entries"))
}

fn session() -> Vec<Input> {
    let program = Program::of_text(SESSION.as_bytes()).expect("frames");
    vec![asked("the main", &program, (0, 0)), asked("a mover", &program, (2, 1))]
}

fn full() -> Vec<Input> {
    let programs = full_with(0, 3);
    programs.iter().enumerate().map(|(which, program)| asked_longest(format!("no. {}", which + 1), program)).collect()
}

fn rings() -> Vec<Input> {
    vec![
        asked_longest("longest ring", &ring::longest(63)),
        asked_longest("longest ring, 1,024 nodes", &ring::longest_and_full()),
    ]
}

fn longest() -> Vec<Input> {
    let chain = |name: &str, ring: usize| asked(name, &chains::longest(ring, 1024), chains::last(ring));
    vec![chain("one method", 1), chain("2 methods", 2), chain("62 methods", 62)]
}
