//! Measures the graders against each other, then explaining against grading, and prints a table of each. Fails if explaining
//! takes more gradings than it may.
//!
//! `bench [WORD]` measures the groups with that word in their title, or all.
//!
//! All graders get the same text. Answer, record, output, steps and page are lent again for each call without being cleared,
//! and every grader writes all that it has to, the whole answer of an accepted text included.

mod inputs;
mod measure;
mod reasons;

use differential::graders::{self, Grader};
use ikhzorvan::{ANSWER_LEN, LONGEST_SESSION, RECORD_LEN};
use inputs::{Call, Input};
use std::process::ExitCode;

fn main() -> ExitCode {
    let word = std::env::args().nth(1).unwrap_or_default();
    measure_graders(&word);
    match reasons::measure(&word) {
        true => ExitCode::SUCCESS,
        false => ExitCode::FAILURE,
    }
}

fn measure_graders(word: &str) {
    let graders = graders::linked();
    let subject = graders.last().expect("there are graders").name();
    println!("median time of one call, and ratios of {subject} to the others; buffers not cleared between calls");
    print_row("", &headings(&graders));
    for group in inputs::groups().iter().filter(|group| group.title.contains(word)) {
        println!("{}", group.title);
        for input in &(group.inputs)() {
            expect_number(input);
            let times = times(&graders, input);
            print_row(&format!("  {}", input.name), &cells(&times));
        }
    }
}

/// Without this a wrong text could be measured unseen.
fn expect_number(input: &Input) {
    if let Call::Grade { answer_len } = input.call {
        let (mut answer, mut record) = (vec![0; answer_len], [0; RECORD_LEN]);
        let number = graders::Oracle.grade(&input.text, &mut answer, &mut record);
        assert_eq!(number, input.number, "{}", input.name);
    }
}

fn times(graders: &[Box<dyn Grader>], input: &Input) -> Vec<f64> {
    let mut calls: Vec<_> = graders.iter().map(|grader| call(grader.as_ref(), input)).collect();
    measure::medians(&mut calls)
}

fn call<'a>(grader: &'a dyn Grader, input: &'a Input) -> Box<dyn FnMut() -> usize + 'a> {
    let mut record = [0; RECORD_LEN];
    match input.call {
        Call::Grade { answer_len } => {
            let mut answer = vec![0; answer_len.max(ANSWER_LEN)];
            Box::new(move || usize::from(grader.grade(&input.text, &mut answer[..answer_len], &mut record)))
        }
        Call::Session => {
            let mut out = [0; LONGEST_SESSION];
            Box::new(move || grader.session(&input.text, &mut out))
        }
    }
}

fn headings(graders: &[Box<dyn Grader>]) -> Vec<String> {
    let names = || graders.iter().map(|grader| grader.name());
    let others = names().take(graders.len() - 1);
    names().map(str::to_string).chain(others.map(|other| format!("to {other}"))).collect()
}

/// The time of each grader, then the ratio of the last one's to each other's.
fn cells(times: &[f64]) -> Vec<String> {
    let (last, others) = times.split_last().expect("there are graders");
    let ratios = others.iter().map(|other| format!("{:.2}", last / other));
    times.iter().map(|&time| in_words(time)).chain(ratios).collect()
}

fn in_words(nanoseconds: f64) -> String {
    match nanoseconds {
        time if time < 1e3 => format!("{time:.0} ns"),
        time if time < 1e6 => format!("{:.1} us", time / 1e3),
        time => format!("{:.2} ms", time / 1e6),
    }
}

fn print_row(name: &str, cells: &[String]) {
    let cells: String = cells.iter().map(|cell| format!("{cell:>14}")).collect();
    println!("{name:<44}{cells}");
}
