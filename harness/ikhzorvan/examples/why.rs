//! `why METHOD SET`: explains the grade of a method under a held set, of the text on standard input, a line for each step.

use ikhzorvan::{rule, Step};
use std::io::Read;
use std::process::ExitCode;

const GRADES: [&str; 5] = ["const", "mover", "atomic", "cmpd", "error"];

fn main() -> ExitCode {
    let numbers: Vec<usize> = std::env::args().skip(1).filter_map(|number| number.parse().ok()).collect();
    let [method, set] = numbers[..] else {
        eprintln!("why METHOD SET <TEXT");
        return ExitCode::from(2);
    };
    let mut text = Vec::new();
    if let Err(error) = std::io::stdin().read_to_end(&mut text) {
        eprintln!("{error}");
        return ExitCode::from(2);
    }
    match ikhzorvan::explain(&text, method, set) {
        Ok(steps) => steps.iter().for_each(say),
        Err(refusal) => println!("refused by {}: {refusal}", refusal.number()),
    }
    ExitCode::SUCCESS
}

fn say(step: &Step) {
    let grade = GRADES[usize::from(step.grade)];
    let (own, added) = (step.rule % rule::TWO_ATOMIC, step.rule / rule::TWO_ATOMIC);
    let because = match own {
        rule::PLAIN => "a plain value",
        rule::CHILD => "a child",
        rule::CALLEE => "a callee",
        rule::ACCESS => "its access",
        rule::FORK => "its fork",
        rule::LOCK => "the lock that it takes",
        rule::ASSERT => "its assert, of a child that is cmpd",
        _ => "a declaration",
    };
    let twice = if added == 1 { "two atomic parts in a row, the last of them " } else { "" };
    println!("method {} node {}, held set {}: {grade} by {twice}{because}", step.method, step.node, step.set);
}
