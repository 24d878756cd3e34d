//! Runs the vectors, the random texts, the laws and the reasons, and fails on any difference.
//!
//! `differential [TEXTS [SEED]]`

use differential::explainers::{self, Explainer};
use differential::graders::{self, Grader};
use differential::reasons::JUDGED_PROGRAMS;
use differential::tally::JUDGED_TEXTS;
use differential::{laws, random, reasons, vectors};
use std::process::ExitCode;

const SEED: u64 = 20_071_105;
const LAW_PROGRAMS: usize = 3_000;

fn main() -> ExitCode {
    let mut arguments = std::env::args().skip(1).map(|argument| argument.parse::<u64>().expect("a number"));
    let texts = arguments.next().map_or(JUDGED_TEXTS, |texts| texts as usize);
    let seed = arguments.next().unwrap_or(SEED);
    let graders = graders::all();
    let names: Vec<_> = graders.iter().map(|grader| grader.name()).collect();
    println!("graders: {}", names.join(", "));
    let explainers = explainers::all();
    let names: Vec<_> = explainers.iter().map(|explainer| explainer.name()).collect();
    println!("explainers beside the oracle: {}", if names.is_empty() { "none".into() } else { names.join(", ") });

    let programs = JUDGED_PROGRAMS * texts / JUDGED_TEXTS;
    let passed = [
        run_vectors(&graders),
        run_vectors_of_reasons(&explainers),
        run_random(seed, texts, &graders),
        run_laws(seed, &graders),
        run_reasons(seed, programs, &explainers),
    ];
    match passed.iter().all(|&passed| passed) {
        true => ExitCode::SUCCESS,
        false => ExitCode::FAILURE,
    }
}

fn run_vectors(graders: &[Box<dyn Grader>]) -> bool {
    match vectors::run(graders) {
        Ok((count, differences)) => {
            println!("vectors: {count} texts, {} differences", differences.len());
            differences.iter().for_each(|difference| println!("{difference}"));
            differences.is_empty()
        }
        Err(error) => {
            println!("vectors: {error}");
            false
        }
    }
}

fn run_vectors_of_reasons(explainers: &[Box<dyn Explainer>]) -> bool {
    match vectors::run_reasons(explainers) {
        Ok((texts, questions, differences)) => {
            println!("vectors of reasons: {texts} texts, {questions} questions, {} differences", differences.len());
            differences.iter().for_each(|difference| println!("{difference}"));
            differences.is_empty()
        }
        Err(error) => {
            println!("vectors of reasons: {error}");
            false
        }
    }
}

fn run_random(seed: u64, count: usize, graders: &[Box<dyn Grader>]) -> bool {
    match random::run(seed, count, graders) {
        Ok(tally) => {
            println!("random texts: {count} from seed {seed}, no difference; reached:\n{tally}");
            tally.is_enough()
        }
        Err(failure) => {
            println!("random texts: a difference\n{failure}");
            false
        }
    }
}

fn run_laws(seed: u64, graders: &[Box<dyn Grader>]) -> bool {
    match laws::run(seed, LAW_PROGRAMS, graders) {
        Ok(tried) => {
            println!("laws: hold on\n{tried}");
            if !tried.is_enough() {
                println!("  TOO FEW of them show anything");
            }
            tried.is_enough()
        }
        Err(failure) => {
            println!("laws: {failure}");
            false
        }
    }
}

fn run_reasons(seed: u64, programs: usize, explainers: &[Box<dyn Explainer>]) -> bool {
    match reasons::run(seed, programs, explainers) {
        Ok(tally) => {
            println!("reasons: of {programs} accepted programs from seed {seed}, no difference; reached:\n{tally}");
            tally.is_enough()
        }
        Err(failure) => {
            println!("reasons: a difference\n{failure}");
            false
        }
    }
}
