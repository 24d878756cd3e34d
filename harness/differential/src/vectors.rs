//! The vectors: the texts that the gate runs, what the grading program must print for each, and the reasons that must be given.

use crate::explainers::{Explainer, Question};
use crate::graders::Grader;
use ikhzorvan::{Step, LONGEST_SESSION, MOST_STEPS, PAGE_LEN, RECORD_LEN};
use std::path::Path;
use std::{fs, io};

/// The gate's crate of reasons: `args` first asks for single entries, each by `one`, the name of a text in `data/`, the method and
/// the held set; `stdout` has for each a line `why METHOD SET`, and then the frames of the steps or of the refusal.
const REASONS: &str = concat!(env!("CARGO_MANIFEST_DIR"), "/../../crates/why");

/// The gate's crate: `args` names the texts in `data/`; `stdout` has each name on a line and then its session's lines.
const CRATE: &str = concat!(env!("CARGO_MANIFEST_DIR"), "/../../crates/vectors");

/// What `stdout` has for each name, in the order of the names.
fn sessions<'a>(names: &'a str, stdout: &'a str) -> Option<Vec<(&'a str, &'a str)>> {
    let mut sessions = Vec::new();
    let mut rest = stdout;
    let mut names = names.lines().peekable();
    while let Some(name) = names.next() {
        rest = rest.strip_prefix(name)?.strip_prefix('\n')?;
        let end = match names.peek() {
            Some(next) => rest.find(&format!("\n{next}\n"))? + 1,
            None => rest.len(),
        };
        sessions.push((name, &rest[..end]));
        rest = &rest[end..];
    }
    Some(sessions)
}

/// Runs every grader on every vector. Tells how many there are, and each difference in words.
pub fn run(graders: &[Box<dyn Grader>]) -> io::Result<(usize, Vec<String>)> {
    let folder = Path::new(CRATE);
    let (names, stdout) = (fs::read_to_string(folder.join("args"))?, fs::read_to_string(folder.join("stdout"))?);
    let sessions = sessions(&names, &stdout).ok_or(io::ErrorKind::InvalidData)?;
    let mut differences = Vec::new();
    for &(name, due) in &sessions {
        let text = fs::read(folder.join("data").join(name))?;
        for grader in graders {
            let mut out = vec![0; LONGEST_SESSION];
            let len = grader.session(&text, &mut out);
            if out.get(..len) != Some(due.as_bytes()) {
                let found = String::from_utf8_lossy(&out[..len.min(LONGEST_SESSION)]);
                differences.push(format!("{} on {name}:\n{found}", grader.name()));
            }
        }
    }
    Ok((sessions.len(), differences))
}

/// A question of `args`, with the name of its text, and the frames that it must give.
struct Asked<'a> {
    name: &'a str,
    question: Question,
    frames: String,
}

/// The questions for single entries, in their order. What `args` asks after them is left out.
fn asked<'a>(args: &'a str, stdout: &str) -> Option<Vec<Asked<'a>>> {
    let words: Vec<&str> = args.lines().collect();
    let mut lines = stdout.lines().peekable();
    let mut all = Vec::new();
    for words in words.chunks(4) {
        let ["one", name, method, set] = *words else { break };
        if lines.next()? != format!("why {method} {set}") {
            return None;
        }
        let question = Question { method: method.parse().ok()?, set: set.parse().ok()? };
        let mut frames = String::new();
        while let Some(frame) = lines.next_if(|line| !line.starts_with("why ")) {
            frames += &format!("{frame}\n");
        }
        all.push(Asked { name, question, frames });
    }
    Some(all)
}

/// Asks the oracle and every explainer each question. Tells how many texts and questions there are, and each difference in
/// words.
pub fn run_reasons(explainers: &[Box<dyn Explainer>]) -> io::Result<(usize, usize, Vec<String>)> {
    let folder = Path::new(REASONS);
    let (args, stdout) = (fs::read_to_string(folder.join("args"))?, fs::read_to_string(folder.join("stdout"))?);
    let asked = asked(&args, &stdout).ok_or(io::ErrorKind::InvalidData)?;
    let mut differences = Vec::new();
    for Asked { name, question, frames } in &asked {
        let text = fs::read(folder.join("data").join(name))?;
        let Question { method, set } = *question;
        let by_oracle = ("oracle", oracle::reason_lines(&oracle::explain(&text, method, set)));
        let by_explainers = explainers.iter().map(|one| (one.name(), frames_by(one.as_ref(), &text, *question)));
        for (who, found) in std::iter::once(by_oracle).chain(by_explainers) {
            if found != *frames {
                differences.push(format!("{who} on {name} {method} {set}:\n{found}"));
            }
        }
    }
    let mut names: Vec<&str> = asked.iter().map(|one| one.name).collect();
    names.dedup();
    Ok((names.len(), asked.len(), differences))
}

/// The frames of what an explainer gives: a 13 for each step, or a 1F with the first bytes of the page.
fn frames_by(explainer: &dyn Explainer, text: &[u8], question: Question) -> String {
    let (mut steps, mut page) = (vec![Step::default(); MOST_STEPS], [0; PAGE_LEN]);
    let number = explainer.explain(text, question, &mut steps, &mut page);
    if number != 0 {
        let bytes: String = page[..8].iter().map(|byte| format!("{byte:02X}")).collect();
        return format!("1F{bytes}\n");
    }
    steps.truncate(usize::from(u16::from_be_bytes([page[RECORD_LEN], page[RECORD_LEN + 1]])));
    oracle::reason_lines(&Ok(steps))
}
