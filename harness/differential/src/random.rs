//! The random run: many texts from one seed, each graded by every grader.

use crate::compare::{difference, difference_from, Expected, WrongLengths};
use crate::graders::Grader;
use crate::tally::Tally;
use ikhzorvan::{ANSWER_LEN, RECORD_LEN};
use texts::shrink::shrunk;
use texts::unnamed::{self, Slope};
use texts::{damage, limits, random, ring, Rng};

/// The text of a case: the same seed and number give the same text.
pub fn text(rng: &mut Rng) -> Vec<u8> {
    match rng.below(120) {
        0..=54 => random::program(rng).text(),
        55..=79 => {
            let text = random::program(rng).text();
            damage::damaged(rng, &text)
        }
        80..=89 => {
            let mut program = random::program(rng);
            damage::misnamed(rng, &mut program);
            program.text()
        }
        90..=95 => ring::random(rng).text(),
        96..=98 => limits::text(rng),
        99 => {
            let text = limits::text(rng);
            damage::damaged(rng, &text)
        }
        _ => unnamed::program(rng, Slope::Rising).text(),
    }
}

fn wrong_lengths(rng: &mut Rng) -> WrongLengths {
    let answer = rng.pick(&[0, 1, 16, 512, ANSWER_LEN - 1, ANSWER_LEN + 1, 2 * ANSWER_LEN]);
    let record = rng.pick(&[0, 1, 8, RECORD_LEN - 1, RECORD_LEN + 1, 2 * RECORD_LEN]);
    WrongLengths { answer, record, slack: rng.between(1, 300) }
}

/// Runs so many cases. Gives the tally, or a failing text in words, shrunk.
pub fn run(seed: u64, count: usize, graders: &[Box<dyn Grader>]) -> Result<Tally, String> {
    let mut tally = Tally::of_texts(count);
    for case in 0..count {
        let rng = &mut Rng::of_case(seed, case as u64);
        let text = text(rng);
        let wrong = wrong_lengths(rng);
        let expected = Expected::of(&text);
        for grader in graders {
            if let Some(what) = difference_from(&expected, grader.as_ref(), &text, wrong) {
                return Err(format!("case {case} of seed {seed}: {}", failure(grader.as_ref(), &text, wrong, what)));
            }
        }
        tally.take(&text, &expected.outcome);
    }
    Ok(tally)
}

/// The text on which a grader differs, as small as it can be had, printed as frames.
fn failure(grader: &dyn Grader, text: &[u8], wrong: WrongLengths, what: String) -> String {
    let text = shrunk(text, &|text| difference(grader, text, wrong).is_some());
    let seen_again = difference(grader, &text, wrong);
    let what = seen_again.unwrap_or_else(|| format!("{what}\n(not seen again: it hangs on the calls before it)"));
    let due = oracle::session(&text);
    format!("{what}\nthe text:\n{}the oracle's session:\n{}", text.escape_ascii_lines(), due.escape_ascii_lines())
}

pub(crate) trait EscapeLines {
    fn escape_ascii_lines(&self) -> String;
}

impl EscapeLines for [u8] {
    /// The bytes line by line; any that cannot be printed is escaped.
    fn escape_ascii_lines(&self) -> String {
        let lines = self.split_inclusive(|&byte| byte == b'\n');
        lines.map(|line| format!("  {}\n", line.strip_suffix(b"\n").unwrap_or(line).escape_ascii())).collect()
    }
}

#[cfg(test)]
pub(crate) mod tests {
    use super::*;
    use crate::graders::Oracle;

    /// Grades as the oracle does, but takes a text with a loop for one that is not.
    struct BlindToLoops;

    impl Grader for BlindToLoops {
        fn name(&self) -> &'static str {
            "blind"
        }

        fn grade(&self, text: &[u8], answer: &mut [u8], record: &mut [u8]) -> u8 {
            Oracle.grade(&without_loops(text), answer, record)
        }

        fn session(&self, text: &[u8], out: &mut [u8]) -> usize {
            Oracle.session(&without_loops(text), out)
        }
    }

    pub(crate) fn without_loops(text: &[u8]) -> Vec<u8> {
        String::from_utf8_lossy(text).replace("\n0305", "\n0303").into_bytes()
    }

    #[test]
    fn a_difference_is_found_and_shrunk() {
        let failure = run(1, 10_000, &[Box::new(BlindToLoops)]).err().expect("a difference");
        let loops = failure.lines().filter(|line| line.starts_with("  0305")).count();
        assert_eq!(loops, 1, "{failure}");
        assert!(failure.lines().count() < 16, "{failure}");
    }

    #[test]
    fn the_same_seed_gives_the_same_texts() {
        for case in 0..50 {
            assert_eq!(text(&mut Rng::of_case(3, case)), text(&mut Rng::of_case(3, case)));
        }
    }
}
