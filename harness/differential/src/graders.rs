//! The graders that are compared, each behind the functions of `include/ikhzorvan.h` that grade.

use crate::bridge::Bridge;
use ikhzorvan::{Verdict, RECORD_LEN};
use rounds::Way;

/// What grading returns where the record is not 11 bytes long.
pub const BAD_RECORD: u8 = 255;

/// One implementation of the two functions.
pub trait Grader {
    fn name(&self) -> &'static str;
    fn grade(&self, text: &[u8], answer: &mut [u8], record: &mut [u8]) -> u8;
    fn session(&self, text: &[u8], out: &mut [u8]) -> usize;
}

/// Lays a verdict into a record as the functions do, or refuses a record of wrong length before there is any verdict.
pub fn recorded(record: &mut [u8], verdict: impl FnOnce() -> Verdict) -> u8 {
    if record.len() != RECORD_LEN {
        return BAD_RECORD;
    }
    let verdict = verdict();
    record.copy_from_slice(&verdict.record());
    verdict.number()
}

/// Lays a session into the room for it, if there is enough.
pub fn laid_out(out: &mut [u8], session: &[u8]) -> usize {
    if let Some(room) = out.get_mut(..session.len()) {
        room.copy_from_slice(session);
    }
    session.len()
}

/// The paper's rules in plain Rust.
pub struct Oracle;

impl Grader for Oracle {
    fn name(&self) -> &'static str {
        "oracle"
    }

    fn grade(&self, text: &[u8], answer: &mut [u8], record: &mut [u8]) -> u8 {
        recorded(record, || oracle::grade(text, answer))
    }

    fn session(&self, text: &[u8], out: &mut [u8]) -> usize {
        laid_out(out, &oracle::session(text))
    }
}

/// The straightforward implementation by rounds, in one of its two ways.
pub struct Rounds(pub Way);

impl Grader for Rounds {
    fn name(&self) -> &'static str {
        match self.0 {
            Way::Upwards => "rounds",
            Way::Recursion => "recursion",
        }
    }

    fn grade(&self, text: &[u8], answer: &mut [u8], record: &mut [u8]) -> u8 {
        recorded(record, || rounds::grade(self.0, text, answer))
    }

    fn session(&self, text: &[u8], out: &mut [u8]) -> usize {
        rounds::session(self.0, text, out)
    }
}

/// The proved checker.
#[cfg(feature = "engine")]
pub struct Engine;

#[cfg(feature = "engine")]
impl Grader for Engine {
    fn name(&self) -> &'static str {
        "engine"
    }

    fn grade(&self, text: &[u8], answer: &mut [u8], record: &mut [u8]) -> u8 {
        // SAFETY: the slices are each good for their length, and borrowed apart from each other.
        unsafe {
            ikhzorvan::raw::ikhzorvan_grade(
                text.as_ptr(),
                text.len(),
                answer.as_mut_ptr(),
                answer.len(),
                record.as_mut_ptr(),
                record.len(),
            )
        }
    }

    fn session(&self, text: &[u8], out: &mut [u8]) -> usize {
        // SAFETY: as above.
        unsafe { ikhzorvan::raw::ikhzorvan_session(text.as_ptr(), text.len(), out.as_mut_ptr(), out.len()) }
    }
}

/// The graders that run in this process: the oracle first, the proved checker last if it is linked.
pub fn linked() -> Vec<Box<dyn Grader>> {
    vec![
        Box::new(Oracle),
        Box::new(Rounds(Way::Upwards)),
        Box::new(Rounds(Way::Recursion)),
        #[cfg(feature = "engine")]
        Box::new(Engine),
    ]
}

/// Those, and the proved checker where only a bridge leads to it.
pub fn all() -> Vec<Box<dyn Grader>> {
    let bridge = Bridge::of_environment().map(|bridge| Box::new(bridge) as Box<dyn Grader>);
    linked().into_iter().chain(bridge).collect()
}
