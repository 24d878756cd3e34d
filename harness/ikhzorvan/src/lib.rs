//! A safe wrapper over the proved checker of atomicity.
//!
//! A program comes as a text of frames. Each method is graded for each set of its lock names that its caller may hold:
//! const 0, mover 1, atomic 2, cmpd 3 or error 4. A lock that a call has no name for, FF, may be held or not: the worst of the
//! callee's grades counts, over all choices for such locks. `grade` writes the grades of a text, or gives the [`Refusal`] that
//! says why it has none; `session` gives what the grading program prints; `explain` gives the [`Step`]s that lead from a grade
//! to what made it.
//!
//! Nothing is kept between calls, so they may run on several threads at once. Each needs [`STACK`] bytes of stack.
//!
//! The functions need the feature `engine`, which is on by default and links `libikhzorvan.a`; `harness/install PREFIX`
//! installs that. It is looked for in the folder that the environment variable `IKHZORVAN_ARCHIVE_DIR` names (PREFIX/lib),
//! or where pkg-config says. Without the feature the crate has the types only.

mod step;
mod verdict;

pub use step::{rule, Page, Step, MOST_STEPS, PAGE_LEN};
pub use verdict::{
    Accepted, Broken, Kind, Record, Refusal, Verdict, ANSWER_LEN, LONGEST_SESSION, LONGEST_TEXT, RECORD_LEN,
};

/// How many bytes of stack are enough for a call of any of the functions, whatever the text. As a rule a main thread has more,
/// and a thread of the standard library unless it is asked for less.
///
/// This is measured and not proved: on x86-64 no call needs half of it.
pub const STACK: usize = 512 * 1024;

#[cfg(feature = "engine")]
pub mod raw;

#[cfg(feature = "engine")]
mod engine;

#[cfg(feature = "engine")]
pub use engine::{explain, grade, grade_into, session};
