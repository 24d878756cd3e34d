//! Texts to try a grader with: random programs, programs rich in calls with FF, programs with varied and with long reasons,
//! programs at each limit, many ways to damage a text, and shrinking.

pub mod chains;
pub mod damage;
pub mod grid;
pub mod limits;
pub mod program;
pub mod random;
pub mod reasons;
pub mod ring;
pub mod rng;
pub mod shrink;
pub mod unnamed;

pub use program::Program;
pub use rng::Rng;
