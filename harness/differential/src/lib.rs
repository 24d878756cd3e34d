//! Holds the graders against each other and against the paper's laws.

mod bridge;
pub mod compare;
pub mod explainers;
pub mod graders;
pub mod laws;
pub mod random;
pub mod reasons;
pub mod tally;
pub mod vectors;
