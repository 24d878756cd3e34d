//! The vectors of W-207, by the oracle and by each that explains.

use differential::{explainers, vectors};

#[test]
fn every_vector_has_its_reasons() {
    let (texts, questions, differences) = vectors::run_reasons(&explainers::all()).expect("the gate's vectors");
    assert_eq!((texts, differences), (61, Vec::new()));
    assert!(questions > 1_000, "{questions}");
}
