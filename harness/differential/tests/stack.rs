//! The wrapper's figure for the stack: a thread with no more grades and explains the deepest text and the longest, and goes
//! through the longest reasons that we know how to make.
#![cfg(feature = "engine")]

use ikhzorvan::{explain, grade, session, Accepted, Refusal, ANSWER_LEN, LONGEST_TEXT, STACK};
use std::thread;
use texts::{chains, limits};

/// What a call gives on a thread with just that stack.
fn on_a_small_stack<T: Send + 'static>(call: impl FnOnce() -> T + Send + 'static) -> T {
    thread::Builder::new().stack_size(STACK).spawn(call).expect("a thread").join().expect("its end")
}

/// What grading and its session give.
fn graded(text: Vec<u8>) -> (Result<Accepted, Refusal>, Vec<u8>) {
    on_a_small_stack(move || {
        let mut answer = [0; ANSWER_LEN];
        (grade(&text, &mut answer), session(&text))
    })
}

/// How many steps the reason for an entry has, which must be the oracle's.
fn explained(text: Vec<u8>, (method, set): (usize, usize)) -> Result<usize, Refusal> {
    let due = oracle::explain(&text, method, set);
    let found = on_a_small_stack(move || explain(&text, method, set));
    assert!(found == due, "the reason is the oracle's");
    found.map(|steps| steps.len())
}

#[test]
fn the_deepest_text() {
    let text = limits::deepest().text();
    let (verdict, session) = graded(text.clone());
    assert_eq!(verdict.map(|accepted| accepted.methods), Ok(2));
    assert!(session.starts_with(b"1002"));
    assert_eq!(explained(text, (0, 0)), Ok(1023));
}

#[test]
fn the_longest_text() {
    let mut text = limits::deepest().text();
    text.extend(b"00\n");
    text.resize(LONGEST_TEXT, b'0');
    let (verdict, session) = graded(text.clone());
    assert_eq!(verdict, Err(Refusal::Misplaced { line: 1028 }));
    assert!(session.starts_with(b"1F04"));
    assert_eq!(explained(text, (0, 0)), Err(Refusal::Misplaced { line: 1028 }));
}

#[test]
fn the_longest_reasons() {
    for ring in [1, 2, 62] {
        let steps = explained(chains::longest(ring, 1024).text(), chains::last(ring)).expect("accepted");
        assert!(steps > 24_000, "{steps}");
    }
}
