//! The wrapper over the linked checker.

use ikhzorvan::{
    explain, grade, grade_into, raw, rule, session, Accepted, Broken, Kind, Refusal, Step, Verdict, ANSWER_LEN,
    LONGEST_SESSION, PAGE_LEN, RECORD_LEN,
};
use std::ptr;

/// The text of "One whole session".
const SESSION: &[u8] = b"\
010301000A
020001
040000020000000000000000000000000000000000
040100030000000000000000000000000000000000
040100050000000000000000000000000000000000
03000000000000000000000000
030800000000000002FF000000
03000000000000000000000000
03010000000000000000000000
03060001000000000000000000
03000000000000000000000000
03080000000000000100000000
03000000000000000000000000
03080002000000000100000000
03030001000300000000000000
";

#[test]
fn an_accepted_text() {
    let mut answer = [9; ANSWER_LEN];
    assert_eq!(grade(SESSION, &mut answer), Ok(Accepted { methods: 3, rounds: 3 }));
    assert_eq!((answer[0], &answer[16..18], &answer[32..34]), (3, &[2, 1][..], &[3, 1][..]));
    assert_eq!(answer.iter().filter(|&&grade| grade != 0).count(), 5);
    assert_eq!(session(SESSION), b"10030003\n11000003\n1101010201\n1102010301\n");
}

#[test]
fn refused_texts_leave_the_answer() {
    let mut answer = [9; ANSWER_LEN];
    assert_eq!(grade(b"", &mut answer), Err(Refusal::Misplaced { line: 1 }));
    assert_eq!(grade(&[b'0'; 32_769], &mut answer), Err(Refusal::Overlong));
    assert_eq!(answer, [9; ANSWER_LEN]);
    assert_eq!(session(b"x\n"), b"1F0300010000000000\n");
}

#[test]
fn an_answer_of_wrong_length() {
    for len in [0, ANSWER_LEN - 1, ANSWER_LEN + 1] {
        assert_eq!(grade_into(SESSION, &mut vec![0; len]), Verdict::Refused(Refusal::WrongLength));
    }
}

/// A step of the session's text under no lock.
fn step(method: u8, node: u16, round: u16, grade: u8, rule: u8) -> Step {
    Step { method, node, set: 0, round, grade, rule }
}

#[test]
fn a_reason() {
    let steps = [
        step(0, 1, 3, 3, rule::CALLEE),
        step(2, 4, 2, 3, rule::CHILD + rule::TWO_ATOMIC),
        step(2, 3, 2, 2, rule::CALLEE),
        step(1, 2, 1, 2, rule::LOCK),
    ];
    assert_eq!(explain(SESSION, 0, 0).as_deref(), Ok(&steps[..]));
}

/// The main of so many nodes, each of which reads a final field above the node before it.
fn deep(nodes: usize) -> Vec<u8> {
    let mut text = format!("010101{nodes:04X}\n020000\n0400{nodes:04X}{:034}\n03{:024}\n", 0, 0);
    (1..nodes).for_each(|node| text += &format!("0301{:04X}{:018}\n", node - 1, 0));
    text.into_bytes()
}

#[test]
fn reasons_of_any_length() {
    for nodes in [1, 2, 63, 64, 65, 200, 1024] {
        let due =
            (0..nodes as u16).rev().map(|node| step(0, node, 1, 0, if node == 0 { rule::PLAIN } else { rule::CHILD }));
        assert_eq!(explain(&deep(nodes), 0, 0), Ok(due.collect()), "{nodes} nodes");
    }
}

#[test]
fn questions_that_are_refused() {
    for (method, set) in [(3, 0), (0, 1), (1, 2), (64, 0), (256, 0), (usize::MAX, 0), (0, 256), (2, usize::MAX)] {
        assert_eq!(explain(SESSION, method, set), Err(Refusal::NoEntry), "{method}, {set}");
    }
    // A text's own refusal comes before that of the question.
    for method in [0, 200] {
        assert_eq!(explain(&[b'0'; 32_769], method, 0), Err(Refusal::Overlong));
        assert_eq!(explain(b"x\n", method, 0), Err(Refusal::Malformed { line: 1 }));
        assert_eq!(explain(b"", method, 0), Err(Refusal::Misplaced { line: 1 }));
        assert_eq!(explain(b"0100000001\n", method, 0), Err(Refusal::OutOfRange { line: 1 }));
        assert_eq!(explain(&changed("010301000A", "010301000B"), method, 0), Err(Refusal::Unlinked { line: 5 }));
        let broken = Broken { method: 2, kind: Kind::Declared, held: 0 };
        assert_eq!(explain(&changed("04010005000000", "04010005010202"), method, 0), Err(Refusal::Broken(broken)));
    }
}

/// The session's text with one place changed.
fn changed(from: &str, to: &str) -> Vec<u8> {
    String::from_utf8(SESSION.to_vec()).expect("digits").replacen(from, to, 1).into_bytes()
}

#[test]
fn null_before_a_length_of_0() {
    let (mut answer, mut record, mut out) = ([9; ANSWER_LEN], [9; RECORD_LEN], [9; LONGEST_SESSION]);
    let (none, none_mut) = (ptr::null(), ptr::null_mut());
    // SAFETY: the other slices are each good for their length, and borrowed apart from each other.
    unsafe {
        assert_eq!(raw::ikhzorvan_grade(none, 0, answer.as_mut_ptr(), ANSWER_LEN, record.as_mut_ptr(), RECORD_LEN), 4);
        assert_eq!(record, Verdict::Refused(Refusal::Misplaced { line: 1 }).record());
        assert_eq!(raw::ikhzorvan_grade(none, 0, none_mut, 0, record.as_mut_ptr(), RECORD_LEN), 1);
        assert_eq!(raw::ikhzorvan_grade(none, 0, none_mut, 0, none_mut, 0), 255);
        assert_eq!(raw::ikhzorvan_session(none, 0, none_mut, 0), 19);
        assert_eq!(raw::ikhzorvan_session(none, 0, out.as_mut_ptr(), LONGEST_SESSION), 19);
        let (mut page, no_steps) = ([9; PAGE_LEN], ptr::null_mut());
        assert_eq!(raw::ikhzorvan_explain(none, 0, 0, 0, no_steps, 0, page.as_mut_ptr(), PAGE_LEN), 4);
        assert_eq!(page, [4, 0, 1, 0, 0, 0, 0, 0, 0, 0, 0, 0, 0]);
        let (text, len) = (SESSION.as_ptr(), SESSION.len());
        assert_eq!(raw::ikhzorvan_explain(text, len, 0, 0, no_steps, 0, page.as_mut_ptr(), PAGE_LEN), 11);
        assert_eq!(page, [11, 0, 0, 0, 0, 0, 0, 0, 0, 0, 0, 0, 4]);
        assert_eq!(raw::ikhzorvan_explain(text, len, 0, 0, no_steps, 0, none_mut, 0), 255);
    }
    assert_eq!(&out[..20], b"1F0400010000000000\n\x09");
    assert_eq!(answer, [9; ANSWER_LEN]);
}

#[test]
fn calls_on_several_threads_at_once() {
    let text_of =
        |declared: bool| if declared { changed("04010005000000", "04010005010202") } else { SESSION.to_vec() };
    std::thread::scope(|threads| {
        for number in 0..8 {
            let text = text_of(number % 2 == 1);
            let due =
                if number % 2 == 1 { "1F0700000201000000\n" } else { "10030003\n11000003\n1101010201\n1102010301\n" };
            threads.spawn(move || (0..500).for_each(|_| assert_eq!(session(&text), due.as_bytes())));
        }
    });
}
