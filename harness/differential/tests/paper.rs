//! The paper's own cases, by every grader there is: P5 to P13 as texts, W-204's rule for a call, and each limit.

use differential::compare::Outcome;
use differential::graders;
use ikhzorvan::{Accepted, Refusal, Verdict, LONGEST_TEXT};
use texts::limits;
use texts::program::{op, Field, Method, Node, Program, NO_NAME};

/// Every grader's outcome of a text, which must be the same.
fn graded(text: &[u8]) -> Outcome {
    let all: Vec<_> = graders::all().iter().map(|grader| Outcome::by(grader.as_ref(), text)).collect();
    assert!(all.iter().all(|one| *one == all[0]), "the graders differ");
    all[0]
}

fn verdict(text: &[u8]) -> Verdict {
    graded(text).verdict
}

fn is_accepted(program: &Program) -> bool {
    matches!(verdict(&program.text()), Verdict::Accepted(_))
}

/// A main that does nothing.
fn idle_main() -> Method {
    let mut main = Method::new(0);
    main.push(Node::default());
    main
}

/// A method that does nothing and is declared to have these grades.
fn declared(grades: &[u8]) -> Method {
    let mut method = Method::new(grades.len().ilog2() as u8);
    method.declared = Some(grades.to_vec());
    method.push(Node::default());
    method
}

/// The table of a method with k lock names that calls one with the grades `callee`, with these locks, under `above`.
fn table_of_call(k: u8, callee: &[u8], locks: &[u8], above: &[Node]) -> Vec<u8> {
    let mut method = Method::new(k);
    let plain = method.push(Node::default());
    method.push(Node::of(op::CALL, &[plain]).naming(2, locks));
    for &node in above {
        method.push(node);
    }
    let program = Program { fields: Vec::new(), methods: vec![idle_main(), method, declared(callee)] };
    table_of_method_1(&program)
}

fn table_of_method_1(program: &Program) -> Vec<u8> {
    let Outcome { verdict, answer } = graded(&program.text());
    assert!(matches!(verdict, Verdict::Accepted(_)), "{verdict:?}");
    answer[16..][..program.methods[1].entries()].to_vec()
}

/// The table of a method with one lock name that accesses a field by FF.
fn table_of_access(op: u8, field: Field) -> Vec<u8> {
    let mut method = Method::new(1);
    let plain = [method.push(Node::default()), method.push(Node::default())];
    method.push(Node::of(op, &plain[..op::children(op)]).naming(0, &[NO_NAME]));
    let program = Program { fields: vec![field], methods: vec![idle_main(), method] };
    table_of_method_1(&program)
}

fn synchronised_on_0() -> Node {
    Node::of(op::SYNCHRONISED, &[1]).naming(0, &[0])
}

#[test]
fn p5_to_p8_synchronised() {
    assert_eq!(table_of_call(1, &[1, 1], &[0], &[synchronised_on_0()]), [2, 1]);
    assert_eq!(table_of_call(1, &[4, 1], &[0], &[synchronised_on_0()]), [2, 1]);
    assert_eq!(table_of_call(1, &[3, 3], &[0], &[synchronised_on_0()]), [3, 3]);
    assert_eq!(table_of_call(2, &[4, 4, 1, 1], &[0, 1], &[synchronised_on_0()]), [4, 4, 2, 1]);
}

#[test]
fn p9_assert_of_cmpd_is_error() {
    assert_eq!(table_of_call(0, &[3], &[], &[Node::of(op::ASSERT, &[1])]), [4]);
}

#[test]
fn p10_both_names_to_one_lock() {
    assert_eq!(table_of_call(1, &[4, 3, 2, 1], &[0, 0], &[]), [4, 1]);
}

#[test]
fn p11_one_name_without_a_constant_lock() {
    assert_eq!(table_of_call(1, &[4, 3, 2, 1], &[0, NO_NAME], &[]), [4, 3]);
}

#[test]
fn p12_main_reads_and_calls_itself() {
    let mut main = Method::new(0);
    let plain = main.push(Node::default());
    let read = main.push(Node::of(op::READ, &[plain]).naming(0, &[]));
    main.push(Node::of(op::CALL, &[read]).naming(0, &[]));
    let program = Program { fields: vec![Field { wide: 0, guard: 3 }], methods: vec![main] };
    let Outcome { verdict, answer } = graded(&program.text());
    assert_eq!(verdict, Verdict::Accepted(Accepted { methods: 1, rounds: 2 }));
    assert_eq!(answer[0], 3);
}

#[test]
fn p13_a_suppliers_declared_table_called_with_ff() {
    assert_eq!(table_of_call(0, &[1, 3], &[NO_NAME], &[]), [3]);
}

#[test]
fn each_ff_is_chosen_apart() {
    let with_both = |callee: &[u8]| table_of_call(0, callee, &[NO_NAME, NO_NAME], &[]);
    // The largest entry may have neither name, one of the two, or both.
    assert_eq!(with_both(&[3, 0, 0, 0]), [3]);
    assert_eq!(with_both(&[0, 1, 2, 0]), [2]);
    assert_eq!(with_both(&[0, 2, 1, 0]), [2]);
    assert_eq!(with_both(&[0, 0, 0, 3]), [3]);
    for largest in 0..16 {
        let callee: [u8; 16] = std::array::from_fn(|entry| u8::from(entry == largest));
        assert_eq!(table_of_call(0, &callee, &[NO_NAME; 4], &[]), [1], "entry {largest}");
    }
}

#[test]
fn names_that_are_not_ff_are_held_exactly_if_the_callers_are() {
    // Name 1 is the caller's 0: only entries 0 and 1 count without it, and only 2 and 3 with it.
    assert_eq!(table_of_call(1, &[0, 1, 2, 3], &[NO_NAME, 0], &[]), [1, 3]);
    assert_eq!(table_of_call(1, &[3, 2, 1, 0], &[NO_NAME, 0], &[]), [3, 1]);
    // Names 0 and 2 are one lock beside the FF of name 1: entries 0 and 2 count without it, 5 and 7 with it.
    assert_eq!(table_of_call(1, &[0, 4, 1, 4, 4, 2, 4, 3], &[0, NO_NAME, 0], &[]), [1, 3]);
}

#[test]
fn a_lock_taken_around_a_call_answers_for_none_of_its_ff() {
    assert_eq!(table_of_call(1, &[1, 3], &[NO_NAME], &[synchronised_on_0()]), [3, 3]);
    assert_eq!(table_of_call(1, &[1, 1], &[NO_NAME], &[synchronised_on_0()]), [2, 1]);
}

#[test]
fn ff_at_an_access_means_not_held() {
    for (guard, wide, read, write) in [(1, 0, 4, 4), (1, 1, 4, 4), (2, 0, 2, 4), (2, 1, 3, 4)] {
        assert_eq!(table_of_access(op::READ, Field { wide, guard }), [read, read]);
        assert_eq!(table_of_access(op::WRITE, Field { wide, guard }), [write, write]);
    }
}

#[test]
fn four_and_five_locks() {
    let with_locks = |k: u8| {
        let mut method = Method::new(k);
        method.push(Node::default());
        Program { fields: Vec::new(), methods: vec![idle_main(), method] }
    };
    assert!(is_accepted(&with_locks(4)));
    assert_eq!(verdict(&with_locks(5).text()), Verdict::Refused(Refusal::OutOfRange { line: 3 }));
}

#[test]
fn limits_of_the_header() {
    let past = Verdict::Refused(Refusal::OutOfRange { line: 1 });
    let methods = |count: usize| Program { fields: Vec::new(), methods: vec![idle_main(); count] };
    assert!(is_accepted(&methods(64)));
    assert_eq!(verdict(&methods(65).text()), past);
    let fields = |count| Program { fields: vec![Field { wide: 1, guard: 2 }; count], methods: vec![idle_main()] };
    assert!(is_accepted(&fields(64)));
    assert_eq!(verdict(&fields(65).text()), past);
    assert!(is_accepted(&limits::one_method(1024)));
    assert_eq!(verdict(&limits::one_method(1025).text()), past);
}

#[test]
fn texts_of_the_longest_length_and_one_more() {
    let of_len = |len: usize| {
        let mut text = limits::one_method(1024).text();
        text.extend(b"00\n");
        text.resize(len, b'0');
        text
    };
    // The header, 1 method and 1,024 nodes come before the line too many.
    assert_eq!(verdict(&of_len(LONGEST_TEXT)), Verdict::Refused(Refusal::Misplaced { line: 1027 }));
    assert_eq!(verdict(&of_len(LONGEST_TEXT + 1)), Verdict::Refused(Refusal::Overlong));
}
