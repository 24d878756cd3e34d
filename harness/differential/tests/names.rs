//! One vocabulary: the refusals have the same names and numbers in Rattle, C, Rust and README, and the header's lengths are the
//! wrapper's.

use ikhzorvan::{
    rule, Refusal, Verdict, ANSWER_LEN, LONGEST_SESSION, LONGEST_TEXT, MOST_STEPS, PAGE_LEN, RECORD_LEN, STACK,
};

const FRAMES: &str = include_str!("../../../crates/frames/src/lib.rt");
const CHECKER: &str = include_str!("../../../crates/checker/src/lib.rt");
const EXPLAINER: &str = include_str!("../../../crates/explainer/src/asked.rt");
const HEADER: &str = include_str!("../../../include/ikhzorvan.h");
const README: &str = include_str!("../../../README.md");

/// The names of Rust by number, from `Accepted` on.
fn names() -> Vec<String> {
    let name = |number: u8| {
        // The kind of a refusal that is no 7 is 0.
        let kind = u8::from(number == 7);
        let verdict = Verdict::from_record(&[number, 0, 0, 0, kind, 0, 0, 0, 0, 0, 0]).expect("a verdict's record");
        let said = match verdict {
            Verdict::Accepted(accepted) => format!("{accepted:?}"),
            Verdict::Refused(refusal) => format!("{refusal:?}"),
        };
        said.split(|byte: char| !byte.is_alphanumeric()).next().expect("a name").to_string()
    };
    (0..8).map(name).collect()
}

/// `Malformed` of `MALFORMED`, `OutOfRange` of `OUT_OF_RANGE`.
fn camel_case(name: &str) -> String {
    name.split('_').map(|word| word[..1].to_string() + &word[1..].to_lowercase()).collect()
}

/// The refusals of explaining alone, by number. Rust has the first.
fn of_explaining() -> [(u8, String); 2] {
    [(Refusal::NoEntry.number(), format!("{:?}", Refusal::NoEntry)), (11, "TooShort".to_string())]
}

/// The names of an enum's cases in Rattle.
fn cases<'a>(source: &'a str, name: &str) -> Vec<&'a str> {
    let (_, rest) = source.split_once(&format!("pub enum {name} {{\n")).expect("the enum");
    let (cases, _) = rest.split_once("\n}").expect("its end");
    let outermost = cases.lines().filter_map(|line| line.strip_prefix("    "));
    let cases = outermost.filter(|line| line.starts_with(|byte: char| byte.is_ascii_uppercase()));
    cases.map(|line| line.split(|byte: char| !byte.is_alphanumeric()).next().unwrap()).collect()
}

/// The names of a crate's refusals in Rattle. Those of a text, 2 to 6, are an enum of their own, which it holds as the case `Text`.
fn refusals(source: &str) -> Vec<&str> {
    let refusals = cases(source, "Refusal").into_iter();
    refusals.flat_map(|case| if case == "Text" { cases(FRAMES, "Refusal") } else { vec![case] }).collect()
}

#[test]
fn rattle_has_the_names_of_rust() {
    assert!(CHECKER.contains(&format!("pub struct {} {{\n", names()[0])));
    assert_eq!(refusals(CHECKER), names()[1..]);
    let refused = names().into_iter().skip(2).chain(of_explaining().map(|(_, name)| name));
    assert_eq!(refusals(EXPLAINER), refused.collect::<Vec<_>>());
}

#[test]
fn c_has_the_names_of_rust() {
    for (number, name) in names().iter().enumerate() {
        let is_it = |line: &&str| line.contains(&format!(" = {number},"));
        let line = HEADER.lines().find(is_it).expect("the number's first place");
        let found = line.trim().strip_prefix("IKHZORVAN_").and_then(|line| line.split(' ').next()).expect("a name");
        assert_eq!(camel_case(found), *name);
    }
    assert!(HEADER.contains("IKHZORVAN_BAD_RECORD = 255 "));
    for (number, name) in of_explaining() {
        let mut lines = HEADER
            .lines()
            .filter_map(|line| line.trim().strip_prefix("IKHZORVAN_")?.split_once(&format!(" = {number},")));
        assert!(lines.any(|(found, _)| camel_case(found) == name), "{name}");
    }
}

#[test]
fn c_has_the_rules_of_rust() {
    for (name, number) in [
        ("PLAIN", rule::PLAIN),
        ("CHILD", rule::CHILD),
        ("CALLEE", rule::CALLEE),
        ("ACCESS", rule::ACCESS),
        ("FORK", rule::FORK),
        ("LOCK", rule::LOCK),
        ("ASSERT", rule::ASSERT),
        ("DECLARED", rule::DECLARED),
        ("TWO_ATOMIC", rule::TWO_ATOMIC),
    ] {
        let found = HEADER.split_once(&format!("IKHZORVAN_RULE_{name} = {number}"));
        assert!(found.is_some_and(|(_, rest)| rest.starts_with([',', ' '])), "{name}");
    }
}

#[test]
fn c_has_the_lengths_of_rust() {
    for (name, value) in [
        ("ANSWER_LEN", ANSWER_LEN),
        ("LONGEST_TEXT", LONGEST_TEXT),
        ("LONGEST_SESSION", LONGEST_SESSION),
        ("MOST_STEPS", MOST_STEPS),
        ("STACK", STACK),
    ] {
        assert!(HEADER.contains(&format!("\n#define IKHZORVAN_{name} {value}\n")), "{name}");
    }
    assert!(HEADER.contains(&format!("IKHZORVAN_RECORD_LEN = {RECORD_LEN},\n")));
    assert!(HEADER.contains(&format!("IKHZORVAN_AT_STEPS = {RECORD_LEN},")));
    assert!(HEADER.contains(&format!("IKHZORVAN_PAGE_LEN = {PAGE_LEN}\n")));
}

#[test]
fn readme_has_the_names_of_rust() {
    let rows = README.lines().filter_map(|line| line.strip_prefix("| "));
    for (number, name) in names().iter().enumerate().skip(1) {
        let is_it = |row: &&str| row.starts_with(&format!("{number}")) && row.contains(&format!("| `{name}` |"));
        assert!(rows.clone().any(|row| is_it(&row)), "{number}, {name}");
    }
    for (number, name) in of_explaining() {
        assert!(rows.clone().any(|row| row.starts_with(&format!("{number} | `{name}` |"))), "{number}, {name}");
    }
}
