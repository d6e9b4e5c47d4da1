//! The cases of `crates/policy_cases` and the example of `crates/policies`: what the two programs must print is what the oracle says.

use std::collections::HashSet;
use std::fs;
use std::path::Path;

use oracle::cases::cases;
use oracle::{policy_cases, read_json};

fn file(name: &str) -> Vec<u8> {
    let path = Path::new(env!("CARGO_MANIFEST_DIR")).join("../../crates").join(name);
    fs::read(&path).unwrap_or_else(|error| panic!("{}: {error}", path.display()))
}

/// The file is made anew by `cargo run --release --offline --bin policy_cases`.
#[test]
fn every_case_as_printed() {
    let printed = policy_cases(&file("policy_cases/stdin"));
    let expected = String::from_utf8(file("policy_cases/stdout")).expect("text");
    for (ours, line) in printed.lines().zip(expected.lines()) {
        assert_eq!(ours, line);
    }
    assert_eq!(printed.len(), expected.len());
}

/// The program that runs the cases has room for 131,072 bytes of them, and for 65,536 of one.
#[test]
fn cases_that_the_program_can_hold() {
    let input = file("policy_cases/stdin");
    assert!(input.len() < 130_000 && input.ends_with(b"\n"), "{} bytes", input.len());
    let cases = cases(&input);
    assert!(cases.len() >= 250, "{} cases", cases.len());
    let mut names = HashSet::new();
    for (name, text) in &cases {
        assert!(names.insert(name), "{name} twice");
        assert!(text.len() < 65_536, "{name} has {} bytes", text.len());
    }
}

#[test]
fn every_block_says_its_rules() {
    let input = String::from_utf8(file("policy_cases/stdin")).expect("text");
    for block in input.split("\n\n") {
        let head = block.lines().next().unwrap_or_default();
        assert!(head.starts_with('#') && block.contains("RULES "), "{head}");
    }
}

#[test]
fn every_answer_is_there() {
    let expected = String::from_utf8(file("policy_cases/stdout")).expect("text");
    for answer in [" written ", " refused 20 ", " refused 21 ", " refused 22 ", " refused 1 ", " refused 14 "]
    {
        assert!(expected.contains(answer), "no{answer}");
    }
    for number in [3, 5, 6, 7, 8] {
        let lines = expected.lines().filter(|line| line.contains(&format!(" refused {number} "))).count();
        assert!(lines >= 10, "{lines} of {number}");
    }
}

#[test]
fn the_example_of_the_program_policies() {
    let mut table = [0; 16_384];
    let size = read_json(&file("policies/stdin"), &mut table).expect("a policy");
    assert_eq!(table[..size], file("policies/stdout"));
}
