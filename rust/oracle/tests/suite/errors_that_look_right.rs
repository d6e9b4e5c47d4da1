//! "Errors that look right": each test fails for a program that makes the error.

use crate::build::*;
use oracle::{gaps_program, judge, Request, Verdict};

fn printed(first: &[u8], second: &[u8]) -> String {
    gaps_program(&[first, second].concat())
}

#[test]
fn greedy_pieces_that_may_overlap() {
    let table = resources(&["s*s*s*s"]);
    assert_eq!(judge(&table, &request("p", "a", "ss")), Ok(Verdict::NotMentioned));
    assert_eq!(judge(&table, &request("p", "a", "sss")), Ok(Verdict::NotMentioned));
    assert_eq!(judge(&table, &request("p", "a", "ssss")), Ok(Verdict::Allowed));
    assert_eq!(printed(&table, &NOTHING), "gaps 1\n0 p=! a=! r=ssss\n");
}

#[test]
fn folding_case_outside_actions() {
    let table = table(&[simple(ALLOW, "Ab", "Ab", "Ab").when(&[strings(1, 0, &["Ab"])])]);
    let asked = |principal: &str, action: &str, resource: &str, key: &str| {
        let keys = [Some(key.into()), None, None, None];
        judge(&table, &Request { keys, ..request(principal, action, resource) })
    };
    assert_eq!(asked("Ab", "Ab", "Ab", "Ab"), Ok(Verdict::Allowed));
    assert_eq!(asked("Ab", "aB", "Ab", "Ab"), Ok(Verdict::Allowed));
    assert_eq!(asked("ab", "Ab", "Ab", "Ab"), Ok(Verdict::NotMentioned));
    assert_eq!(asked("Ab", "Ab", "ab", "Ab"), Ok(Verdict::NotMentioned));
    assert_eq!(asked("Ab", "Ab", "Ab", "AB"), Ok(Verdict::NotMentioned));
}

#[test]
fn folding_more_than_letters() {
    // `@` and `` ` ``, `[` and `{` differ by the same bit as the two cases of a letter.
    let table = table(&[simple(ALLOW, "*", "@[", "*")]);
    assert_eq!(judge(&table, &request("p", "@[", "r")), Ok(Verdict::Allowed));
    assert_eq!(judge(&table, &request("p", "`[", "r")), Ok(Verdict::NotMentioned));
    assert_eq!(judge(&table, &request("p", "@{", "r")), Ok(Verdict::NotMentioned));
}

#[test]
fn a_wildcard_in_string_equals() {
    let equals = table(&[allow_when(&[strings(1, 0, &["*", "a?"])])]);
    let asked = |key: &str| {
        let keys = [Some(key.into()), None, None, None];
        judge(&equals, &Request { keys, ..request("p", "a", "r") })
    };
    assert_eq!(asked("x"), Ok(Verdict::NotMentioned));
    assert_eq!(asked("ab"), Ok(Verdict::NotMentioned));
    assert_eq!(asked("*"), Ok(Verdict::Allowed));
    assert_eq!(asked("a?"), Ok(Verdict::Allowed));
    let like = table(&[allow_when(&[strings(3, 0, &["*"])])]);
    assert_eq!(printed(&like, &equals), "gaps 1\n0 p=! a=! r=! k0=\n");
}

#[test]
fn joining_string_not_equals_by_or() {
    let table = table(&[allow_when(&[strings(2, 0, &["a", "b"])])]);
    let asked = |key: &str| {
        let keys = [Some(key.into()), None, None, None];
        judge(&table, &Request { keys, ..request("p", "a", "r") })
    };
    assert_eq!(asked("a"), Ok(Verdict::NotMentioned));
    assert_eq!(asked("b"), Ok(Verdict::NotMentioned));
    assert_eq!(asked("c"), Ok(Verdict::Allowed));
}

#[test]
fn an_empty_action_showing_a_gap() {
    let all = table(&[simple(ALLOW, "*", "*", "*")]);
    let nonempty = table(&[simple(ALLOW, "*", "?*", "?*")]);
    assert_eq!(printed(&all, &nonempty), "gaps 0\n");
    assert_eq!(printed(&all, &NOTHING), "gaps 1\n0 p=! a=! r=!\n");
}

#[test]
fn only_bytes_that_occur_in_some_value() {
    assert_eq!(printed(&resources(&["*"]), &resources(&["a"])), "gaps 1\n0 p=! a=! r=!\n");
    // Every byte but the highest is denied by name, so the one that is left occurs nowhere.
    let named: Vec<String> = (0x21..0x7E).map(|byte: u8| (byte as char).to_string()).collect();
    let named: Vec<&str> = named.iter().map(String::as_str).collect();
    let deny = |listed: &[&str]| simple(DENY, "*", "*", "*").when(&[strings(1, 0, listed)]);
    let one_byte = allow_when(&[strings(3, 0, &["?"])]);
    let first = table(&[one_byte, deny(&named[..50]), deny(&named[50..])]);
    assert_eq!(printed(&first, &NOTHING), "gaps 1\n0 p=! a=! r=! k0=~\n");
}

#[test]
fn stopping_the_states_at_the_longest_value() {
    let deny_not = |value: &str| Statement {
        effect: DENY,
        lists: vec![element(0, &["*"]), element(1, &["*"]), element(0x12, &[value])],
    };
    let first = table(&[simple(ALLOW, "*", "*", "*"), deny_not("*cd*"), deny_not("*ab*"), deny_not("*ef*")]);
    assert_eq!(printed(&first, &NOTHING), "gaps 1\n0 p=! a=! r=abcdef\n");
}

#[test]
fn keeping_the_first_32_rows() {
    let rows =
        |letter: char| (0..32).map(|_| simple(ALLOW, "*", "*", &letter.to_string())).collect::<Vec<_>>();
    let mut second = rows('b');
    second[31] = simple(ALLOW, "*", "*", "a");
    assert_eq!(printed(&table(&rows('a')), &table(&second)), "gaps 0\n");
    second[31] = simple(DENY, "*", "*", "a");
    second[30] = simple(ALLOW, "*", "*", "a");
    assert_eq!(printed(&table(&rows('a')), &table(&second)), "gaps 1\n0 p=! a=! r=a\n");
    let mut first = rows('a');
    first[31] = simple(ALLOW, "*", "*", "c");
    assert_eq!(printed(&table(&first), &table(&rows('a'))), "gaps 1\n0 p=! a=! r=c\n");
}
