//! The texts of answers, refusals and gaps.

use crate::draw::{self, SMALL};
use oracle::gaps_program;
use portal::{compare, Refusal, Verdict};
use support::random::Random;

fn text(number: u16, table: u16, place: u64) -> String {
    Refusal::new(number, table, place).to_string()
}

#[test]
fn verdicts() {
    assert_eq!(Verdict::Allowed.to_string(), "allowed");
    assert_eq!(
        Verdict::DeniedByRule.to_string(),
        "denied: a deny statement of the table applies to the request"
    );
    assert_eq!(
        Verdict::NotMentioned.to_string(),
        "not allowed: no statement of the table applies to the request"
    );
    assert_eq!([Verdict::Allowed.is_allowed(), Verdict::DeniedByRule.is_allowed()], [true, false]);
}

/// Every number says its table and place where it has one, and its number at the end.
#[test]
fn every_refusal_has_words_of_its_own() {
    let mut texts = Vec::new();
    for number in 1..=15 {
        let place = if number < 9 { 321 } else { 2 };
        let said = text(number, 2, place);
        assert!(said.ends_with(&format!(" (refusal {number})")), "{said}");
        assert!(!said.contains("unknown reason") && said.len() < 330, "{said}");
        match number {
            1..=8 => assert!(said.contains("the second table") && said.contains("321"), "{said}"),
            9..=11 | 15 => assert!(said.contains("resource"), "{said}"),
            _ => {}
        }
        texts.push(said[..said.len() - 6].to_string());
    }
    texts.sort();
    texts.dedup();
    assert_eq!(texts.len(), 15);
    assert!(text(16, 0, 0).contains("unknown reason"));
}

#[test]
fn refusals_in_full() {
    assert_eq!(
        text(7, 1, 14),
        "the first table is faulty: the record at byte 14 is a value with a byte outside hex 21 to 7E, \
         such as a space or a letter outside ASCII (refusal 7)"
    );
    assert_eq!(
        text(9, 0, 0),
        "the request is faulty: its principal is empty or has a byte outside hex 21 to 7E (refusal 9)"
    );
    assert_eq!(
        text(9, 0, 4),
        "the request is faulty: its s3:prefix has a byte outside hex 21 to 7E (refusal 9)"
    );
    assert_eq!(
        text(10, 0, 7),
        "the two tables cannot be compared: together they list more than 128 networks for aws:SourceIp \
         (refusal 10)"
    );
    assert_eq!(
        text(1, 0, 16_384),
        "the table is longer than the 16384 bytes that a table may have (refusal 1)"
    );
}

/// The texts put together are what the gap program prints.
#[test]
fn gaps_read_as_the_program_prints_them() {
    let mut random = Random::new(51);
    for _ in 0..200 {
        let (first, second) = (draw::table(&mut random, &SMALL), draw::table(&mut random, &SMALL));
        let gaps = compare(&first, &second).unwrap();
        let mut printed = format!("{gaps}\n");
        for (k, gap) in gaps.iter().take(16).enumerate() {
            printed += &format!("{k} {}\n", gap.unwrap());
        }
        assert_eq!(printed, gaps_program(&[first, second].concat()));
    }
}
