//! The bench list (RULES 10), through the entry points.

use std::net::Ipv4Addr;

use crate::agree::compared;
use portal::{compare, judge, Key, Refusal, Request, Verdict};
use support::bench;
use support::build::*;

/// What the gap program would print.
fn printed(first: &[u8], second: &[u8]) -> String {
    let gaps = match compare(first, second) {
        Ok(gaps) => gaps,
        Err(Refusal { number, table, place, .. }) => return format!("refused {number} {table} {place}\n"),
    };
    let mut printed = format!("{gaps}\n");
    for (k, gap) in gaps.iter().take(16).enumerate() {
        printed += &format!("{k} {}\n", gap.unwrap());
    }
    printed
}

fn is_allowed(table: &[u8], request: &Request) -> bool {
    judge(table, request) == Ok(Verdict::Allowed)
}

/// Through `s3:prefix`, which may be empty.
#[test]
fn values_against_strings() {
    for (value, string, takes) in bench::VALUES {
        let table = table(&[allow_in_column(4, &[value])]);
        let request = Request::new(b"p", b"a", b"r").with_key(Key::Prefix, string.as_bytes());
        assert_eq!(is_allowed(&table, &request), takes, "{value} {string}");
    }
}

#[test]
fn networks_against_addresses() {
    let with = |operator| table(&[allow_when(&[networks(operator, &[([11, 22, 33, 0], 24)])])]);
    let request = Request::new(b"p", b"a", b"r");
    assert!(is_allowed(&with(IP_ADDRESS), &request.with_address(Ipv4Addr::new(11, 22, 33, 255))));
    assert!(!is_allowed(&with(IP_ADDRESS), &request.with_address(Ipv4Addr::new(11, 22, 34, 0))));
    assert!(!is_allowed(&with(IP_ADDRESS), &request));
    assert!(is_allowed(&with(IP_ADDRESS + IF_EXISTS), &request));
}

/// As RULES 10 says, and as the oracle says.
#[test]
fn every_comparison() {
    for line in bench::comparisons() {
        assert_eq!(printed(&line.first, &line.second), line.printed);
        compared(&line.first, &line.second, 4).ok();
    }
}

/// One row for everything beside 63 rows of their own: all 16,777,216 kinds are looked at.
#[test]
fn gaps_by_the_million() {
    let first = table(&[vec![allow_when(&[])], bench::own_rows(0, 31)].concat());
    let second = table(&bench::own_rows(31, 63));
    let gaps = compare(&first, &second).unwrap();
    assert_eq!(gaps.len(), 16_777_216 - 32);
    let last = gaps.get(gaps.len() - 1).unwrap();
    assert!(is_allowed(&first, &last.request()) && !is_allowed(&second, &last.request()));
    assert_eq!(gaps.get(gaps.len()), Err(Refusal::new(13, 0, 0)));
}
