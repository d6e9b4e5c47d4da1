//! The bench list (RULES 10).

use crate::build::*;
use oracle::compare::states::{explore, values_of_column};
use oracle::matching::{matches, network_holds, Reading};
use oracle::table::{self, Network};
use oracle::{gaps_program, judge, read, CompareRefusal, Comparison, Verdict};
use support::bench;

#[test]
fn values_against_strings() {
    for (value, string, takes) in bench::VALUES {
        assert_eq!(matches(value.as_bytes(), Reading::Plain, string.as_bytes()), takes, "{value} {string}");
    }
}

#[test]
fn networks_against_addresses() {
    let network = Network { address: u32::from_be_bytes([11, 22, 33, 0]), length: 24 };
    assert!(network_holds(&network, u32::from_be_bytes([11, 22, 33, 255])));
    assert!(!network_holds(&network, u32::from_be_bytes([11, 22, 34, 0])));
}

#[test]
fn an_absent_address() {
    let with = |operator| table(&[allow_when(&[networks(operator, &[([11, 22, 33, 0], 24)])])]);
    let absent = request("p", "a", "r");
    assert_eq!(judge(&with(IP_ADDRESS), &absent), Ok(Verdict::NotMentioned));
    assert_eq!(judge(&with(IP_ADDRESS + IF_EXISTS), &absent), Ok(Verdict::Allowed));
}

#[test]
fn every_comparison() {
    for line in bench::comparisons() {
        assert_eq!(gaps_program(&[line.first, line.second].concat()), line.printed);
    }
}

/// The number of states of the resource column of one table.
fn resource_states(table: &[u8]) -> usize {
    let table = read(table).unwrap();
    let rows: Vec<&table::Statement> = table.statements.iter().collect();
    explore(&values_of_column(&rows, 2), 100_000).unwrap().len()
}

#[test]
fn states_257_and_513() {
    assert_eq!(resource_states(&resources(&[bench::SEVEN])), 257);
    assert_eq!(resource_states(&resources(&[bench::EIGHT])), 513);
}

#[test]
fn kinds_of_63_rows() {
    let comparison =
        Comparison::of(&table(&bench::own_rows(0, 32)), &table(&bench::own_rows(32, 63))).unwrap();
    assert_eq!(comparison.kinds(), 16_777_216);
    let counts: Vec<usize> = comparison.columns.iter().map(Vec::len).collect();
    assert_eq!(counts, [64, 64, 64, 64, 1, 1, 1, 1]);
    assert_eq!(65u32.pow(4), 17_850_625);
}

#[test]
fn gaps_by_the_million_are_counted_without_a_list() {
    // One row for everything beside 63 rows of their own: only what the second table allows is no gap.
    let first = table(&[vec![allow_when(&[])], bench::own_rows(0, 31)].concat());
    let second = table(&bench::own_rows(31, 63));
    let comparison = Comparison::of(&first, &second).unwrap();
    assert_eq!(comparison.kinds(), 16_777_216);
    let count = comparison.count();
    assert_eq!(count, 16_777_216 - 32);
    let last = comparison.gap(count - 1).unwrap().request();
    assert_eq!(judge(&first, &last), Ok(Verdict::Allowed));
    assert_eq!(judge(&second, &last), Ok(Verdict::NotMentioned));
    assert_eq!(comparison.gap(count), Err(CompareRefusal { number: 13, table: 0, place: 0 }));
}
