//! The worst cases that the limits of RULES 7.3 let through.

use oracle::limits;
use oracle::table::{Key, Statement};
use oracle::Table;
use support::random::Random;

use super::build::*;
use super::Pair;

/// The name of the one pair that is let off the limit of time: every kind has to be looked at.
pub const ALL_KINDS: &str = "16,777,216 kinds, none skipped";
/// The pair on which steps are counted.
pub const POSITIONS_ONE_COLUMN: &str = "512 positions in one column";

/// The keys of columns 3 to 6.
const STRING_KEYS: [Key; 4] = [Key::SourceVpc, Key::Prefix, Key::SourceVpce, Key::Referer];
/// Values of one column: two rows in each table, and each fills a quarter of the 512 positions.
const VALUES: usize = 4;

pub fn pairs() -> Vec<Pair> {
    tables().into_iter().map(|(name, first, second)| Pair::of(name, first, second)).collect()
}

pub fn tables() -> Vec<(&'static str, Table, Table)> {
    let literal = literals(2);
    let named = |name, [first, second]: [Table; 2]| (name, first, second);
    vec![
        named(POSITIONS_ONE_COLUMN, one_column(&literals(1))),
        named("512 positions in seven columns", all_columns(&literal, &literals(3))),
        named("512 positions behind stars", all_columns(&literal, &behind_stars(4))),
        named("512 states in one column", one_column(&windows())),
        named("512 states in six columns", all_columns(&literal, &windows())),
        named("16,777,216 kinds, most skipped", rows_of_their_own(0)),
        named(ALL_KINDS, rows_of_their_own(1)),
    ]
}

/// Two values to the first table and two to the second, in the resource alone.
fn one_column(values: &[String; VALUES]) -> [Table; 2] {
    let rows = values.each_ref().map(|value| allow(EVERYTHING, EVERYTHING, &[value]));
    [table(&rows[..2]), table(&rows[2..])]
}

/// The same in all seven string columns; principals have no wildcards and so have values of their own.
fn all_columns(principals: &[String; VALUES], values: &[String; VALUES]) -> [Table; 2] {
    let row = |(principal, value): (&String, &String)| {
        let mut row = allow(&[principal], &[value], &[value]);
        row.conditions = STRING_KEYS.map(|key| strings(STRING_LIKE, key, &[value])).to_vec();
        row
    };
    let rows: Vec<Statement> = principals.iter().zip(values).map(row).collect();
    [table(&rows[..2]), table(&rows[2..])]
}

/// Bytes that values are made of: all but the wildcards, `$`, which may not stand before `{`, and `~`, so that a byte is
/// left out.
fn drawn_bytes(random: &mut Random, length: usize) -> String {
    let bytes: Vec<u8> =
        (limits::LOWEST_BYTE..limits::HIGHEST_BYTE).filter(|byte| !b"*?$".contains(byte)).collect();
    (0..length).map(|_| random.pick(&bytes) as char).collect()
}

/// Four values of 127 bytes: 512 positions.
fn literals(seed: u64) -> [String; VALUES] {
    let mut random = Random::new(seed);
    ["a", "b", "c", "d"].map(|first| format!("{first}{}", drawn_bytes(&mut random, 126)))
}

/// The same behind a star.
fn behind_stars(seed: u64) -> [String; VALUES] {
    let mut random = Random::new(seed);
    ["*a", "*b", "*c", "*d"].map(|first| format!("{first}{}", drawn_bytes(&mut random, 125)))
}

/// 512 states: 257 of the first value, which asks for an `a` eight bytes before the end, and 255 more of the two that have no
/// `a`. The last adds no state, only positions.
fn windows() -> [String; VALUES] {
    ["*a???????".to_string(), "b".repeat(128), "c".repeat(127), "b".repeat(128)]
}

/// Rows that each have a one-byte principal, action, resource and key of their own: 63 of them make 64 to the fourth kinds.
pub fn own_rows(from: usize, to: usize) -> Vec<Statement> {
    let is_own = |byte: &u8| !byte.is_ascii_lowercase() && *byte != b'*' && *byte != b'?';
    let bytes: Vec<u8> = (limits::LOWEST_BYTE..=limits::HIGHEST_BYTE).filter(is_own).collect();
    let row = |number: usize| {
        let own = &(bytes[number] as char).to_string();
        when(allow(&[own], &[own], &[own]), strings(STRING_EQUALS, Key::SourceVpc, &[own]))
    };
    (from..to).map(row).collect()
}

fn rows_of_their_own(everything: usize) -> [Table; 2] {
    [with_everything(everything, 0, 32 - everything), table(&own_rows(32 - everything, 63))]
}

/// So many rows for everything, which let no kind be skipped, and then rows of their own.
pub fn with_everything(everything: usize, from: usize, to: usize) -> Table {
    let mut rows = vec![allow(EVERYTHING, EVERYTHING, EVERYTHING); everything];
    rows.extend(own_rows(from, to));
    table(&rows)
}

#[cfg(test)]
mod tests {
    use super::*;
    use oracle::compare::states;
    use oracle::Comparison;

    fn states_in(pair: &Pair, column: usize) -> usize {
        let rows: Vec<&Statement> = pair.tables.iter().flat_map(|table| &table.statements).collect();
        states::explore(&states::values_of_column(&rows, column), limits::STATES).unwrap().len()
    }

    fn positions_in(pair: &Pair, column: usize) -> usize {
        let rows: Vec<&Statement> = pair.tables.iter().flat_map(|table| &table.statements).collect();
        states::values_of_column(&rows, column).iter().map(|symbols| symbols.len() + 1).sum()
    }

    #[test]
    fn they_are_what_their_names_say() {
        let pairs = pairs();
        assert_eq!(positions_in(&pairs[0], 2), limits::VALUE_SUM);
        for column in 0..limits::STRING_COLUMNS {
            assert_eq!(positions_in(&pairs[1], column), limits::VALUE_SUM);
            assert_eq!(positions_in(&pairs[2], column), limits::VALUE_SUM);
        }
        assert_eq!((states_in(&pairs[3], 2), states_in(&pairs[4], 6)), (limits::STATES, limits::STATES));
        for pair in &pairs[5..] {
            let kinds = Comparison::of(&pair.stored[0], &pair.stored[1]).unwrap().kinds();
            assert_eq!(kinds, limits::KINDS);
        }
    }
}
