//! The gap list against plain enumeration: short requests through the judge, without the oracle.

use crate::draw::{self, Drawn, Shape};
use portal::{compare, judge, Gap, Gaps, Verdict};
use support::build::*;
use support::random::Random;
use support::strings::short_strings;

/// Few enough strings to try all of them.
const SHAPE: Shape = Shape { statements: 2, conditions: 2, listed: 2, length: 2, bytes: b"aAb*?" };
const LONGEST: usize = 2;
/// Comparisons worked through, and kinds that each may have.
const COMPARED: usize = 250;
const MOST_KINDS: usize = 1_500;

/// A value of one column.
#[derive(Clone, Debug, PartialEq, Eq, PartialOrd, Ord)]
enum Admitted {
    Absent,
    // The order of RULES 6.3: shorter first, then smaller bytes.
    String(usize, Vec<u8>),
    Address(u32),
}

/// The values of a column in their order: short strings, and addresses at the borders of the networks listed.
fn admitted(statements: &[Statement], column: usize) -> Vec<Admitted> {
    let mut values = Vec::new();
    if column >= 3 {
        values.push(Admitted::Absent);
    }
    if column == 7 {
        values.extend(borders(statements).into_iter().map(Admitted::Address));
    } else {
        let strings = short_strings(LONGEST).into_iter();
        let is_admitted = |string: &Vec<u8>| column >= 3 || !string.is_empty();
        values.extend(strings.filter(is_admitted).map(|string| Admitted::String(string.len(), string)));
    }
    assert!(values.windows(2).all(|pair| pair[0] < pair[1]));
    values
}

fn borders(statements: &[Statement]) -> Vec<u32> {
    let mut borders = vec![0];
    let lists = statements.iter().flat_map(|statement| &statement.lists).filter(|list| list.column() == 7);
    for record in lists.flat_map(|list| &list.listed) {
        let low = u32::from_be_bytes([record[1], record[2], record[3], record[4]]);
        let size = 1u64 << (32 - record[5]);
        borders.push(low);
        borders.extend(u32::try_from(u64::from(low) + size).ok());
    }
    borders.sort();
    borders.dedup();
    borders
}

fn put(drawn: &mut Drawn, column: usize, value: &Admitted) {
    match value {
        Admitted::Absent if column == 7 => drawn.address = None,
        Admitted::Absent => drawn.strings[column] = None,
        Admitted::String(_, string) => drawn.strings[column] = Some(string.clone()),
        Admitted::Address(address) => drawn.address = Some(*address),
    }
}

fn plain_request() -> Drawn {
    let mut drawn = Drawn::default();
    for string in &mut drawn.strings[..3] {
        *string = Some(b"!".to_vec());
    }
    drawn
}

fn is_allowed(table: &[u8], drawn: &Drawn) -> bool {
    judge(table, &drawn.request()).unwrap() == Verdict::Allowed
}

/// A table that allows exactly what one row lets through in one column.
fn only_column(row: &Statement, column: usize) -> Vec<u8> {
    let mut alone = allow_when(&[]);
    for list in row.lists.iter().filter(|list| list.column() == column) {
        match column {
            0..=2 => alone.lists[column] = list.clone(),
            _ => alone.lists.push(list.clone()),
        }
    }
    table(&[alone])
}

/// The first value showing each footprint, found by asking the judge row by row.
fn first_values(rows: &[Statement], column: usize) -> Vec<Admitted> {
    let tables: Vec<Vec<u8>> = rows.iter().map(|row| only_column(row, column)).collect();
    let mut footprints: Vec<Vec<bool>> = Vec::new();
    let mut first = Vec::new();
    for value in admitted(rows, column) {
        let mut asked = plain_request();
        put(&mut asked, column, &value);
        let footprint = tables.iter().map(|table| is_allowed(table, &asked)).collect();
        if !footprints.contains(&footprint) {
            footprints.push(footprint);
            first.push(value);
        }
    }
    first
}

/// All requests made of these values, by column 0, then 1, and so on: the last column changes fastest.
fn product(columns: &[Vec<Admitted>]) -> impl Iterator<Item = Drawn> + '_ {
    let total: usize = columns.iter().map(Vec::len).product();
    (0..total).map(move |number| {
        let mut rest = number;
        let mut made = plain_request();
        for (column, values) in columns.iter().enumerate().rev() {
            put(&mut made, column, &values[rest % values.len()]);
            rest /= values.len();
        }
        made
    })
}

fn as_drawn(gap: Gap) -> Drawn {
    let [vpc, prefix, vpce, referer] = gap.keys;
    let strings = [Some(gap.principal), Some(gap.action), Some(gap.resource), vpc, prefix, vpce, referer];
    Drawn { strings, address: gap.address }
}

/// Every gap, by the entry point.
fn listed(gaps: &Gaps) -> Vec<Drawn> {
    gaps.iter().map(|gap| as_drawn(gap.unwrap())).collect()
}

fn is_short(drawn: &Drawn) -> bool {
    drawn.strings.iter().flatten().all(|string| string.len() <= LONGEST)
}

/// Kinds, their order and the gaps among them, worked out by the judge on short strings alone.
#[test]
fn gap_lists_against_the_judge() {
    let mut random = Random::new(61);
    let (mut compared, mut with_gaps, mut asked) = (0, 0, 0);
    while compared < COMPARED {
        let (first, second) = (draw::statements(&mut random, &SHAPE), draw::statements(&mut random, &SHAPE));
        let rows = [&first[..], &second].concat();
        let columns: Vec<Vec<Admitted>> = (0..8).map(|column| first_values(&rows, column)).collect();
        let kinds: usize = columns.iter().map(Vec::len).product();
        let (first, second) = (table(&first), table(&second));
        let gaps = compare(&first, &second).unwrap();
        if kinds > MOST_KINDS || gaps.len() > 200 {
            continue;
        }
        let shown = listed(&gaps);
        if !shown.iter().all(is_short) {
            continue;
        }
        let is_gap = |drawn: &Drawn| is_allowed(&first, drawn) && !is_allowed(&second, drawn);
        let expected: Vec<Drawn> = product(&columns).filter(is_gap).collect();
        let differs = (0..shown.len().max(expected.len())).find(|&k| shown.get(k) != expected.get(k));
        assert_eq!(differs, None, "gap of {first:02X?} and {second:02X?}");
        compared += 1;
        with_gaps += usize::from(!expected.is_empty());
        asked += expected.len();
    }
    assert!(with_gaps > COMPARED / 4 && asked > COMPARED, "{with_gaps} {asked}");
}

/// Without any notion of footprints: the first short request that is a gap is the first short gap listed, and where
/// no short request is one, none is listed.
#[test]
fn the_first_gap_is_the_first_request() {
    const NARROW: Shape = Shape { statements: 2, conditions: 0, listed: 2, length: 1, bytes: b"aAb*?" };
    let mut random = Random::new(62);
    let mut found = 0;
    for _ in 0..60 {
        let mut drawn = || {
            let mut rows = draw::statements(&mut random, &NARROW);
            if let Some(row) = rows.first_mut() {
                let listed = draw::drawn_value(&mut random, &NARROW, false);
                row.lists.push(strings(STRING_LIKE, 1, &[std::str::from_utf8(&listed).unwrap()]));
            }
            rows
        };
        let (first, second) = (drawn(), drawn());
        let tried = |column: usize| match column {
            0..=2 => short_strings(1)[1..].iter().map(|string| Admitted::String(1, string.clone())).collect(),
            4 => admitted(&[], 4).into_iter().filter(|value| *value < Admitted::String(2, vec![])).collect(),
            _ => vec![Admitted::Absent],
        };
        let columns: Vec<Vec<Admitted>> = (0..8).map(tried).collect();
        let (first, second) = (table(&first), table(&second));
        let is_gap = |drawn: &Drawn| is_allowed(&first, drawn) && !is_allowed(&second, drawn);
        let gaps = listed(&compare(&first, &second).unwrap());
        assert!(gaps.iter().all(is_gap));
        let one_byte = |drawn: &&Drawn| drawn.strings.iter().flatten().all(|string| string.len() <= 1);
        assert_eq!(product(&columns).find(is_gap).as_ref(), gaps.iter().find(one_byte));
        found += usize::from(!gaps.is_empty());
    }
    assert!(found >= 15, "{found}");
}
