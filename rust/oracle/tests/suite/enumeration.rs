//! The gap list against plain enumeration: short requests through the judge alone.

use crate::build::{self, *};
use oracle::compare::Shown;
use oracle::judge::judge_table;
use oracle::table::{Effect, Element, Statement, Table};
use oracle::{compare, read, Comparison, Gap, Request, Verdict, Writer};
use support::random::Random;
use support::strings::short_strings;

/// A value of one column.
#[derive(Clone, Debug, PartialEq)]
enum Admitted {
    Absent,
    String(Vec<u8>),
    Address(u32),
}

fn with(mut request: Request, column: usize, value: &Admitted) -> Request {
    match (column, value) {
        (0, Admitted::String(string)) => request.principal = string.clone(),
        (1, Admitted::String(string)) => request.action = string.clone(),
        (2, Admitted::String(string)) => request.resource = string.clone(),
        (7, Admitted::Address(address)) => request.address = Some(*address),
        (7, _) => request.address = None,
        (_, Admitted::String(string)) => request.keys[column - 3] = Some(string.clone()),
        (_, _) => request.keys[column - 3] = None,
    }
    request
}

/// Addresses around every border that the random networks have.
const ADDRESSES: [u32; 12] =
    [0, 1, 2, 3, 4, 5, 0x7FFF_FFFF, 0x8000_0000, 0x8000_0001, 0xFFFF_FFFD, 0xFFFF_FFFE, 0xFFFF_FFFF];

fn admitted(column: usize, longest: usize) -> Vec<Admitted> {
    let strings = short_strings(longest).into_iter();
    match column {
        0..=2 => strings.skip(1).map(Admitted::String).collect(),
        7 => [Admitted::Absent].into_iter().chain(ADDRESSES.map(Admitted::Address)).collect(),
        _ => [Admitted::Absent].into_iter().chain(strings.map(Admitted::String)).collect(),
    }
}

fn bytes_of(table: &Table) -> Vec<u8> {
    let mut buffer = vec![0; 16_384];
    let mut writer = Writer::new();
    for item in table.items() {
        writer.take(&item, &mut buffer).unwrap();
    }
    buffer.truncate(writer.length());
    buffer
}

/// A table that allows exactly what one row lets through in one column, written and read again.
fn only_column(row: &Statement, column: usize) -> Table {
    let mut row = row.clone();
    row.effect = Effect::Allow;
    for (other, element) in row.elements.iter_mut().enumerate() {
        if other != column {
            *element = Element { negated: false, values: vec![b"*".to_vec()] };
        }
    }
    row.conditions.retain(|condition| condition.key.column() == column);
    read(&bytes_of(&Table { statements: vec![row] })).unwrap()
}

fn allowed(table: &Table, request: &Request) -> bool {
    judge_table(table, request) == Verdict::Allowed
}

/// Per column the first value showing each footprint, found by asking the judge row by row.
fn first_values(rows: &[Statement], column: usize, longest: usize) -> Vec<Admitted> {
    let tables: Vec<Table> = rows.iter().map(|row| only_column(row, column)).collect();
    let mut footprints: Vec<Vec<bool>> = Vec::new();
    let mut first = Vec::new();
    for value in admitted(column, longest) {
        let asked = with(request("x", "x", "x"), column, &value);
        let footprint = tables.iter().map(|table| allowed(table, &asked)).collect();
        if !footprints.contains(&footprint) {
            footprints.push(footprint);
            first.push(value);
        }
    }
    first
}

/// All requests made of these values, by column 0, then 1, and so on: the last column changes fastest.
fn product(columns: &[Vec<Admitted>]) -> impl Iterator<Item = Request> + '_ {
    let total: usize = columns.iter().map(Vec::len).product();
    (0..total).map(move |number| {
        let mut rest = number;
        let mut made = request("x", "x", "x");
        for (column, values) in columns.iter().enumerate().rev() {
            made = with(made, column, &values[rest % values.len()]);
            rest /= values.len();
        }
        made
    })
}

fn random_values<'a>(random: &mut Random, from: &[&'a str], most: usize) -> Vec<&'a str> {
    (0..1 + random.below(most)).map(|_| random.pick(from)).collect()
}

const WILD: [&str; 14] = ["*", "?", "a", "b", "A", "ab", "a*", "*b", "?a", "*a*", "b?", "a?", "B*", "??"];
const NAMES: [&str; 5] = ["*", "a", "b", "ab", "B"];

fn random_condition(random: &mut Random) -> List {
    let form = random.pick(&[0, 0x10]);
    if random.below(3) > 0 {
        let operator = 1 + random.below(4) as u8;
        let key = random.below(2) as u8 * 3;
        return strings(form + operator, key, &random_values(random, &WILD, 2));
    }
    let networks_near: [([u8; 4], u8); 8] = [
        ([0, 0, 0, 0], 0),
        ([0, 0, 0, 0], 1),
        ([128, 0, 0, 0], 1),
        ([0, 0, 0, 0], 30),
        ([0, 0, 0, 2], 31),
        ([0, 0, 0, 4], 32),
        ([255, 255, 255, 254], 31),
        ([255, 255, 255, 255], 32),
    ];
    let listed: Vec<_> = (0..1 + random.below(2)).map(|_| random.pick(&networks_near)).collect();
    networks(form + 5 + random.below(2) as u8, &listed)
}

fn random_table(random: &mut Random) -> Vec<u8> {
    let mut statements = Vec::new();
    for _ in 0..random.below(4) {
        let effect = u8::from(random.below(3) > 0);
        let mut not = |code: u8| if random.below(4) == 0 { code + 0x10 } else { code };
        let codes = [not(0), not(1), not(2)];
        let mut lists = vec![
            element(codes[0], &random_values(random, &NAMES, 2)),
            element(codes[1], &random_values(random, &WILD, 2)),
            element(codes[2], &random_values(random, &WILD, 2)),
        ];
        for _ in 0..random.below(3) {
            lists.push(random_condition(random));
        }
        statements.push(build::Statement { effect, lists });
    }
    table(&statements)
}

fn longest_shown(comparison: &Comparison) -> usize {
    let shown = comparison.columns.iter().flatten().map(|footprint| &footprint.shown);
    let length = |shown: &Shown| match shown {
        Shown::String(string) => string.len(),
        _ => 0,
    };
    shown.map(length).max().unwrap_or(0)
}

/// Kinds, their order and the gaps among them, worked out by the judge on short strings alone.
#[test]
fn gap_lists_against_the_judge() {
    const LONGEST: usize = 3;
    let mut random = Random::new(5);
    let (mut compared, mut with_gaps) = (0, 0);
    while compared < 200 {
        let (first, second) = (random_table(&mut random), random_table(&mut random));
        let comparison = Comparison::of(&first, &second).unwrap();
        if longest_shown(&comparison) > LONGEST || comparison.kinds() > 20_000 {
            continue;
        }
        let (one, two) = (read(&first).unwrap(), read(&second).unwrap());
        let rows = [&one.statements[..], &two.statements].concat();
        let columns: Vec<_> = (0..8).map(|column| first_values(&rows, column, LONGEST)).collect();
        let is_gap = |request: &Request| allowed(&one, request) && !allowed(&two, request);
        let expected: Vec<Request> = product(&columns).filter(is_gap).collect();
        let gaps = compare(&first, &second).unwrap();
        assert!(gaps.iter().map(Gap::request).eq(expected.iter().cloned()), "{first:X?} {second:X?}");
        assert_eq!(comparison.count(), expected.len() as u64);
        compared += 1;
        with_gaps += usize::from(!expected.is_empty());
    }
    assert!(with_gaps > 50, "{with_gaps}");
}

/// Without any notion of footprints: the first short request that is a gap is gap 0, and every gap is one.
#[test]
fn the_first_gap_is_the_first_request() {
    // Columns 4 and 5 are restricted by no random table, so absent is all they need.
    let columns: Vec<Vec<Admitted>> = (0..8)
        .map(|column| match column {
            4 | 5 => vec![Admitted::Absent],
            _ => admitted(column, 1),
        })
        .collect();
    let mut random = Random::new(6);
    let mut found = 0;
    for _ in 0..15 {
        let (first, second) = (random_table(&mut random), random_table(&mut random));
        let gaps = compare(&first, &second).unwrap();
        let (first, second) = (read(&first).unwrap(), read(&second).unwrap());
        let is_gap = |request: &Request| allowed(&first, request) && !allowed(&second, request);
        assert!(gaps.iter().all(|gap| is_gap(&gap.request())));
        let is_short = |gap: &&Gap| gap.values.iter().flatten().all(|value| value.len() <= 1);
        let first_short = gaps.iter().find(is_short).map(Gap::request);
        assert_eq!(product(&columns).find(is_gap), first_short);
        found += usize::from(first_short.is_some());
    }
    assert!((3..15).contains(&found), "{found}");
}
