//! Pairs in which one quantity grows: positions, states, statements or kinds.

use oracle::table::Effect;
use oracle::Table;
use support::random::Random;

use super::build::*;
use super::worst::{own_rows, with_everything};
use super::{triples, Pair};

/// What grows, and a pair for each of its sizes.
pub struct Series {
    pub quantity: &'static str,
    pub pairs: Vec<(u64, Pair)>,
}

pub fn all(seed: u64) -> Vec<Series> {
    vec![
        Series { quantity: "positions", pairs: positions(seed) },
        Series { quantity: "states", pairs: states() },
        Series { quantity: "statements", pairs: statements(seed) },
        Series { quantity: "kinds", pairs: kinds() },
    ]
}

fn resources(values: &[String]) -> Table {
    table(&values.iter().map(|value| allow(EVERYTHING, EVERYTHING, &[value])).collect::<Vec<_>>())
}

/// Four values of drawn letters, their lengths a quarter of the positions.
fn positions(seed: u64) -> Vec<(u64, Pair)> {
    let mut random = Random::new(seed);
    let mut pair = |positions: usize| {
        let mut value =
            || String::from_utf8(triples::string(&mut random, positions / 4 - 1)).expect("letters");
        let (first, second) = ([value(), value()], [value(), value()]);
        (positions as u64, Pair::of(&format!("{positions} positions"), resources(&first), resources(&second)))
    };
    [32, 64, 128, 256, 512].map(&mut pair).into_iter().collect()
}

/// Two values that ask for an `a` and for a `b`, n bytes before the end, have 3 to the n, and one, states. Literals without
/// these letters add one for each of their bytes.
fn states() -> Vec<(u64, Pair)> {
    let window = |letter: char, length: usize| format!("*{letter}{}", "?".repeat(length - 1));
    let pair = |length: usize, literals: &[String]| {
        let states = 3usize.pow(length as u32) + 1 + literals.iter().map(String::len).sum::<usize>();
        let mut second = vec![window('b', length)];
        second.extend_from_slice(literals);
        let pair =
            Pair::of(&format!("{states} states"), resources(&[window('a', length)]), resources(&second));
        (states as u64, pair)
    };
    let mut pairs: Vec<(u64, Pair)> = (1..6).map(|length| pair(length, &[])).collect();
    pairs.push(pair(5, &["c".repeat(128), "d".repeat(128), "e".repeat(12)]));
    pairs
}

/// Statements of one string of length 6 in each block; the second table has one of them wider.
fn statements(seed: u64) -> Vec<(u64, Pair)> {
    let mut random = Random::new(seed);
    let mut pair = |statements: usize| {
        let triple = triples::Triple { statements, strings: 1, length: 6 };
        let mut first = triples::policy(&mut random, triple, 0);
        first.statements.iter_mut().for_each(|statement| statement.effect = Effect::Allow);
        let mut second = first.clone();
        let value = &mut second.statements[statements - 1].elements[2].values[0];
        *value.last_mut().expect("six bytes") = b'*';
        (statements as u64, Pair::of(&format!("{statements} statements"), first, second))
    };
    [1, 2, 4, 8, 16, 32].map(&mut pair).into_iter().collect()
}

/// Rows of their own beside one for everything: the fourth power of one more than their number.
fn kinds() -> Vec<(u64, Pair)> {
    let pair = |rows: usize| {
        let kinds = (rows as u64 + 1).pow(4);
        let second = table(&own_rows(rows / 2, rows));
        (kinds, Pair::of(&format!("{kinds} kinds"), with_everything(1, 0, rows / 2), second))
    };
    [3, 7, 15, 31, 63].map(pair).into_iter().collect()
}

#[cfg(test)]
mod tests {
    use super::*;
    use oracle::compare::{states, Comparison};
    use oracle::limits;
    use oracle::table::Statement;

    #[test]
    fn the_sizes_are_true() {
        for series in all(1) {
            for (size, pair) in series.pairs.iter().take(4) {
                let rows: Vec<&Statement> = pair.tables.iter().flat_map(|table| &table.statements).collect();
                let values = states::values_of_column(&rows, 2);
                let [first, second] = &pair.stored;
                let counted = match series.quantity {
                    "positions" => values.iter().map(|symbols| symbols.len() + 1).sum(),
                    "states" => states::explore(&values, limits::STATES).unwrap().len(),
                    "statements" => pair.tables[0].statements.len(),
                    _ => Comparison::of(first, second).unwrap().kinds() as usize,
                };
                assert_eq!(counted as u64, *size, "{}", pair.name);
            }
        }
    }
}
