//! What any way of comparing has to do on a pair: bytes to read, and words of states to write.

use std::collections::HashSet;

use oracle::compare::states::{self, State};
use oracle::limits;
use oracle::matching::Symbol;
use oracle::table::Statement;

use crate::corpus::Pair;

const WORD_BITS: usize = 64;

#[derive(Clone, Copy, Debug, PartialEq, Eq)]
pub struct Bounds {
    /// Of both tables.
    pub bytes: usize,
    /// Of all columns.
    pub positions: usize,
    pub states: usize,
    /// For each state of a column, the words of every different state that one byte more leads to.
    pub words: usize,
}

pub fn of(pair: &Pair) -> Bounds {
    let rows: Vec<&Statement> = pair.tables.iter().flat_map(|table| &table.statements).collect();
    let bytes = pair.stored.iter().map(Vec::len).sum();
    let mut bounds = Bounds { bytes, positions: 0, states: 0, words: 0 };
    for column in 0..limits::STRING_COLUMNS {
        let values = states::values_of_column(&rows, column);
        let positions: usize = values.iter().map(|symbols| symbols.len() + 1).sum();
        let reached = states::explore(&values, limits::STATES).unwrap_or_default();
        let steps: usize = reached.iter().map(|from| next_states(&values, &from.state)).sum();
        bounds.positions += positions;
        bounds.states += reached.len();
        bounds.words += steps * positions.div_ceil(WORD_BITS);
    }
    bounds
}

/// How many states one byte more leads to.
fn next_states(values: &[Vec<Symbol>], from: &State) -> usize {
    let bytes = limits::LOWEST_BYTE..=limits::HIGHEST_BYTE;
    bytes.map(|byte| states::step(values, from, byte)).collect::<HashSet<_>>().len()
}

#[cfg(test)]
mod tests {
    use super::*;
    use crate::corpus::build::*;

    #[test]
    fn one_small_pair() {
        let first = table(&[allow(EVERYTHING, &["ab*"], EVERYTHING)]);
        let pair = Pair::of("small", first, table(&[]));
        // Principal and resource: one value `*` and two states, from each of which every byte leads to the second. Action: four
        // positions; from the empty string `a` and every other byte lead to two states, from `a` `b` and the others do, from `ab`, and
        // from what goes on behind it, every byte leads to that, and from all others to itself. The keys have no position.
        let bounds = of(&pair);
        assert_eq!((bounds.bytes, bounds.positions), (pair.input().len(), 2 + 4 + 2));
        assert_eq!(bounds.states, 2 + 5 + 2 + 4);
        assert_eq!(bounds.words, 2 + (2 + 2 + 1 + 1 + 1) + 2);
    }
}
