//! The states of a column: which beginnings of its values match a whole string.

use std::collections::HashSet;

use crate::judge::{column_reading, test_reading};
use crate::limits;
use crate::matching::{symbols, Symbol};
use crate::table::{ElementColumn, Statement};

/// One flag for each pair (value, j), value by value and j from 0 to the value's length: whether the first j
/// symbols of the value match the whole string.
pub type State = Vec<bool>;

/// A state and the first string that has it: the shortest, and of these the one with the smallest bytes.
#[derive(Clone, Debug, PartialEq, Eq)]
pub struct Reached {
    pub state: State,
    pub first: Vec<u8>,
}

/// The values of one of columns 0 to 6 as they are read there. "Values of both tables count, repeats separately."
pub fn values_of_column(rows: &[&Statement], column: usize) -> Vec<Vec<Symbol>> {
    let statement_values = |row: &&Statement| values_of_statement(row, column);
    rows.iter().flat_map(statement_values).collect()
}

fn values_of_statement(statement: &Statement, column: usize) -> Vec<Vec<Symbol>> {
    if let Some(&element_column) = ElementColumn::ALL.get(column) {
        let values = statement.elements[column].values.iter();
        return values.map(|value| symbols(value, column_reading(element_column))).collect();
    }
    let mut listed = Vec::new();
    for condition in &statement.conditions {
        if condition.key.column() == column {
            let reading = test_reading(condition.operator.test);
            listed.extend(condition.values.iter().map(|value| symbols(value, reading)));
        }
    }
    listed
}

/// The state of the empty string: only runs match nothing.
pub fn state_of_empty(values: &[Vec<Symbol>]) -> State {
    let mut state = State::new();
    for value in values {
        let mut matches_empty = true;
        state.push(matches_empty);
        for symbol in value {
            matches_empty = matches_empty && *symbol == Symbol::Run;
            state.push(matches_empty);
        }
    }
    state
}

/// The state of a string one byte longer.
pub fn step(values: &[Vec<Symbol>], state: &State, byte: u8) -> State {
    let mut next = State::with_capacity(state.len());
    for value in values {
        // No symbols match the empty string alone.
        next.push(false);
        for &symbol in value {
            let at = next.len();
            next.push(match symbol {
                // The run takes the byte too, or takes nothing behind symbols that took it.
                Symbol::Run => state[at] || next[at - 1],
                _ => state[at - 1] && symbol.takes(byte),
            });
        }
    }
    next
}

/// All states in the order of the first string showing each, the empty string's first; None when there are more
/// than `most`. Strings are tried by length and then by bytes: a first string without its last byte is itself the
/// first of its state, or a smaller one would do in its stead.
pub fn explore(values: &[Vec<Symbol>], most: usize) -> Option<Vec<Reached>> {
    let empty = Reached { state: state_of_empty(values), first: Vec::new() };
    let mut seen = HashSet::from([empty.state.clone()]);
    let mut reached = vec![empty];
    let mut at = 0;
    while at < reached.len() {
        for byte in limits::LOWEST_BYTE..=limits::HIGHEST_BYTE {
            let state = step(values, &reached[at].state, byte);
            if seen.contains(&state) {
                continue;
            }
            if reached.len() == most {
                return None;
            }
            let mut first = reached[at].first.clone();
            first.push(byte);
            seen.insert(state.clone());
            reached.push(Reached { state, first });
        }
        at += 1;
    }
    Some(reached)
}
