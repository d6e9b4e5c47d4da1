//! The footprints of a column: which rows hold there, and the first admitted value showing it.

use std::collections::HashSet;

use super::states::Reached;
use crate::judge::{address_condition_holds, element_holds, string_condition_holds};
use crate::limits;
use crate::table::{ElementColumn, Network, Statement};

/// A set of rows, row r as bit r; two tables have at most 64.
pub type Rows = u64;

pub fn row_bit(row: usize) -> Rows {
    1 << row
}

/// An admitted value of a column.
#[derive(Clone, Debug, PartialEq, Eq)]
pub enum Shown {
    Absent,
    String(Vec<u8>),
    Address(u32),
}

#[derive(Clone, Debug, PartialEq, Eq)]
pub struct Footprint {
    pub rows: Rows,
    pub shown: Shown,
}

/// The footprints of one of columns 0 to 6. Strings of one state match the same values, so the first string of
/// each state is enough.
pub fn of_string_column(rows: &[&Statement], column: usize, states: &[Reached]) -> Vec<Footprint> {
    let admitted = admitted_strings(column, states);
    first_of_each(admitted.into_iter().map(|string| {
        let rows = rows_where(rows, |row| string_holds(row, column, string.as_deref()));
        let shown = string.map_or(Shown::Absent, Shown::String);
        Footprint { rows, shown }
    }))
}

/// The footprints of column 7. Going up from address 0, one changes only where a network starts or has ended.
pub fn of_address_column(rows: &[&Statement]) -> Vec<Footprint> {
    let mut turns = vec![0];
    for network in networks(rows) {
        turns.push(network.address);
        turns.extend(first_behind(network));
    }
    turns.sort();
    let admitted = std::iter::once(None).chain(turns.into_iter().map(Some));
    first_of_each(admitted.map(|address| {
        let rows = rows_where(rows, |row| address_holds(row, address));
        let shown = address.map_or(Shown::Absent, Shown::Address);
        Footprint { rows, shown }
    }))
}

/// The networks of all rows, repeats separately.
pub fn networks<'a>(rows: &[&'a Statement]) -> Vec<&'a Network> {
    let conditions = rows.iter().flat_map(|row| &row.conditions);
    conditions.flat_map(|condition| &condition.networks).collect()
}

/// The first address above a network, if there is one.
fn first_behind(network: &Network) -> Option<u32> {
    let size = 1u64 << (32 - network.length);
    u32::try_from(u64::from(network.address) + size).ok()
}

/// One string for each state, in order. Columns 0 to 2 do not admit the empty string, whose state no other string
/// shares unless the column has no values; then any string will do, and `!` is the first.
fn admitted_strings(column: usize, states: &[Reached]) -> Vec<Option<Vec<u8>>> {
    let strings = states.iter().map(|reached| reached.first.clone());
    if column >= limits::ELEMENT_COLUMNS {
        return std::iter::once(None).chain(strings.map(Some)).collect();
    }
    let nonempty = strings.filter(|string| !string.is_empty());
    let mut admitted: Vec<_> = nonempty.map(Some).collect();
    if admitted.is_empty() {
        admitted.push(Some(vec![limits::LOWEST_BYTE]));
    }
    admitted
}

fn rows_where(rows: &[&Statement], holds: impl Fn(&Statement) -> bool) -> Rows {
    let holding = rows.iter().enumerate().filter(|(_, row)| holds(row));
    holding.fold(0, |set, (row, _)| set | row_bit(row))
}

/// "A row that a column does not restrict holds there."
fn string_holds(row: &Statement, column: usize, string: Option<&[u8]>) -> bool {
    if let Some(&element_column) = ElementColumn::ALL.get(column) {
        let string = string.expect("columns 0 to 2 are never absent");
        return element_holds(&row.elements[column], element_column, string);
    }
    let mut conditions = row.conditions.iter();
    conditions.all(|condition| condition.key.column() != column || string_condition_holds(condition, string))
}

fn address_holds(row: &Statement, address: Option<u32>) -> bool {
    let mut conditions = row.conditions.iter();
    conditions.all(|condition| !condition.key.is_address() || address_condition_holds(condition, address))
}

/// Keeps the first value showing each footprint.
fn first_of_each(shown: impl Iterator<Item = Footprint>) -> Vec<Footprint> {
    let mut seen = HashSet::new();
    shown.filter(|footprint| seen.insert(footprint.rows)).collect()
}
