//! Comparing two tables: the kinds of request that the first allows and the second does not.

pub mod footprints;
mod gaps;
pub mod states;

pub use footprints::{Footprint, Rows, Shown};
pub use gaps::{compare, gap_buffer, show_gap, Gap};

use crate::limits;
use crate::table::{read, Effect, Refusal, Statement, Table};

#[derive(Clone, Copy, Debug, PartialEq, Eq, Hash)]
pub struct CompareRefusal {
    pub number: u8,
    /// 1 or 2 for a refused table, 0 for the comparison.
    pub table: u8,
    pub place: usize,
}

impl CompareRefusal {
    fn of_table(table: u8, refusal: Refusal) -> CompareRefusal {
        let Refusal { number, place } = refusal;
        CompareRefusal { number, table, place }
    }

    fn of_comparison(number: u8, place: usize) -> CompareRefusal {
        CompareRefusal { number, table: 0, place }
    }
}

/// The rows of one table, by effect.
#[derive(Clone, Copy, Debug)]
struct Side {
    allow: Rows,
    deny: Rows,
}

impl Side {
    fn of(table: &Table, first_row: usize) -> Side {
        let mut side = Side { allow: 0, deny: 0 };
        for (row, statement) in table.statements.iter().enumerate() {
            let bit = footprints::row_bit(first_row + row);
            match statement.effect {
                Effect::Allow => side.allow |= bit,
                Effect::Deny => side.deny |= bit,
            }
        }
        side
    }

    /// Whether the table allows a request to which exactly these rows apply.
    fn allows(&self, applying: Rows) -> bool {
        applying & self.deny == 0 && applying & self.allow != 0
    }
}

/// Two tables that compare without refusal: what each column can show.
#[derive(Clone, Debug)]
pub struct Comparison {
    first: Side,
    second: Side,
    /// The footprints of each column in their order.
    pub columns: Vec<Vec<Footprint>>,
}

impl Comparison {
    /// "First table, second table, 10 by column, 11 by column, 12."
    pub fn of(first: &[u8], second: &[u8]) -> Result<Comparison, CompareRefusal> {
        let first = read(first).map_err(|refusal| CompareRefusal::of_table(1, refusal))?;
        let second = read(second).map_err(|refusal| CompareRefusal::of_table(2, refusal))?;
        let rows: Vec<&Statement> = first.statements.iter().chain(&second.statements).collect();
        check_sums(&rows)?;
        let columns = all_footprints(&rows)?;
        let comparison = Comparison {
            first: Side::of(&first, 0),
            second: Side::of(&second, first.statements.len()),
            columns,
        };
        if comparison.kinds() > limits::KINDS {
            return Err(CompareRefusal::of_comparison(12, 0));
        }
        Ok(comparison)
    }

    /// The product of the eight footprint counts.
    pub fn kinds(&self) -> u128 {
        let counts = self.columns.iter().map(|footprints| footprints.len());
        counts.map(|count| count as u128).product()
    }
}

/// 10: asked of all eight columns before 11 is asked of any.
fn check_sums(rows: &[&Statement]) -> Result<(), CompareRefusal> {
    for column in 0..limits::STRING_COLUMNS {
        let values = states::values_of_column(rows, column);
        let sum: usize = values.iter().map(|symbols| symbols.len() + 1).sum();
        if sum > limits::VALUE_SUM {
            return Err(CompareRefusal::of_comparison(10, column));
        }
    }
    if footprints::networks(rows).len() > limits::NETWORKS {
        return Err(CompareRefusal::of_comparison(10, limits::ADDRESS_COLUMN));
    }
    Ok(())
}

/// Column by column, so that 11 names the lowest.
fn all_footprints(rows: &[&Statement]) -> Result<Vec<Vec<Footprint>>, CompareRefusal> {
    let mut columns = Vec::new();
    for column in 0..limits::STRING_COLUMNS {
        let values = states::values_of_column(rows, column);
        let states =
            states::explore(&values, limits::STATES).ok_or(CompareRefusal::of_comparison(11, column))?;
        columns.push(footprints::of_string_column(rows, column, &states));
    }
    columns.push(footprints::of_address_column(rows));
    Ok(columns)
}
