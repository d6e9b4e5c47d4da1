//! The gap program: two tables on standard input, the first gaps printed.

use std::net::Ipv4Addr;

use crate::compare::{CompareRefusal, Comparison, Gap};
use crate::limits;
use crate::table::record_length;

const COLUMN_NAMES: [&str; limits::STRING_COLUMNS] = ["p", "a", "r", "k0", "k1", "k2", "k3"];

/// What the program prints for its whole input.
pub fn gaps_program(input: &[u8]) -> String {
    answer(input).unwrap_or_else(|refusal| refusal_line(&refusal))
}

fn answer(input: &[u8]) -> Result<String, CompareRefusal> {
    if input.len() > limits::INPUT_BYTES {
        return Err(CompareRefusal { number: 1, table: 0, place: limits::INPUT_BYTES });
    }
    let (first, second) = input.split_at(first_table_length(input));
    let comparison = Comparison::of(first, second)?;
    let mut printed = format!("gaps {}\n", comparison.count());
    let gaps = comparison.first_gaps(limits::GAPS_PRINTED);
    for (number, gap) in gaps.iter().enumerate() {
        gap.check_lengths()?;
        printed.push_str(&gap_line(number, gap));
    }
    Ok(printed)
}

/// "The first ends with the first record 05 met by walking kinds; if the walk meets none, all input is the first
/// table." An unknown kind and a cut record end the walk.
fn first_table_length(input: &[u8]) -> usize {
    let mut at = 0;
    while let Some(length) = input.get(at).and_then(|&kind| record_length(kind)) {
        if input[at] == 0x05 {
            return at + length;
        }
        at += length;
    }
    input.len()
}

fn gap_line(number: usize, gap: &Gap) -> String {
    let mut line = number.to_string();
    for (name, value) in COLUMN_NAMES.iter().zip(&gap.values) {
        if let Some(value) = value {
            line.push_str(&format!(" {name}={}", String::from_utf8_lossy(value)));
        }
    }
    if let Some(address) = gap.address {
        line.push_str(&format!(" ip={}", Ipv4Addr::from(address)));
    }
    line.push('\n');
    line
}

fn refusal_line(refusal: &CompareRefusal) -> String {
    let CompareRefusal { number, table, place } = refusal;
    format!("refused {number} {table} {place}\n")
}
