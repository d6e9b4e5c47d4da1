//! Why a policy in the JSON form was refused, said to a person. The number and the place are the library's; line, column
//! and words are worked out from them here.

mod around;
mod excerpt;
mod expected;
mod position;

use std::fmt;

use around::Around;
use excerpt::excerpt;

/// Where a policy is refused, and in words why: what stands there, and what was expected.
#[derive(Clone, Debug, PartialEq, Eq, Hash)]
pub struct PolicyFault {
    pub line_and_column: Option<(usize, usize)>,
    why: String,
}

impl PolicyFault {
    pub fn new(json: &[u8], number: u16, place: usize) -> PolicyFault {
        if !(3..=8).contains(&number) && !(20..=22).contains(&number) {
            return PolicyFault { line_and_column: None, why: expected::of_the_table(number) };
        }
        let around = Around::place(json, place);
        let found = excerpt(json, place);
        let why = match number {
            20 => expected::of_the_text(&around, &found),
            21 => expected::of_the_name(&around, json, place, &found),
            22 => expected::of_the_type(&around, json, place, &found),
            _ => expected::of_the_record(&around, number, json, place, &found),
        };
        PolicyFault { line_and_column: Some(position::line_and_column(json, place)), why }
    }
}

impl fmt::Display for PolicyFault {
    fn fmt(&self, out: &mut fmt::Formatter) -> fmt::Result {
        if let Some((line, column)) = self.line_and_column {
            write!(out, "line {line}, column {column}: ")?;
        }
        write!(out, "{}", self.why)
    }
}
