//! Why an answer was refused, and where: RULES 7.

use std::error::Error;
use std::fmt;

use crate::columns;
use crate::json::PolicyFault;

/// A refusal: a number of RULES 7, the table it speaks of, and a place; for a policy also line and column. Its text is
/// for people:
///
/// ```
/// use portal::{compare, Refusal};
///
/// let refusal = compare(&[0x01, 0x00, 0x05], &[0x01, 0x00]).unwrap_err();
/// assert_eq!(refusal, Refusal::new(2, 2, 2));
/// assert_eq!(
///     refusal.to_string(),
///     "the second table breaks off: at byte 2 its bytes end inside a record, or where one is due (refusal 2)"
/// );
/// ```
#[derive(Clone, Debug, PartialEq, Eq, Hash)]
pub struct Refusal {
    pub number: u16,
    /// 1 or 2 for a refused table of a comparison, 0 for the comparison itself, for everything in judging and for a
    /// policy.
    pub table: u16,
    /// A byte of the table, or of the policy's text, counted from 0, for numbers 1 to 8 and 20 to 22; a column for 9, 10,
    /// 11 and 15; else 0.
    pub place: u64,
    policy: Option<Box<PolicyFault>>,
}

impl Error for Refusal {}

impl fmt::Display for Refusal {
    fn fmt(&self, out: &mut fmt::Formatter) -> fmt::Result {
        match self.number {
            _ if self.policy.is_some() => self.policy.iter().try_for_each(|fault| write!(out, "{fault}"))?,
            1..=8 => self.table_fault(out)?,
            9 => self.request_fault(out)?,
            10..=12 => self.comparison_too_large(out)?,
            _ => self.question_fault(out)?,
        }
        write!(out, " (refusal {})", self.number)
    }
}

impl Refusal {
    /// A refusal of judging or comparing.
    pub const fn new(number: u16, table: u16, place: u64) -> Refusal {
        Refusal { number, table, place, policy: None }
    }

    /// A refused policy, whose text says what stands at the place.
    pub(crate) fn of_policy(json: &[u8], number: u16, place: usize) -> Refusal {
        let fault = PolicyFault::new(json, number, place);
        Refusal { number, table: 0, place: place as u64, policy: Some(Box::new(fault)) }
    }

    /// Line and column of a refused policy's place, each counted from 1, a column being a character; none for number 1,
    /// which is no fault of one place, and for what is no policy.
    pub fn line_and_column(&self) -> Option<(usize, usize)> {
        self.policy.as_ref().and_then(|fault| fault.line_and_column)
    }

    fn table_name(&self) -> &'static str {
        match self.table {
            1 => "the first table",
            2 => "the second table",
            _ => "the table",
        }
    }

    /// Numbers 1 to 8: the bytes are no table.
    fn table_fault(&self, out: &mut fmt::Formatter) -> fmt::Result {
        let (table, place) = (self.table_name(), self.place);
        match self.number {
            1 => return write!(out, "{table} is longer than the {place} bytes that a table may have"),
            2 => {
                return write!(
                    out,
                    "{table} breaks off: at byte {place} its bytes end inside a record, or where one is due"
                )
            }
            _ => {}
        }
        let fault = match self.number {
            3 => "has an unknown kind, or an unknown effect, column, operator or key code",
            4 => "is out of turn, disagrees with the announced number of statements, or stands after the end",
            5 => "comes where the list before it still has no value",
            6 => {
                "passes a limit: 32 statements in a table, 64 values and networks in a statement, \
                 4 conditions in a statement"
            }
            7 => "is a value with a byte outside hex 21 to 7E, such as a space or a letter outside ASCII",
            _ => {
                "does not fit its place: a principal with * or ? in it that is not * alone, a value with ${ in it, \
                 a network longer than 32 bits or with bits set behind its length, an operator with a key of \
                 another sort, or a value among networks or a network among values"
            }
        };
        write!(out, "{table} is faulty: the record at byte {place} {fault}")
    }

    fn request_fault(&self, out: &mut fmt::Formatter) -> fmt::Result {
        let name = columns::name(self.place as u32);
        let fault = if self.place <= 2 { "is empty or has" } else { "has" };
        write!(out, "the request is faulty: its {name} {fault} a byte outside hex 21 to 7E")
    }

    /// Numbers 10 to 12: both tables are good, but too much together.
    fn comparison_too_large(&self, out: &mut fmt::Formatter) -> fmt::Result {
        let name = columns::name(self.place as u32);
        write!(out, "the two tables cannot be compared: together ")?;
        match (self.number, self.place) {
            (10, 7) => write!(out, "they list more than 128 networks for {name}"),
            (10, _) => write!(
                out,
                "their values for {name} are too long (each counts its length plus 1, and the sum passes 512)"
            ),
            (11, _) => {
                write!(out, "the wildcards of their values for {name} tell apart more than 512 states")
            }
            _ => write!(out, "they tell apart more than 16777216 kinds of request"),
        }
    }

    /// Numbers 13 to 15: the tables compare, but this question has no answer.
    fn question_fault(&self, out: &mut fmt::Formatter) -> fmt::Result {
        match self.number {
            13 => write!(out, "there is no gap of that number: gaps count from 0"),
            14 => write!(out, "the memory lent for the answer is too short"),
            15 => {
                let name = columns::name(self.place as u32);
                write!(out, "the gap cannot be shown: its {name} is longer than 512 bytes")
            }
            _ => write!(out, "refused for an unknown reason, table {}, place {}", self.table, self.place),
        }
    }
}
