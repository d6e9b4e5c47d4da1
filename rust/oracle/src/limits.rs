//! The numbers of RULES.

/// A table is at most this many bytes (refusal 1).
pub const TABLE_BYTES: usize = 16_384;
/// Statements a table may announce (refusal 6).
pub const STATEMENTS: u8 = 32;
/// Values and networks together in one statement (refusal 6).
pub const LISTED: usize = 64;
/// Conditions in one statement (refusal 6).
pub const CONDITIONS: usize = 4;
/// Bytes of one value (refusal 6, to the writer).
pub const VALUE_BYTES: usize = 128;

/// String bytes lie between these two, both included (refusals 7 and 9).
pub const LOWEST_BYTE: u8 = 0x21;
pub const HIGHEST_BYTE: u8 = 0x7E;

/// Columns of a request; the last holds the address, those before it strings.
pub const COLUMNS: usize = 8;
pub const STRING_COLUMNS: usize = 7;
pub const ADDRESS_COLUMN: usize = 7;
/// Columns that are never absent and never empty: principal, action, resource.
pub const ELEMENT_COLUMNS: usize = 3;

/// Sum of (length plus 1) over a column's values of both tables (refusal 10).
pub const VALUE_SUM: usize = 512;
/// Networks of both tables (refusal 10).
pub const NETWORKS: usize = 128;
/// States of one column (refusal 11).
pub const STATES: usize = 512;
/// Product of the eight footprint counts (refusal 12).
pub const KINDS: u128 = 16_777_216;
/// Bytes of a shown value (refusal 15), and the room each has in the lent buffer.
pub const SHOWN_BYTES: usize = 512;
/// The room for the seven string columns (refusal 14).
pub const GAP_BUFFER_BYTES: usize = STRING_COLUMNS * SHOWN_BYTES;

/// Input the gap program takes.
pub const INPUT_BYTES: usize = 32_768;
/// Gaps the gap program prints.
pub const GAPS_PRINTED: usize = 16;

/// Whether a byte may stand in a value or a request.
pub fn is_string_byte(byte: u8) -> bool {
    (LOWEST_BYTE..=HIGHEST_BYTE).contains(&byte)
}
