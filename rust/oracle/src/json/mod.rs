//! Policies in the public JSON form, read to stored tables: the text as a tree (20), its members (21, 22), the records
//! that it would make (3 to 8), and only then the table's length (1) and the buffer's (14).

mod members;
mod names;
mod network;
mod records;
mod text;

use crate::limits;
use crate::table::Refusal;

/// The number of bytes of the policy's table, which then stand at the beginning of the buffer; the bytes behind them
/// stay. Any refusal leaves all of the buffer as it was.
pub fn read_json(json: &[u8], buffer: &mut [u8]) -> Result<usize, Refusal> {
    let tree = text::parse(json).map_err(|place| Refusal { number: 20, place })?;
    let document = members::document(&tree)?;
    let table = records::table(&document)?;
    if table.len() > limits::TABLE_BYTES {
        return Err(Refusal { number: 1, place: limits::TABLE_BYTES });
    }
    if table.len() > buffer.len() {
        return Err(Refusal { number: 14, place: 0 });
    }
    buffer[..table.len()].copy_from_slice(&table);
    Ok(table.len())
}
