//! Reading: every byte string is a table or is refused by one number at one place.

use super::progress::Progress;
use super::{Item, Refusal, Table};
use crate::limits;

pub fn read(bytes: &[u8]) -> Result<Table, Refusal> {
    Ok(Table::from_items(&read_items(bytes)?))
}

/// The records of a table in order. "Reading: 1, then the first faulty record."
pub fn read_items(bytes: &[u8]) -> Result<Vec<Item>, Refusal> {
    if bytes.len() > limits::TABLE_BYTES {
        let place = limits::TABLE_BYTES;
        return Err(Refusal { number: 1, place });
    }
    let mut items = Vec::new();
    let mut progress = Progress::fresh();
    let mut place = 0;
    while place < bytes.len() {
        let (item, length, next) =
            progress.admit(&bytes[place..]).map_err(|number| Refusal { number, place })?;
        items.push(item);
        progress = next;
        place += length;
    }
    if !progress.is_ended() {
        return Err(Refusal { number: 2, place });
    }
    Ok(items)
}
