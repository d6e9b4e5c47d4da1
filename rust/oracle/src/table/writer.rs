//! Writing: items one at a time into a lent buffer.

use super::progress::Progress;
use super::{Item, Refusal};
use crate::limits;

#[derive(Clone, Debug, PartialEq, Eq)]
pub struct Writer {
    progress: Progress,
    length: usize,
}

impl Default for Writer {
    fn default() -> Writer {
        Writer::new()
    }
}

impl Writer {
    pub fn new() -> Writer {
        let progress = Progress::fresh();
        Writer { progress, length: 0 }
    }

    /// Bytes written so far.
    pub fn length(&self) -> usize {
        self.length
    }

    /// Whether the end has been written, so that the bytes are a table.
    pub fn is_complete(&self) -> bool {
        self.progress.is_ended()
    }

    /// "The writer refuses an item as the reader would refuse its record at that point, then 1, then 14."
    pub fn take(&mut self, item: &Item, buffer: &mut [u8]) -> Result<(), Refusal> {
        let place = self.length;
        let next = self.progress.admit_item(item).map_err(|number| Refusal { number, place })?;
        let record = item.encode();
        let length = self.length + record.len();
        if length > limits::TABLE_BYTES {
            let place = limits::TABLE_BYTES;
            return Err(Refusal { number: 1, place });
        }
        if length > buffer.len() {
            return Err(Refusal { number: 14, place: 0 });
        }
        buffer[self.length..length].copy_from_slice(&record);
        self.progress = next;
        self.length = length;
        Ok(())
    }
}
