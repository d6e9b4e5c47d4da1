//! The gaps in order: their number, one by one, and laid out in a lent buffer.

use std::ops::ControlFlow;

use super::{CompareRefusal, Comparison, Rows, Shown};
use crate::judge::Request;
use crate::limits;

/// The first values of a gap's columns; None where the column is absent.
#[derive(Clone, Debug, PartialEq, Eq, Default)]
pub struct Gap {
    pub values: [Option<Vec<u8>>; 7],
    pub address: Option<u32>,
}

/// All gaps in order. There may be up to 16,777,216; `Comparison` counts and picks without listing them.
pub fn compare(first: &[u8], second: &[u8]) -> Result<Vec<Gap>, CompareRefusal> {
    Ok(Comparison::of(first, second)?.first_gaps(usize::MAX))
}

/// The question for gap k in the whole order of comparing; a refused one leaves the value buffer as it was.
pub fn show_gap(first: &[u8], second: &[u8], k: u64, buffer: &mut [u8]) -> Result<Gap, CompareRefusal> {
    check_buffer(buffer)?;
    let gap = Comparison::of(first, second)?.gap(k)?;
    gap_buffer(&gap, buffer)?;
    Ok(gap)
}

/// "Column c of 0 to 6 stands at byte 512 times c of a lent buffer of at least 3,584 bytes, and the rest of those
/// 3,584 bytes are zero. Bytes from 3,584 on stay as they came."
pub fn gap_buffer(gap: &Gap, buffer: &mut [u8]) -> Result<(), CompareRefusal> {
    check_buffer(buffer)?;
    gap.check_lengths()?;
    buffer[..limits::GAP_BUFFER_BYTES].fill(0);
    for (column, value) in gap.values.iter().enumerate() {
        let value = value.as_deref().unwrap_or_default();
        let start = column * limits::SHOWN_BYTES;
        buffer[start..start + value.len()].copy_from_slice(value);
    }
    Ok(())
}

fn check_buffer(buffer: &[u8]) -> Result<(), CompareRefusal> {
    if buffer.len() < limits::GAP_BUFFER_BYTES {
        return Err(CompareRefusal::of_comparison(14, 0));
    }
    Ok(())
}

impl Gap {
    /// The gap as a request that the first table allows and the second does not.
    pub fn request(&self) -> Request {
        let [principal, action, resource, keys @ ..] = self.values.clone();
        Request {
            principal: principal.unwrap_or_default(),
            action: action.unwrap_or_default(),
            resource: resource.unwrap_or_default(),
            keys,
            address: self.address,
        }
    }

    /// 15: a shown value over 512 bytes.
    pub fn check_lengths(&self) -> Result<(), CompareRefusal> {
        let lengths = self.values.iter().map(|value| value.as_ref().map_or(0, Vec::len));
        for (column, length) in lengths.enumerate() {
            if length > limits::SHOWN_BYTES {
                return Err(CompareRefusal::of_comparison(15, column));
            }
        }
        Ok(())
    }
}

impl Comparison {
    /// The number of gaps.
    pub fn count(&self) -> u64 {
        let mut count = 0;
        self.visit(&mut |_| {
            count += 1;
            ControlFlow::Continue(())
        });
        count
    }

    /// The first gaps in order, at most `most` of them.
    pub fn first_gaps(&self, most: usize) -> Vec<Gap> {
        let mut gaps = Vec::new();
        self.visit(&mut |chosen| {
            if gaps.len() == most {
                return ControlFlow::Break(());
            }
            gaps.push(self.gap_of(chosen));
            ControlFlow::Continue(())
        });
        gaps
    }

    /// Gap k, from 0. "13: k not below the number of gaps", then 15.
    pub fn gap(&self, k: u64) -> Result<Gap, CompareRefusal> {
        let mut passed = 0;
        let mut found = None;
        self.visit(&mut |chosen| {
            if passed == k {
                found = Some(self.gap_of(chosen));
                return ControlFlow::Break(());
            }
            passed += 1;
            ControlFlow::Continue(())
        });
        let gap = found.ok_or(CompareRefusal::of_comparison(13, 0))?;
        gap.check_lengths()?;
        Ok(gap)
    }

    /// Calls `visit` with the chosen footprint of every column, gap by gap in order, until it breaks.
    fn visit(&self, visit: &mut dyn FnMut(&[usize]) -> ControlFlow<()>) {
        // The answer only says whether the walk was broken off.
        let _ = self.visit_below(&mut Vec::new(), Rows::MAX, visit);
    }

    /// `applying` are the rows that hold in every column chosen so far.
    fn visit_below(
        &self,
        chosen: &mut Vec<usize>,
        applying: Rows,
        visit: &mut dyn FnMut(&[usize]) -> ControlFlow<()>,
    ) -> ControlFlow<()> {
        // Rows only get fewer: without an allow row of the first table no gap is left on this branch.
        if applying & self.first.allow == 0 {
            return ControlFlow::Continue(());
        }
        let Some(footprints) = self.columns.get(chosen.len()) else {
            let is_gap = self.first.allows(applying) && !self.second.allows(applying);
            return if is_gap { visit(chosen) } else { ControlFlow::Continue(()) };
        };
        for (choice, footprint) in footprints.iter().enumerate() {
            chosen.push(choice);
            self.visit_below(chosen, applying & footprint.rows, visit)?;
            chosen.pop();
        }
        ControlFlow::Continue(())
    }

    fn gap_of(&self, chosen: &[usize]) -> Gap {
        let mut gap = Gap::default();
        for (column, &choice) in chosen.iter().enumerate() {
            match &self.columns[column][choice].shown {
                Shown::Absent => {}
                Shown::String(string) => gap.values[column] = Some(string.clone()),
                Shown::Address(address) => gap.address = Some(*address),
            }
        }
        gap
    }
}
