//! Comparing two tables: the number of gaps, and the gaps one by one.

use std::fmt;

use crate::answer;
use crate::ffi;
use crate::gap::Gap;
use crate::refusal::Refusal;

/// Finds every kind of request that the first table allows and the second does not. No request of any length is
/// left out: one that is not listed is alike to one that is, in every row of both tables.
///
/// ```
/// // Everyone may do a* on r; then only ab. What is lost?
/// let first = b"\x01\x01\x02\x01\x03\x00\x40*\x03\x01\x41a*\x03\x02\x40r\x05";
/// let second = b"\x01\x01\x02\x01\x03\x00\x40*\x03\x01\x41ab\x03\x02\x40r\x05";
/// let gaps = portal::compare(first, second)?;
/// assert_eq!(gaps.to_string(), "gaps 1");
/// for (k, gap) in gaps.iter().enumerate() {
///     assert_eq!(format!("{k} {}", gap?), "0 p=! a=A r=r");
/// }
/// // The other way round nothing is lost: all that the second table allows, the first allows too.
/// assert!(portal::compare(second, first)?.is_empty());
/// # Ok::<(), portal::Refusal>(())
/// ```
pub fn compare<'a>(first: &'a [u8], second: &'a [u8]) -> Result<Gaps<'a>, Refusal> {
    let count = answer::count(ffi::gaps(first, second))?;
    Ok(Gaps { first, second, count })
}

/// The gaps between two tables, in the order of RULES 6.4. Only their number is held here: each gap is asked for
/// when it is wanted, and each question costs about as much as the comparison itself.
#[derive(Clone, Copy, Debug, PartialEq, Eq)]
pub struct Gaps<'a> {
    first: &'a [u8],
    second: &'a [u8],
    count: u32,
}

impl<'a> Gaps<'a> {
    /// The number of gaps, at most 16,777,216.
    pub fn len(&self) -> usize {
        self.count as usize
    }

    /// Whether every request that the first table allows is allowed by the second.
    pub fn is_empty(&self) -> bool {
        self.count == 0
    }

    /// Gap k, from 0. Refused by 13 where there is none of that number.
    pub fn get(&self, k: usize) -> Result<Gap, Refusal> {
        let mut values = [0; ffi::VALUES_BYTES];
        let answer = ffi::gap(self.first, self.second, k as u64, &mut values);
        answer::gap(answer, &values)
    }

    /// All gaps in order.
    pub fn iter(&self) -> GapsIter<'a> {
        GapsIter { gaps: *self, next: 0 }
    }
}

impl<'a> IntoIterator for Gaps<'a> {
    type Item = Result<Gap, Refusal>;
    type IntoIter = GapsIter<'a>;

    fn into_iter(self) -> GapsIter<'a> {
        self.iter()
    }
}

/// The gap program's first line.
impl fmt::Display for Gaps<'_> {
    fn fmt(&self, out: &mut fmt::Formatter) -> fmt::Result {
        write!(out, "gaps {}", self.count)
    }
}

/// The gaps one by one. A question could be refused by 15 alone, which never comes (RULES 7.3).
#[derive(Clone, Debug)]
pub struct GapsIter<'a> {
    gaps: Gaps<'a>,
    next: usize,
}

impl Iterator for GapsIter<'_> {
    type Item = Result<Gap, Refusal>;

    fn next(&mut self) -> Option<Self::Item> {
        self.nth(0)
    }

    /// Goes on behind the gaps that are left out without asking for them.
    fn nth(&mut self, left_out: usize) -> Option<Self::Item> {
        let k = self.next.saturating_add(left_out).min(self.gaps.len());
        if k == self.gaps.len() {
            self.next = k;
            return None;
        }
        self.next = k + 1;
        Some(self.gaps.get(k))
    }

    fn size_hint(&self) -> (usize, Option<usize>) {
        let left = self.gaps.len() - self.next;
        (left, Some(left))
    }
}

impl ExactSizeIterator for GapsIter<'_> {}
