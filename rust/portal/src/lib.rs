//! Judging and comparing access tables, by the verified library `libportal.a`. This is what the portal's service
//! links.
//!
//! A table is a byte string in the stored form; [`Table::from_json`] makes one of a policy in the public JSON form.
//! [`judge`] says whether it allows one [`Request`]; [`compare`] lists what one table allows and another does not. All
//! answer for every input, or refuse with a [`Refusal`] that says why and where. What they compute is proved; this package
//! only lends them memory and decodes their answers.

#![deny(unsafe_code)]

mod answer;
mod columns;
mod compare;
#[allow(unsafe_code)]
pub mod ffi;
mod gap;
mod json;
mod refusal;
mod request;
mod table;
mod verdict;

pub use columns::Key;
pub use compare::{compare, Gaps, GapsIter};
pub use gap::Gap;
pub use refusal::Refusal;
pub use request::Request;
pub use table::Table;
pub use verdict::Verdict;

/// Judges one request by one table.
///
/// ```
/// use portal::{judge, Key, Request, Verdict};
///
/// // Everyone may do s3:Get* on everything, if s3:prefix begins with home/.
/// let table = b"\x01\x01\x02\x01\x03\x00\x40*\x03\x01\x46s3:Get*\x03\x02\x40*\x04\x03\x01\x45home/*\x05";
/// let request = Request::new(b"alice", b"S3:GetObject", b"arn:bucket/x");
/// assert_eq!(judge(table, &request.with_key(Key::Prefix, b"home/alice"))?, Verdict::Allowed);
/// assert_eq!(judge(table, &request)?, Verdict::NotMentioned);
/// // A string with a space in it is no request.
/// let refusal = judge(table, &Request::new(b"alice", b"s3:Get Object", b"x")).unwrap_err();
/// assert_eq!((refusal.number, refusal.place), (9, 1));
/// # Ok::<(), portal::Refusal>(())
/// ```
pub fn judge(table: &[u8], request: &Request) -> Result<Verdict, Refusal> {
    answer::verdict(ffi::judge(table, &request.raw()))
}
