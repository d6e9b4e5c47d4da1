//! The eight columns of a request, by the names that people know them by.

/// A string key that a request may have; its code is its place here.
#[derive(Clone, Copy, Debug, PartialEq, Eq, Hash, PartialOrd, Ord)]
pub enum Key {
    /// `aws:SourceVpc`
    SourceVpc = 0,
    /// `s3:prefix`
    Prefix = 1,
    /// `aws:SourceVpce`
    SourceVpce = 2,
    /// `aws:Referer`
    Referer = 3,
}

/// The number of string keys.
pub const KEYS: usize = 4;
/// The bit of `present` that says that the address is there: its key code.
pub const ADDRESS_KEY: u32 = 4;

const NAMES: [&str; 8] = [
    "principal",
    "action",
    "resource",
    "aws:SourceVpc",
    "s3:prefix",
    "aws:SourceVpce",
    "aws:Referer",
    "aws:SourceIp",
];

/// The name of a column, if there is one of that number.
pub fn name(column: u32) -> &'static str {
    NAMES.get(column as usize).copied().unwrap_or("unknown column")
}
