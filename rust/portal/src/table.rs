//! A table that was made here, owned.

use std::ops::Deref;

use crate::answer;
use crate::ffi;
use crate::refusal::Refusal;

/// No table is longer (RULES 2.2).
const TABLE_BYTES: usize = 16_384;

/// A table in the stored form. It stands for its bytes wherever a table is asked for: `judge(&table, ..)`,
/// `compare(&table, ..)`.
///
/// ```
/// use portal::{judge, Request, Table, Verdict};
///
/// let table = Table::from_json(
///     br#"{
///         "Version": "2012-10-17",
///         "Statement": {
///             "Effect": "Allow",
///             "Principal": "*",
///             "Action": "clock:Read*",
///             "Resource": ["thirteenth", "fourteenth"]
///         }
///     }"#,
/// )?;
/// let request = Request::new(b"alice", b"clock:ReadOffset", b"thirteenth");
/// assert_eq!(judge(&table, &request), Ok(Verdict::Allowed));
/// # Ok::<(), portal::Refusal>(())
/// ```
///
/// A policy that is not taken says where and why:
///
/// ```
/// let policy = b"{\n  \"Version\": \"2012-10-17\",\n  \"Statment\": []\n}";
/// let refusal = portal::Table::from_json(policy).unwrap_err();
/// assert_eq!((refusal.number, refusal.line_and_column()), (21, Some((3, 3))));
/// assert_eq!(
///     refusal.to_string(),
///     "line 3, column 3: the member \"Statment\" is unknown: a policy has Version and Statement (refusal 21)"
/// );
/// ```
#[derive(Clone, Debug, PartialEq, Eq, Hash)]
pub struct Table(Vec<u8>);

impl Table {
    /// The table of a policy in the public JSON form.
    pub fn from_json(json: &[u8]) -> Result<Table, Refusal> {
        let mut bytes = vec![0; TABLE_BYTES];
        let length = answer::written(ffi::read_json(json, &mut bytes))
            .map_err(|(number, place)| Refusal::of_policy(json, number, place))?;
        bytes.truncate(length);
        bytes.shrink_to_fit();
        Ok(Table(bytes))
    }

    /// The table's bytes, as they are stored.
    pub fn as_bytes(&self) -> &[u8] {
        &self.0
    }

    pub fn into_bytes(self) -> Vec<u8> {
        self.0
    }
}

impl Deref for Table {
    type Target = [u8];

    fn deref(&self) -> &[u8] {
        &self.0
    }
}

impl AsRef<[u8]> for Table {
    fn as_ref(&self) -> &[u8] {
        &self.0
    }
}
