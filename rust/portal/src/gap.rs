//! A gap: a request that the first of two tables allows and the second does not.

use std::fmt;
use std::net::Ipv4Addr;

use crate::columns::KEYS;
use crate::request::Request;

/// One gap, shown by the first values of its columns. Its text is the line of the gap program without the number in
/// front: `p=alice a=s3:ListBucket r=arn:bucket k1=home/ ip=11.22.33.44`, an absent key left out.
#[derive(Clone, Debug, Default, PartialEq, Eq, Hash)]
pub struct Gap {
    pub principal: Vec<u8>,
    pub action: Vec<u8>,
    pub resource: Vec<u8>,
    /// By key code, as [`Key`](crate::Key) numbers them.
    pub keys: [Option<Vec<u8>>; KEYS],
    pub address: Option<u32>,
}

impl Gap {
    /// The gap as a request: the first table judges it [`Allowed`](crate::Verdict::Allowed), the second does not.
    pub fn request(&self) -> Request<'_> {
        Request {
            principal: &self.principal,
            action: &self.action,
            resource: &self.resource,
            keys: self.keys.each_ref().map(|key| key.as_deref()),
            address: self.address,
        }
    }
}

impl fmt::Display for Gap {
    fn fmt(&self, out: &mut fmt::Formatter) -> fmt::Result {
        write!(out, "p={} a={} r={}", text(&self.principal), text(&self.action), text(&self.resource))?;
        for (code, key) in self.keys.iter().enumerate() {
            if let Some(string) = key {
                write!(out, " k{code}={}", text(string))?;
            }
        }
        match self.address {
            Some(address) => write!(out, " ip={}", Ipv4Addr::from(address)),
            None => Ok(()),
        }
    }
}

/// Shown strings are ASCII.
fn text(string: &[u8]) -> std::borrow::Cow<'_, str> {
    String::from_utf8_lossy(string)
}
