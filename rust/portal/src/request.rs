//! A request: what somebody wants to do, to what, and under which circumstances.

use crate::columns::{Key, ADDRESS_KEY, KEYS};
use crate::ffi::RawRequest;

/// One request, borrowed from the caller. Principal, action and resource have one byte or more; a key is absent
/// (`None`) or present with zero bytes or more. String bytes lie in hex 21 to 7E, otherwise judging refuses by 9.
///
/// ```
/// use portal::{Key, Request};
/// use std::net::Ipv4Addr;
///
/// let request = Request::new(b"alice", b"s3:ListBucket", b"arn:bucket")
///     .with_key(Key::Prefix, b"home/")
///     .with_address(Ipv4Addr::new(11, 22, 33, 44));
/// assert_eq!(request.keys[Key::Prefix as usize], Some(&b"home/"[..]));
/// assert_eq!(request.address, Some(0x0B16212C));
/// ```
#[derive(Clone, Copy, Debug, Default, PartialEq, Eq, Hash)]
pub struct Request<'a> {
    pub principal: &'a [u8],
    pub action: &'a [u8],
    pub resource: &'a [u8],
    /// By key code, as [`Key`] numbers them.
    pub keys: [Option<&'a [u8]>; KEYS],
    /// The IPv4 address, its first part in the highest byte.
    pub address: Option<u32>,
}

impl<'a> Request<'a> {
    /// A request with no key and no address.
    pub fn new(principal: &'a [u8], action: &'a [u8], resource: &'a [u8]) -> Request<'a> {
        Request { principal, action, resource, ..Request::default() }
    }

    /// The same request with one key present.
    pub fn with_key(mut self, key: Key, string: &'a [u8]) -> Request<'a> {
        self.keys[key as usize] = Some(string);
        self
    }

    /// The same request from an address.
    pub fn with_address(mut self, address: impl Into<u32>) -> Request<'a> {
        self.address = Some(address.into());
        self
    }

    /// The request as the entry point takes it.
    pub(crate) fn raw(&self) -> RawRequest<'a> {
        let mut present = 0;
        let mut keys: [&[u8]; KEYS] = [&[]; KEYS];
        for (code, key) in self.keys.iter().enumerate() {
            if let Some(string) = key {
                present |= 1 << code;
                keys[code] = string;
            }
        }
        if self.address.is_some() {
            present |= 1 << ADDRESS_KEY;
        }
        RawRequest {
            principal: self.principal,
            action: self.action,
            resource: self.resource,
            present,
            keys,
            address: self.address.unwrap_or(0),
        }
    }
}
