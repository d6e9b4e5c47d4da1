//! Networks as texts: four decimal numbers with dots, and perhaps a length.

use crate::table::Network;

/// The network that a text writes. A text that writes none is taken for a network whose length no table takes, so
/// that it is refused as that one is: 6 where it is one too many, else 8, and never 7.
pub fn network(text: &[u8]) -> Network {
    written(text).unwrap_or(Network { address: 0, length: u8::MAX })
}

fn written(text: &[u8]) -> Option<Network> {
    let text = std::str::from_utf8(text).ok()?;
    let (address, length) = match text.split_once('/') {
        Some((address, length)) => (address, decimal(length)?),
        None => (text, 32),
    };
    let parts: Vec<u8> = address.split('.').map(decimal).collect::<Option<_>>()?;
    let address = u32::from_be_bytes(parts.try_into().ok()?);
    Some(Network { address, length })
}

/// A number of 0 to 255 that is written as numbers are printed: no sign, no leading zero.
fn decimal(text: &str) -> Option<u8> {
    text.parse().ok().filter(|number: &u8| number.to_string() == text)
}
