//! What matches what: one value against one string, one network against one address.

use crate::table::Network;

/// How a column or an operator reads its values.
#[derive(Clone, Copy, Debug, PartialEq, Eq)]
pub enum Reading {
    /// Actions: `*` and `?` are wild, and the case of ASCII letters is ignored.
    Fold,
    /// Resources, StringLike and StringNotLike: `*` and `?` are wild.
    Plain,
    /// StringEquals and StringNotEquals: every byte is itself.
    Literal,
    /// `*` alone is everyone; any other value is compared byte for byte.
    Principal,
}

/// One byte of a value, as it is read.
#[derive(Clone, Copy, Debug, PartialEq, Eq)]
pub enum Symbol {
    /// Any run of bytes, none included.
    Run,
    /// Exactly one byte, any.
    Any,
    /// This byte.
    Byte(u8),
    /// This byte in either case.
    EitherCase(u8),
}

impl Symbol {
    fn read(byte: u8, reading: Reading) -> Symbol {
        match (reading, byte) {
            (Reading::Fold | Reading::Plain, b'*') => Symbol::Run,
            (Reading::Fold | Reading::Plain, b'?') => Symbol::Any,
            (Reading::Fold, byte) => Symbol::EitherCase(byte),
            _ => Symbol::Byte(byte),
        }
    }

    /// Whether the symbol can stand for this single byte.
    pub fn takes(self, byte: u8) -> bool {
        match self {
            Symbol::Run | Symbol::Any => true,
            Symbol::Byte(own) => own == byte,
            Symbol::EitherCase(own) => own.eq_ignore_ascii_case(&byte),
        }
    }
}

pub fn symbols(value: &[u8], reading: Reading) -> Vec<Symbol> {
    if reading == Reading::Principal && value == b"*" {
        return vec![Symbol::Run];
    }
    value.iter().map(|&byte| Symbol::read(byte, reading)).collect()
}

pub fn matches(value: &[u8], reading: Reading, string: &[u8]) -> bool {
    symbols_match(&symbols(value, reading), string)
}

/// Symbol by symbol: `reached[n]` says that the symbols so far match the first n bytes of the string.
pub fn symbols_match(symbols: &[Symbol], string: &[u8]) -> bool {
    let mut reached = vec![false; string.len() + 1];
    reached[0] = true;
    for &symbol in symbols {
        let mut next = vec![false; string.len() + 1];
        for n in 0..=string.len() {
            next[n] = match symbol {
                // A run ends where it starts, or one byte behind an end it already has.
                Symbol::Run => reached[n] || (n > 0 && next[n - 1]),
                _ => n > 0 && reached[n - 1] && symbol.takes(string[n - 1]),
            };
        }
        reached = next;
    }
    reached[string.len()]
}

/// "A network holds for an address when both agree in the first 'length' bits."
pub fn network_holds(network: &Network, address: u32) -> bool {
    let bit_of = |number: u32, bit: u8| number >> (31 - bit) & 1;
    (0..network.length.min(32)).all(|bit| bit_of(network.address, bit) == bit_of(address, bit))
}
