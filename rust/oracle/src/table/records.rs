//! Records as bytes: a byte of kind, then a body whose length the kind fixes.

use super::{Effect, ElementColumn, Item, Key, Network, Operator};

#[derive(Clone, Copy, Debug, PartialEq, Eq)]
pub enum Kind {
    Start,
    Statement,
    Column,
    Condition,
    End,
    Network,
    Value,
}

impl Kind {
    pub fn of(byte: u8) -> Option<Kind> {
        match byte {
            0x01 => Some(Kind::Start),
            0x02 => Some(Kind::Statement),
            0x03 => Some(Kind::Column),
            0x04 => Some(Kind::Condition),
            0x05 => Some(Kind::End),
            0x06 => Some(Kind::Network),
            0x40..=0xBF => Some(Kind::Value),
            _ => None,
        }
    }
}

/// Bytes of a record that starts with this kind byte, the kind byte included.
pub fn record_length(kind_byte: u8) -> Option<usize> {
    let body = match Kind::of(kind_byte)? {
        Kind::Start | Kind::Statement | Kind::Column => 1,
        Kind::Condition => 2,
        Kind::End => 0,
        Kind::Network => 5,
        Kind::Value => kind_byte as usize - 0x3F,
    };
    Some(1 + body)
}

impl Item {
    pub fn kind(&self) -> Kind {
        match self {
            Item::Start(_) => Kind::Start,
            Item::Statement(_) => Kind::Statement,
            Item::Column { .. } => Kind::Column,
            Item::Condition { .. } => Kind::Condition,
            Item::Value(_) => Kind::Value,
            Item::Network(_) => Kind::Network,
            Item::End => Kind::End,
        }
    }

    /// None when a code in the body is unknown.
    pub fn decode(kind: Kind, body: &[u8]) -> Option<Item> {
        Some(match kind {
            Kind::Start => Item::Start(body[0]),
            Kind::Statement => Item::Statement(Effect::from_code(body[0])?),
            Kind::Column => {
                let (column, negated) = ElementColumn::from_code(body[0])?;
                Item::Column { column, negated }
            }
            Kind::Condition => {
                Item::Condition { operator: Operator::from_code(body[0])?, key: Key::from_code(body[1])? }
            }
            Kind::End => Item::End,
            Kind::Network => Item::Network(Network {
                address: u32::from_be_bytes([body[0], body[1], body[2], body[3]]),
                length: body[4],
            }),
            Kind::Value => Item::Value(body.to_vec()),
        })
    }

    /// The record of an item; a value has 1 to 128 bytes.
    pub fn encode(&self) -> Vec<u8> {
        match self {
            Item::Start(announced) => vec![0x01, *announced],
            Item::Statement(effect) => vec![0x02, effect.code()],
            Item::Column { column, negated } => vec![0x03, column.code(*negated)],
            Item::Condition { operator, key } => vec![0x04, operator.code(), key.code()],
            Item::End => vec![0x05],
            Item::Network(network) => {
                let mut record = vec![0x06];
                record.extend(network.address.to_be_bytes());
                record.push(network.length);
                record
            }
            Item::Value(value) => {
                let mut record = vec![0x3F + value.len() as u8];
                record.extend(value);
                record
            }
        }
    }
}
