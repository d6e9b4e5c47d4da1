//! Ways to damage a table: among its bytes and among its records.

use crate::draw;
use support::build::{records, value, Statement};
use support::random::Random;

/// Bytes at the borders of what the stored form tells apart.
const BORDERS: [u8; 38] = [
    0x00, 0x01, 0x02, 0x03, 0x04, 0x05, 0x06, 0x07, 0x0F, 0x10, 0x11, 0x12, 0x13, 0x14, 0x15, 0x16, 0x17,
    0x1F, 0x20, 0x21, 0x24, 0x2A, 0x3F, 0x40, 0x41, 0x42, 0x7B, 0x7E, 0x7F, 0x80, 0xBE, 0xBF, 0xC0, 0xC1,
    0xF0, 0xFE, 0xFF, 0x22,
];

pub fn border_byte(random: &mut Random) -> u8 {
    if random.once_in(3) {
        return random.byte();
    }
    random.pick(&BORDERS)
}

/// The table damaged in one to three ways.
pub fn damaged(random: &mut Random, statements: &[Statement]) -> Vec<u8> {
    let mut records = records(statements);
    if random.once_in(2) {
        damage_records(random, &mut records);
    }
    let mut bytes = records.concat();
    for _ in 0..random.below(3) {
        damage_bytes(random, &mut bytes);
    }
    bytes
}

/// One bit or byte changed, one inserted, some taken out, the end cut off, or something behind it.
pub fn damage_bytes(random: &mut Random, bytes: &mut Vec<u8>) {
    if bytes.is_empty() {
        return bytes.push(random.byte());
    }
    let at = random.below(bytes.len());
    match random.below(7) {
        0 => bytes[at] ^= 1 << random.below(8),
        1 | 2 => bytes[at] = border_byte(random),
        3 => bytes.insert(at, border_byte(random)),
        4 => {
            let to = (at + random.up_to(3)).min(bytes.len());
            bytes.drain(at..to);
        }
        5 => bytes.truncate(at),
        _ => bytes.push(border_byte(random)),
    }
}

/// One record taken out, doubled, moved, put in, or changed inside.
fn damage_records(random: &mut Random, records: &mut Vec<Vec<u8>>) {
    let at = random.below(records.len());
    let other = random.below(records.len());
    match random.below(7) {
        0 => drop(records.remove(at)),
        1 => records.insert(at, records[other].clone()),
        2 => records.swap(at, other),
        3 => records.insert(at, strange_record(random)),
        4 => records[at] = strange_record(random),
        5 => records[0] = vec![0x01, random.pick(&[0, 1, 2, 3, 4, 31, 32, 33, 255])],
        _ => {
            let last = records[at].len() - 1;
            records[at][last] = border_byte(random);
        }
    }
}

/// A record of a known kind with a body that need not fit.
pub fn strange_record(random: &mut Random) -> Vec<u8> {
    match random.below(9) {
        0 => vec![0x01, random.below(40) as u8],
        1 => vec![0x02, random.below(3) as u8],
        2 => vec![0x03, random.pick(&[0x00, 0x01, 0x02, 0x03, 0x0F, 0x10, 0x11, 0x12, 0x13])],
        3 => vec![0x04, random.below(0x18) as u8, random.below(6) as u8],
        4 => vec![0x05],
        5 => draw::drawn_network(random),
        6 => [&[0x06], &random.word().to_be_bytes()[..4], &[random.below(36) as u8]].concat(),
        7 => value(&draw::drawn_value(random, &draw::SMALL, false)),
        _ => value(random.pick(&[
            &b"${"[..],
            b"a${b",
            b"$",
            b"{$",
            b"*a",
            b"a?",
            b"**",
            b"?",
            b"a b",
            b"\x7F",
            b"\x00",
        ])),
    }
}

/// Bytes that never were a table: of any value, of border values, or of whole records in any order.
pub fn garbage(random: &mut Random) -> Vec<u8> {
    let length = random.below(24);
    let mut bytes: Vec<u8> = match random.below(3) {
        0 => (0..length).map(|_| random.byte()).collect(),
        1 => (0..length).map(|_| border_byte(random)).collect(),
        _ => (0..length).flat_map(|_| strange_record(random)).collect(),
    };
    if random.once_in(2) {
        bytes.splice(0..0, [0x01, random.below(4) as u8]);
    }
    bytes
}
