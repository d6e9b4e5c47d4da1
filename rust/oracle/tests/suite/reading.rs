//! Reading: every number for no, its place, and the order within a record.

use crate::build::*;
use oracle::{read, read_items, Refusal, Table};
use support::random::Random;

fn refused(bytes: &[u8]) -> (u8, usize) {
    let Refusal { number, place } = read(bytes).expect_err("a refusal");
    (number, place)
}

/// A table of one statement, given everything behind its record 02 (which stands at byte 2, so these at byte 4).
fn one(parts: &[&[u8]]) -> Vec<u8> {
    [&[1, 1, 2, 1], parts.concat().as_slice()].concat()
}

const PRINCIPAL: &[u8] = &[3, 0, 0x40, b'p'];
const ACTION: &[u8] = &[3, 1, 0x40, b'a'];
const RESOURCE: &[u8] = &[3, 2, 0x40, b'r'];

/// A whole statement's columns, 12 bytes, and then more: what follows stands at byte 16.
fn behind_columns(rest: &[u8]) -> Vec<u8> {
    one(&[PRINCIPAL, ACTION, RESOURCE, rest])
}

#[test]
fn tables_that_read() {
    assert_eq!(read(&NOTHING), Ok(Table::default()));
    let whole = behind_columns(&[4, 0x11, 3, 0x40, b'*', 4, 6, 4, 6, 10, 0, 0, 0, 8, 5]);
    let statement = &read(&whole).unwrap().statements[0];
    assert_eq!(statement.elements[1].values, [b"a".to_vec()]);
    assert_eq!(statement.conditions.len(), 2);
    assert_eq!(statement.conditions[0].values, [b"*".to_vec()]);
    assert_eq!(statement.conditions[1].networks[0].length, 8);
    assert_eq!(read_items(&whole).unwrap().len(), 13);
}

#[test]
fn number_1() {
    assert_eq!(refused(&[0; 16_385]), (1, 16_384));
    assert_eq!(refused(&[0; 16_384]), (3, 0));
}

#[test]
fn number_2() {
    assert_eq!(refused(&[]), (2, 0));
    assert_eq!(refused(&[1]), (2, 0));
    assert_eq!(refused(&[1, 0]), (2, 2));
    assert_eq!(refused(&[1, 1, 2]), (2, 2));
    // A list still empty at the end of the bytes has no record for a 5 to stand at.
    assert_eq!(refused(&one(&[&[3, 0]])), (2, 6));
    assert_eq!(refused(&one(&[&[3, 0, 0x41, b'p']])), (2, 6));
    assert_eq!(refused(&behind_columns(&[])), (2, 16));
    assert_eq!(refused(&behind_columns(&[4, 5])), (2, 16));
    assert_eq!(refused(&behind_columns(&[4, 5, 4, 6, 1, 2, 3, 4])), (2, 19));
}

#[test]
fn number_3() {
    assert_eq!(refused(&[0]), (3, 0));
    assert_eq!(refused(&[7]), (3, 0));
    assert_eq!(refused(&[0x3F]), (3, 0));
    assert_eq!(refused(&[0xC0]), (3, 0));
    assert_eq!(refused(&[1, 1, 2, 2]), (3, 2));
    for code in [3, 0x0F, 0x13, 0x20, 0xFF] {
        assert_eq!(refused(&one(&[&[3, code]])), (3, 4));
    }
    for operator in [0, 7, 0x10, 0x17, 0x21, 0x81] {
        assert_eq!(refused(&behind_columns(&[4, operator, 0])), (3, 16));
    }
    assert_eq!(refused(&behind_columns(&[4, 1, 5])), (3, 16));
}

#[test]
fn number_4() {
    for kind in [2, 3, 4, 5, 6, 0x40, 0xBF] {
        assert_eq!(refused(&[kind]), (4, 0));
    }
    for kind in [1, 3, 4, 5, 6, 0x40] {
        assert_eq!(refused(&[1, 1, kind]), (4, 2));
    }
    assert_eq!(refused(&[1, 0, 2]), (4, 2));
    for kind in [1, 2, 4, 5, 6, 0x40] {
        assert_eq!(refused(&one(&[&[kind]])), (4, 4));
    }
    for kind in [1, 2, 4, 5] {
        assert_eq!(refused(&one(&[PRINCIPAL, &[kind]])), (4, 8));
        assert_eq!(refused(&one(&[PRINCIPAL, ACTION, &[kind]])), (4, 12));
    }
    for kind in [1, 2, 3] {
        assert_eq!(refused(&behind_columns(&[kind])), (4, 16));
        assert_eq!(refused(&behind_columns(&[4, 1, 0, 0x40, b'v', kind])), (4, 21));
    }
    let mut two_announced = behind_columns(&[5]);
    two_announced[1] = 2;
    assert_eq!(refused(&two_announced), (4, 16));
    for behind in [0, 1, 5, 7, 0x40, 0xFF] {
        assert_eq!(refused(&[1, 0, 5, behind]), (4, 3));
    }
}

#[test]
fn columns_out_of_turn() {
    for code in [1, 2, 0x11, 0x12] {
        assert_eq!(refused(&one(&[&[3, code]])), (4, 4));
    }
    for code in [0, 2, 0x10, 0x12] {
        assert_eq!(refused(&one(&[PRINCIPAL, &[3, code]])), (4, 8));
    }
    for code in [0, 1, 0x10, 0x11] {
        assert_eq!(refused(&one(&[PRINCIPAL, ACTION, &[3, code]])), (4, 12));
    }
    // Behind cut and unknown code.
    assert_eq!(refused(&one(&[PRINCIPAL, &[3]])), (2, 8));
    assert_eq!(refused(&one(&[PRINCIPAL, &[3, 9]])), (3, 8));
}

#[test]
fn number_5() {
    for kind in [1, 2, 3, 4, 5] {
        assert_eq!(refused(&one(&[&[3, 0, kind]])), (5, 6));
        assert_eq!(refused(&behind_columns(&[4, 1, 0, kind])), (5, 19));
    }
    // An unknown kind comes before; a value or network of the wrong sort ends "still empty".
    assert_eq!(refused(&one(&[&[3, 0, 7]])), (3, 6));
    assert_eq!(refused(&one(&[&[3, 0, 6, 1, 2, 3, 4, 32]])), (8, 6));
    assert_eq!(refused(&one(&[&[3, 0, 6, 1, 2, 3, 4]])), (2, 6));
    assert_eq!(refused(&behind_columns(&[4, 5, 4, 0x40, b'v'])), (8, 19));
}

#[test]
fn number_6() {
    assert_eq!(refused(&[1, 33]), (6, 0));
    assert_eq!(refused(&[1, 32]), (2, 2));
    let condition: &[u8] = &[4, 1, 0, 0x40, b'v'];
    let four = condition.repeat(4);
    assert!(read(&behind_columns(&[&four, &[5][..]].concat())).is_ok());
    assert_eq!(refused(&behind_columns(&[&four, condition].concat())), (6, 36));
    // Three values in the columns leave 61, in whichever list.
    let sixty_one = [0x40, b'v'].repeat(61);
    assert!(read(&behind_columns(&[&sixty_one, &[5][..]].concat())).is_ok());
    let full = 16 + 2 * 61;
    assert_eq!(refused(&behind_columns(&[&sixty_one, &[0x40, b'v'][..]].concat())), (6, full));
    let network: &[u8] = &[4, 5, 4, 6, 1, 2, 3, 4, 32];
    assert_eq!(refused(&behind_columns(&[&sixty_one, network].concat())), (6, full + 3));
    // The count starts again with each statement.
    let mut two = [&behind_columns(&sixty_one)[..], &behind_columns(&sixty_one)[2..], &[5]].concat();
    two[1] = 2;
    assert!(read(&two).is_ok());
}

#[test]
fn number_7() {
    for byte in [0, 0x20, 0x7F, 0x80, 0xFF] {
        assert_eq!(refused(&one(&[&[3, 0, 0x41, b'p', byte]])), (7, 6));
        // Before 8: the value has a star, or stands in a list of networks.
        assert_eq!(refused(&one(&[&[3, 0, 0x41, b'*', byte]])), (7, 6));
        assert_eq!(refused(&behind_columns(&[4, 5, 4, 0x40, byte])), (7, 19));
    }
    assert!(read(&one(&[&[3, 0, 0x41, 0x21, 0x7E], ACTION, RESOURCE, &[5]])).is_ok());
}

#[test]
fn number_8() {
    for code in [0, 0x10] {
        for value in ["**", "a*", "?", "a?b"] {
            let record = [&[3, code], value_record(value).as_slice()].concat();
            assert_eq!(refused(&one(&[&record])), (8, 6));
        }
        assert!(read(&one(&[&[3, code, 0x40, b'*'], ACTION, RESOURCE, &[5]])).is_ok());
    }
    for value in ["${", "a${b}", "$${"] {
        let listed = value_record(value);
        assert_eq!(refused(&one(&[&[3, 0], &listed])), (8, 6));
        assert_eq!(refused(&one(&[PRINCIPAL, &[3, 1], &listed])), (8, 10));
        assert_eq!(refused(&behind_columns(&listed)), (8, 16));
        assert_eq!(refused(&behind_columns(&[&[4, 1, 0], &listed[..]].concat())), (8, 19));
    }
    // `${` is looked for inside each value, not across two.
    assert!(read(&behind_columns(&[0x40, b'$', 0x40, b'{', 5])).is_ok());
    for (operator, key) in [(1, 4), (4, 4), (0x14, 4), (5, 0), (6, 3), (0x15, 1)] {
        assert_eq!(refused(&behind_columns(&[4, operator, key])), (8, 16));
    }
}

fn value_record(text: &str) -> Vec<u8> {
    value(text.as_bytes())
}

#[test]
fn number_8_for_networks() {
    let network = |address: u32, length: u8| {
        let record = [&[4, 5, 4, 6][..], &address.to_be_bytes(), &[length, 5]].concat();
        behind_columns(&record)
    };
    assert_eq!(refused(&network(0, 33)), (8, 19));
    assert_eq!(refused(&network(0, 255)), (8, 19));
    for length in 0..=32u8 {
        assert!(read(&network(0, length)).is_ok());
        let lowest_kept = 1u64 << (32 - length);
        if length > 0 {
            assert!(read(&network(lowest_kept as u32, length)).is_ok());
            assert_eq!(read(&network(u32::MAX, length)).is_ok(), length == 32);
        }
        if length < 32 {
            assert_eq!(refused(&network((lowest_kept / 2) as u32, length)), (8, 19));
            assert_eq!(refused(&network(1, length)), (8, 19));
        }
    }
}

/// A table cut anywhere is refused by 2, at the record that is cut or at the length.
#[test]
fn every_cut() {
    let whole = behind_columns(&[4, 0x13, 1, 0x42, b'a', b'*', b'b', 4, 6, 4, 6, 10, 0, 0, 0, 8, 5]);
    let mut starts = Vec::new();
    let mut at = 0;
    for item in read_items(&whole).unwrap() {
        starts.push(at);
        at += item.encode().len();
    }
    for cut in 0..whole.len() {
        let place = *starts.iter().rev().find(|&&start| start <= cut).unwrap();
        assert_eq!(refused(&whole[..cut]), (2, place));
    }
}

/// Damaged tables: what reads is written back byte for byte, what does not has a number and a place within reach.
#[test]
fn damaged_tables() {
    let whole = behind_columns(&[4, 0x13, 1, 0x42, b'a', b'*', b'b', 4, 6, 4, 6, 10, 0, 0, 0, 8, 5]);
    let mut random = Random::new(7);
    let mut read_anyway = 0;
    for _ in 0..200_000 {
        let mut bytes = whole.clone();
        for _ in 0..1 + random.below(3) {
            let at = random.below(bytes.len());
            match random.below(4) {
                0 => drop(bytes.remove(at)),
                1 => bytes.insert(at, random.pick(&[1, 2, 3, 4, 5, 6, 7, 0x40, 0x41, b'*'])),
                _ => bytes[at] = random.below(256) as u8,
            }
        }
        match read_items(&bytes) {
            Ok(items) => {
                read_anyway += 1;
                let written: Vec<u8> = items.iter().flat_map(|item| item.encode()).collect();
                assert_eq!(written, bytes);
                assert_eq!(Table::from_items(&items).items(), items);
            }
            Err(Refusal { number, place }) => {
                assert!((2..=8).contains(&number) && place <= bytes.len());
            }
        }
    }
    assert!(read_anyway > 1_000);
}
