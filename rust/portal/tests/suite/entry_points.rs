//! The entry points themselves: what they do not look at, and what they do not touch.

use crate::agree::{lent_buffer, raw, refusal_number};
use oracle::CompareRefusal;
use portal::ffi::{self, RawRequest, VALUES_BYTES};
use portal::{compare, Refusal};
use support::build::*;

const ALLOWED: u64 = 1;
const NOT_MENTIONED: u64 = 0;

fn refused(number: u8, table: u8, place: usize) -> u64 {
    refusal_number(&CompareRefusal { number, table, place })
}

/// Two tables with one gap between them, all four keys and the address shown.
fn with_one_gap() -> (Vec<u8>, Vec<u8>) {
    let mut conditions: Vec<List> = (0..4).map(|key| strings(STRING_EQUALS, key, &["key"])).collect();
    let first = table(&[allow_when(&conditions)]);
    conditions[3] = networks(IP_ADDRESS, &[([255, 255, 255, 255], 32)]);
    (first, table(&[allow_when(&conditions)]))
}

#[test]
fn higher_bits_of_present_are_not_looked_at() {
    let table = table(&[allow_when(&[strings(STRING_EQUALS + IF_EXISTS, 2, &["x"])])]);
    let strings: [&[u8]; 7] = [b"p", b"a", b"r", b"", b"", b"y", b""];
    for low in 0..32 {
        let expected = if low & 0b100 == 0 { ALLOWED } else { NOT_MENTIONED };
        for high in [0, 1 << 5, 1 << 31, 0xFFFF_FFE0] {
            assert_eq!(ffi::judge(&table, &raw(strings, low | high, 0)), expected);
        }
    }
}

#[test]
fn absent_keys_are_not_looked_at() {
    let table = table(&[allow_when(&[networks(IP_ADDRESS + IF_EXISTS, &[([1, 2, 3, 4], 32)])])]);
    let spoilt: [&[u8]; 7] = [b"p", b"a", b"r", b"\x00", b" ", b"\xFF", b"\x7F"];
    assert_eq!(ffi::judge(&table, &raw(spoilt, 0, 0x0102_0305)), ALLOWED);
    assert_eq!(ffi::judge(&table, &raw(spoilt, 0b10000, 0x0102_0305)), NOT_MENTIONED);
    assert_eq!(ffi::judge(&table, &raw(spoilt, 0b10000, 0x0102_0304)), ALLOWED);
    for code in 0..4 {
        assert_eq!(ffi::judge(&table, &raw(spoilt, 1 << code, 0)), refused(9, 0, 3 + code));
    }
}

#[test]
fn each_string_goes_to_its_own_column() {
    let names = ["p0", "a1", "r2", "v3", "p4", "v5", "r6"];
    let mut row = statement(ALLOW, &names[..1], &names[1..2], &names[2..3]);
    row.lists.extend((0..4).map(|key| strings(STRING_EQUALS, key, &[names[3 + key as usize]])));
    let table = table(&[row]);
    let strings = names.map(str::as_bytes);
    assert_eq!(ffi::judge(&table, &raw(strings, 0b1111, 0)), ALLOWED);
    for (one, other) in (0..7).flat_map(|one| (0..one).map(move |other| (one, other))) {
        let mut swapped = strings;
        swapped.swap(one, other);
        assert_eq!(ffi::judge(&table, &raw(swapped, 0b1111, 0)), NOT_MENTIONED, "{one} {other}");
    }
}

#[test]
fn empty_slices() {
    assert_eq!(ffi::judge(&[], &RawRequest::default()), refused(2, 0, 0));
    assert_eq!(ffi::judge(&NOTHING, &RawRequest::default()), refused(9, 0, 0));
    assert_eq!(ffi::gaps(&[], &[]), refused(2, 1, 0));
    assert_eq!(ffi::gaps(&NOTHING, &[]), refused(2, 2, 0));
    assert_eq!(ffi::gap(&[], &[], 0, &mut []), refused(14, 0, 0));
}

/// Tables and strings anywhere in memory, whatever stands around them.
#[test]
fn slices_at_any_place() {
    let (first, second) = with_one_gap();
    for offset in 0..9 {
        for around in [0x00, 0x05, 0x41, 0xFF] {
            let lay = |bytes: &[u8]| [&vec![around; offset][..], bytes, &[around; 9]].concat();
            let (one, two, string) = (lay(&first), lay(&second), lay(b"key"));
            let (one, two) = (&one[offset..][..first.len()], &two[offset..][..second.len()]);
            assert_eq!(ffi::gaps(one, two), 1);
            let strings = [&string[offset..][..3]; 7];
            assert_eq!(ffi::judge(one, &raw(strings, 0b1111, 0)), ALLOWED);
        }
    }
}

#[test]
fn short_buffers_are_refused_first_and_left_alone() {
    let (first, second) = with_one_gap();
    for length in [0, 1, 511, 512, 3_071, 3_072, 3_583] {
        for (first, second) in [(&first, &second), (&vec![0xFF], &vec![])] {
            for k in [0, 1, u64::MAX] {
                let mut values = lent_buffer(length);
                assert_eq!(ffi::gap(first, second, k, &mut values), refused(14, 0, 0));
                assert_eq!(values, lent_buffer(length));
            }
        }
    }
}

#[test]
fn only_the_first_3584_bytes_are_written() {
    let (first, second) = with_one_gap();
    for length in [3_584, 3_585, 4_096, 20_000] {
        let mut values = lent_buffer(length);
        let answer = ffi::gap(&first, &second, 0, &mut values);
        assert_eq!(answer, 1 << 63 | 0b01111 << 32);
        let mut expected = lent_buffer(length);
        expected[..VALUES_BYTES].fill(0);
        for (column, string) in ["!", "!", "!", "key", "key", "key", "key"].into_iter().enumerate() {
            expected[512 * column..][..string.len()].copy_from_slice(string.as_bytes());
        }
        assert!(values == expected, "length {length}");
    }
}

#[test]
fn a_gap_number_is_taken_whole() {
    let (first, second) = with_one_gap();
    for k in [1, 2, 1 << 16, 1 << 31, 1 << 32, (1 << 32) + 1, 1 << 48, 1 << 63, u64::MAX] {
        let mut values = lent_buffer(VALUES_BYTES);
        assert_eq!(ffi::gap(&first, &second, k, &mut values), refused(13, 0, 0));
        assert_eq!(values, lent_buffer(VALUES_BYTES));
    }
}

#[test]
fn the_list_of_gaps() {
    // Each of three principals is lost.
    let first = table(&[
        statement(ALLOW, &["x", "y", "z"], &["*"], &["*"]),
        statement(ALLOW, &["y"], &["*"], &["*"]),
    ]);
    let rows: Vec<Statement> = ["x", "y", "z"].map(|name| statement(ALLOW, &[name], &["*"], &["*"])).to_vec();
    let gaps = compare(&first, &NOTHING).unwrap();
    assert_eq!((gaps.len(), gaps.is_empty()), (2, false));
    let gaps_of_rows = table(&rows);
    let gaps = compare(&gaps_of_rows, &NOTHING).unwrap();
    let shown = |k: usize| gaps.get(k).unwrap().principal;
    assert_eq!([shown(0), shown(1), shown(2)], [b"x".to_vec(), b"y".to_vec(), b"z".to_vec()]);
    assert_eq!(gaps.get(3), Err(Refusal::new(13, 0, 0)));
    assert_eq!(gaps.get(usize::MAX).unwrap_err().number, 13);
    assert_eq!((gaps.iter().len(), gaps.iter().count()), (3, 3));
    let mut rest = gaps.iter();
    assert_eq!(rest.nth(1).unwrap().unwrap().principal, b"y");
    assert_eq!((rest.len(), rest.nth(5), rest.len(), rest.next()), (1, None, 0, None));
    assert_eq!(gaps.into_iter().skip(2).map(|gap| gap.unwrap().principal).collect::<Vec<_>>(), [b"z"]);
}
