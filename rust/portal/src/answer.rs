//! The numbers that the entry points answer, taken apart. An answer below 2^32 stands for itself; from 2^63 on it is
//! a gap that was shown; between, it is a refusal, `table * 2^48 + number * 2^32 + place`.

use crate::columns::{ADDRESS_KEY, KEYS};
use crate::gap::Gap;
use crate::refusal::Refusal;
use crate::verdict::Verdict;

const SHOWN: u64 = 1 << 63;
/// The room for one string in the values of a gap.
const STRING_BYTES: usize = 512;

/// An answer of one of the entry points.
#[derive(Clone, Debug, PartialEq, Eq)]
enum Answer {
    Number(u32),
    Refused(Refusal),
    Shown { present: u32, address: u32 },
}

impl Answer {
    fn of(answer: u64) -> Answer {
        let low = answer as u32;
        let high = (answer >> 32) as u32;
        if answer & SHOWN != 0 {
            Answer::Shown { present: high & !(SHOWN >> 32) as u32, address: low }
        } else if high == 0 {
            Answer::Number(low)
        } else {
            Answer::Refused(Refusal::new(high as u16, (high >> 16) as u16, low.into()))
        }
    }
}

/// The answer of `stamenhum_judge`.
pub fn verdict(answer: u64) -> Result<Verdict, Refusal> {
    match Answer::of(answer) {
        Answer::Number(0) => Ok(Verdict::NotMentioned),
        Answer::Number(1) => Ok(Verdict::Allowed),
        Answer::Number(2) => Ok(Verdict::DeniedByRule),
        Answer::Refused(refusal) => Err(refusal),
        _ => not_ours(answer),
    }
}

/// The answer of `stamenhum_gaps`: the number of gaps.
pub fn count(answer: u64) -> Result<u32, Refusal> {
    match Answer::of(answer) {
        Answer::Number(count) => Ok(count),
        Answer::Refused(refusal) => Err(refusal),
        Answer::Shown { .. } => not_ours(answer),
    }
}

/// The answer of `stamenhum_gap`, with the strings that it laid in `values`.
pub fn gap(answer: u64, values: &[u8]) -> Result<Gap, Refusal> {
    let (present, address) = match Answer::of(answer) {
        Answer::Shown { present, address } => (present, address),
        Answer::Refused(refusal) => return Err(refusal),
        Answer::Number(_) => not_ours(answer),
    };
    let is_present = |code: u32| present >> code & 1 == 1;
    let string = |column: usize| string_of(&values[column * STRING_BYTES..][..STRING_BYTES]);
    let mut keys: [Option<Vec<u8>>; KEYS] = Default::default();
    for (code, key) in keys.iter_mut().enumerate() {
        *key = is_present(code as u32).then(|| string(3 + code));
    }
    Ok(Gap {
        principal: string(0),
        action: string(1),
        resource: string(2),
        keys,
        address: is_present(ADDRESS_KEY).then_some(address),
    })
}

/// The answer of `stamenhum_read_json`: the number of bytes written, or a refusal's number and place, which is
/// `number * 2^56 + place`.
pub fn written(answer: u64) -> Result<usize, (u16, usize)> {
    let (number, low) = ((answer >> 56) as u16, (answer & ((1 << 56) - 1)) as usize);
    match number {
        0 => Ok(low),
        _ => Err((number, low)),
    }
}

/// "A value's length is the number of bytes before the first zero in its 512."
fn string_of(room: &[u8]) -> Vec<u8> {
    room.iter().copied().take_while(|&byte| byte != 0).collect()
}

fn not_ours(answer: u64) -> ! {
    panic!("the linked libportal.a is not the one that this package is written for: it answered {answer:#x}")
}

#[cfg(test)]
mod tests {
    use super::*;

    #[test]
    fn verdicts() {
        assert_eq!(verdict(0), Ok(Verdict::NotMentioned));
        assert_eq!(verdict(1), Ok(Verdict::Allowed));
        assert_eq!(verdict(2), Ok(Verdict::DeniedByRule));
        assert_eq!(verdict(9 << 32 | 6), Err(Refusal::new(9, 0, 6)));
    }

    #[test]
    #[should_panic]
    fn no_other_number_is_a_verdict() {
        let _ = verdict(3);
    }

    #[test]
    fn counts() {
        assert_eq!(count(0), Ok(0));
        assert_eq!(count(16_777_216), Ok(16_777_216));
        assert_eq!(count(1 << 48 | 1 << 32 | 16_384), Err(Refusal::new(1, 1, 16_384)));
        assert_eq!(count(2 << 48 | 4 << 32 | 7), Err(Refusal::new(4, 2, 7)));
    }

    #[test]
    fn tables_written() {
        assert_eq!(written(3), Ok(3));
        assert_eq!(written(16_384), Ok(16_384));
        assert_eq!(written(20 << 56), Err((20, 0)));
        assert_eq!(written(1 << 56 | 16_384), Err((1, 16_384)));
        assert_eq!(written(22 << 56 | 0xFF_FFFF_FFFF_FFFF), Err((22, (1 << 56) - 1)));
    }

    #[test]
    fn gaps_tell_absent_from_empty() {
        let mut values = vec![0; 7 * STRING_BYTES];
        values[0] = b'p';
        values[512] = b'a';
        values[1024..1536].fill(b'r');
        values[1536] = b'v';
        let shown = gap(SHOWN | 0b10011 << 32 | 0xFFFF_FFFF, &values).unwrap();
        assert_eq!((&shown.principal[..], &shown.action[..]), (&b"p"[..], &b"a"[..]));
        assert_eq!(shown.resource, vec![b'r'; 512]);
        assert_eq!(shown.keys, [Some(b"v".to_vec()), Some(vec![]), None, None]);
        assert_eq!(shown.address, Some(u32::MAX));
        let absent = gap(SHOWN | 0b1000 << 32, &values).unwrap();
        assert_eq!((absent.keys, absent.address), ([None, None, None, Some(vec![])], None));
        assert_eq!(gap(13 << 32, &values), Err(Refusal::new(13, 0, 0)));
    }
}
