//! One question put to the entry points and to the oracle: both must give the same number and the same bytes.

use oracle::{CompareRefusal, Comparison};
use portal::ffi::{self, RawRequest, VALUES_BYTES};
use portal::{compare, judge, Refusal, Request, Verdict};

/// Bytes lent behind the room for the values, which must stay as they came.
const BEHIND: usize = 64;

pub fn for_oracle(request: &Request) -> oracle::Request {
    oracle::Request {
        principal: request.principal.to_vec(),
        action: request.action.to_vec(),
        resource: request.resource.to_vec(),
        keys: request.keys.map(|key| key.map(<[u8]>::to_vec)),
        address: request.address,
    }
}

/// Judges, and holds the answer against the oracle's.
pub fn judged(table: &[u8], request: &Request) -> Result<Verdict, Refusal> {
    let answer = judge(table, request);
    let expected = match oracle::judge(table, &for_oracle(request)) {
        Ok(oracle::Verdict::Allowed) => Ok(Verdict::Allowed),
        Ok(oracle::Verdict::DeniedByRule) => Ok(Verdict::DeniedByRule),
        Ok(oracle::Verdict::NotMentioned) => Ok(Verdict::NotMentioned),
        Err(oracle::Refusal { number, place }) => Err(Refusal::new(number.into(), 0, place as u64)),
    };
    assert_eq!(answer, expected, "table {table:02X?}, {request:?}");
    answer
}

/// A refusal as its number in RULES 7.
pub fn refusal_number(refusal: &CompareRefusal) -> u64 {
    u64::from(refusal.table) << 48 | u64::from(refusal.number) << 32 | refusal.place as u64
}

/// A shown gap as the number that answers for it.
fn gap_number(gap: &oracle::Gap) -> u64 {
    let mut present = u64::from(gap.address.is_some()) << 4;
    for (code, value) in gap.values[3..].iter().enumerate() {
        present |= u64::from(value.is_some()) << code;
    }
    1 << 63 | present << 32 | u64::from(gap.address.unwrap_or(0))
}

/// A lent buffer in which every byte differs from its neighbours.
pub fn lent_buffer(length: usize) -> Vec<u8> {
    (0..length).map(|at| (at * 7 + at / 256) as u8 ^ 0xA5).collect()
}

/// Asks for gap k and holds the answer and every byte of the buffer against the oracle's gap or refusal.
fn ask(first: &[u8], second: &[u8], k: u64, expected: Result<&oracle::Gap, &CompareRefusal>) {
    let mut values = lent_buffer(VALUES_BYTES + BEHIND);
    let mut expected_values = values.clone();
    let answer = ffi::gap(first, second, k, &mut values);
    let expected_answer = match expected {
        Ok(gap) => {
            oracle::gap_buffer(gap, &mut expected_values).expect("a gap that can be shown");
            gap_number(gap)
        }
        Err(refusal) => refusal_number(refusal),
    };
    assert_eq!(answer, expected_answer, "gap {k} of {first:02X?} and {second:02X?}");
    assert!(values == expected_values, "values of gap {k} of {first:02X?} and {second:02X?}");
}

/// Compares and holds the number of gaps against the oracle's. Unless `most` is 0, asks for the first `most` gaps, the
/// last, and one that is not there.
pub fn compared(first: &[u8], second: &[u8], most: usize) -> Result<usize, Refusal> {
    let answer = ffi::gaps(first, second);
    let comparison = match Comparison::of(first, second) {
        Ok(comparison) => comparison,
        Err(refusal) => {
            assert_eq!(answer, refusal_number(&refusal), "{first:02X?} and {second:02X?}");
            ask(first, second, 0, Err(&refusal));
            return Err(compare(first, second).unwrap_err());
        }
    };
    let count = comparison.count();
    assert_eq!(answer, count, "gaps of {first:02X?} and {second:02X?}");
    if most == 0 {
        return Ok(count as usize);
    }
    let gaps = comparison.first_gaps(most);
    for (k, gap) in gaps.iter().enumerate() {
        ask(first, second, k as u64, Ok(gap));
    }
    if count > gaps.len() as u64 {
        ask(first, second, count - 1, Ok(&comparison.gap(count - 1).unwrap()));
    }
    let none_there = CompareRefusal { number: 13, table: 0, place: 0 };
    ask(first, second, count, Err(&none_there));
    check_safely(first, second, gaps.first());
    Ok(count as usize)
}

/// The same through the safe functions, the first gap alone.
fn check_safely(first: &[u8], second: &[u8], expected: Option<&oracle::Gap>) {
    let gaps = compare(first, second).unwrap();
    let gap = gaps.iter().next().map(Result::unwrap);
    let request = gap.as_ref().map(|gap| for_oracle(&gap.request()));
    assert_eq!(request, expected.map(oracle::Gap::request));
    if let Some(gap) = gap {
        assert_eq!(judge(first, &gap.request()), Ok(Verdict::Allowed));
        assert_ne!(judge(second, &gap.request()), Ok(Verdict::Allowed));
    }
}

/// A request as the entry point takes it, every key present.
pub fn raw<'a>(strings: [&'a [u8]; 7], present: u32, address: u32) -> RawRequest<'a> {
    let [principal, action, resource, keys @ ..] = strings;
    RawRequest { principal, action, resource, present, keys, address }
}
