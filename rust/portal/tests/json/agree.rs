//! One text put to the entry point and to the oracle: both must give the same number, and leave the same bytes.

use std::sync::OnceLock;

use oracle::{read_json, Refusal};
use portal::ffi;
use support::random::Random;

/// Enough for every table, and some bytes behind it.
const LONG: usize = 16_384 + 64;
/// The highest place that an answer can say.
const HIGHEST_PLACE: u64 = (1 << 56) - 1;

/// How often each number came, 0 standing for a table.
#[derive(Debug, Default)]
pub struct Seen([usize; 23]);

impl Seen {
    pub fn add(&mut self, answer: Result<usize, Refusal>) {
        self.0[answer.map_or_else(|refusal| refusal.number as usize, |_| 0)] += 1;
    }

    pub fn each_at_least(&self, times: usize, numbers: &[usize]) {
        for &number in numbers {
            assert!(self.0[number] >= times, "{number} came {} times: {:?}", self.0[number], self.0);
        }
    }
}

/// An answer as its number.
pub fn number_of(answer: Result<usize, Refusal>) -> u64 {
    match answer {
        Ok(length) => length as u64,
        Err(Refusal { number, place }) => u64::from(number) << 56 | (place as u64).min(HIGHEST_PLACE),
    }
}

/// A lent buffer in which every byte differs from its neighbours.
fn lent_buffer(length: usize) -> Vec<u8> {
    static LONGEST: OnceLock<Vec<u8>> = OnceLock::new();
    let longest = LONGEST.get_or_init(|| (0..LONG).map(|at| (at * 7 + at / 256) as u8 ^ 0xA5).collect());
    longest[..length].to_vec()
}

/// Puts the text to both with a buffer of this length.
pub fn asked(json: &[u8], length: usize) -> Result<usize, Refusal> {
    let mut expected_table = lent_buffer(length);
    let mut table = expected_table.clone();
    let expected = read_json(json, &mut expected_table);
    let answer = ffi::read_json(json, &mut table);
    assert!(
        answer == number_of(expected),
        "answered {:#x} for {expected:?}, buffer {length}: {}",
        answer,
        json.escape_ascii()
    );
    assert!(
        table == expected_table,
        "the bytes after {expected:?}, buffer {length}: {}",
        json.escape_ascii()
    );
    expected
}

/// Puts the text to both with a long buffer; if it is taken, also with one that just holds the table and one of a byte
/// less. Now and then a drawn short buffer is tried too.
pub fn agreed(random: &mut Random, json: &[u8], seen: &mut Seen) -> Result<usize, Refusal> {
    let answer = asked(json, LONG);
    seen.add(answer);
    if let Ok(length) = answer {
        assert_eq!(asked(json, length), answer);
        seen.add(asked(json, length - 1));
    }
    if random.once_in(8) {
        let again = asked(json, random.below(64));
        assert!(again == answer || answer.is_ok());
    }
    answer
}
