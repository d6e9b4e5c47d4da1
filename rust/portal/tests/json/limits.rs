//! Each limit, at it and past it.

use crate::agree::{agreed, asked, Seen};
use crate::counts::LONG_TABLES;
use oracle::Refusal;
use support::policies::{self, plainly, print, Style};
use support::random::Random;

#[test]
fn statements_values_conditions_and_bytes() {
    let mut random = Random::new(91);
    let mut seen = Seen::default();
    for tree in policies::at_the_limits() {
        for style in [Style::PLAIN, Style { blanks: 3, escapes: 1 }, Style { blanks: 0, escapes: 2 }] {
            let json = print(&mut random, style, &tree);
            let _ = agreed(&mut random, &json, &mut seen);
        }
    }
    seen.each_at_least(50, &[0, 6, 7, 8, 14]);
}

/// Tables of 16,380 to 16,389 bytes, in buffers of about their length.
#[test]
fn bytes_of_a_table() {
    let mut random = Random::new(92);
    let mut seen = Seen::default();
    for _ in 0..LONG_TABLES {
        let (tree, bytes) = policies::near_16384(&mut random);
        let json = plainly(&tree);
        let buffer = 16_378 + random.below(14);
        let expected = match bytes {
            16_385.. => Err(Refusal { number: 1, place: 16_384 }),
            _ if bytes > buffer => Err(Refusal { number: 14, place: 0 }),
            _ => Ok(bytes),
        };
        let answer = asked(&json, buffer);
        assert_eq!(answer, expected);
        seen.add(answer);
    }
    seen.each_at_least(LONG_TABLES / 10, &[0, 1, 14]);
}

/// A long table with a fault in it: the fault comes before 1 and 14.
#[test]
fn long_tables_with_a_fault() {
    let mut random = Random::new(93);
    let mut seen = Seen::default();
    for _ in 0..LONG_TABLES / 3 {
        let mut tree = policies::near_16384(&mut random).0;
        policies::damage(&mut random, &mut tree);
        seen.add(asked(&plainly(&tree), 16_378 + random.below(14)));
    }
    seen.each_at_least(10, &[1, 6, 7, 8, 22]);
}
