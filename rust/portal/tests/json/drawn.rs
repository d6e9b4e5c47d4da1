//! Drawn policies: right ones, damaged ones among members and values, spoilt ones among bytes, and garbage.

use crate::agree::{agreed, Seen};
use crate::counts::{DAMAGED, GARBAGE, RIGHT, SPOILT};
use support::policies;
use support::random::Random;

#[test]
fn right_policies() {
    let mut random = Random::new(71);
    let mut seen = Seen::default();
    for _ in 0..RIGHT {
        let (json, table) = policies::right(&mut random);
        assert_eq!(agreed(&mut random, &json, &mut seen), Ok(table.len()));
    }
    seen.each_at_least(RIGHT, &[0, 14]);
}

#[test]
fn damaged_policies() {
    let mut random = Random::new(72);
    let mut seen = Seen::default();
    for _ in 0..DAMAGED {
        let json = policies::damaged(&mut random);
        let _ = agreed(&mut random, &json, &mut seen);
    }
    seen.each_at_least(2_000, &[0, 3, 5, 6, 7, 8, 14, 21, 22]);
}

#[test]
fn spoilt_policies() {
    let mut random = Random::new(73);
    let mut seen = Seen::default();
    for _ in 0..SPOILT {
        let json = policies::spoilt(&mut random);
        let _ = agreed(&mut random, &json, &mut seen);
    }
    seen.each_at_least(2_000, &[0, 14, 20, 21, 22]);
}

#[test]
fn garbage() {
    let mut random = Random::new(74);
    let mut seen = Seen::default();
    for _ in 0..GARBAGE {
        let json = policies::garbage(&mut random);
        let _ = agreed(&mut random, &json, &mut seen);
    }
    seen.each_at_least(100, &[20, 22]);
}
