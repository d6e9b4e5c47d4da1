//! Damaged tables and garbage: refused by the same number at the same place, or judged and compared alike.

use crate::agree::{compared, judged};
use crate::counts::{DAMAGED_PAIRS, DAMAGED_TABLES, GARBAGE};
use crate::damage::{damage_bytes, damaged, garbage};
use crate::draw::{self, Shape, MEDIUM, SMALL, TINY};
use support::random::Random;

/// How often each refusal number came, 0 standing for an answer.
type Seen = [usize; 16];

/// Every number from 2 to 8 that a damaged table is refused by came often.
fn check_variety(seen: &Seen) {
    for (number, &times) in seen.iter().enumerate().take(9) {
        assert!(times >= 50 || number == 1, "refusal {number} came {times} times: {seen:?}");
    }
}

#[test]
fn damaged_tables_judge_alike() {
    let mut random = Random::new(21);
    let mut seen: Seen = [0; 16];
    for case in 0..DAMAGED_TABLES {
        let shape: &Shape = if case % 8 == 0 { &MEDIUM } else { &SMALL };
        let statements = draw::statements(&mut random, shape);
        let request = draw::request(&mut random, &statements, shape);
        let table = damaged(&mut random, &statements);
        let number = judged(&table, &request.request()).map_or_else(|refusal| refusal.number, |_| 0);
        seen[number as usize] += 1;
    }
    check_variety(&seen);
}

#[test]
fn every_cut_of_a_table_judges_alike() {
    let mut random = Random::new(22);
    for _ in 0..40 {
        let statements = draw::statements(&mut random, &MEDIUM);
        let request = draw::request(&mut random, &statements, &MEDIUM);
        let table = support::build::table(&statements);
        for length in 0..table.len() {
            assert_eq!(judged(&table[..length], &request.request()).unwrap_err().number, 2);
        }
        judged(&table, &request.request()).unwrap();
    }
}

#[test]
fn every_byte_at_every_place_judges_alike() {
    let mut random = Random::new(23);
    let statements = loop {
        let drawn = draw::statements(&mut random, &SMALL);
        if drawn.iter().map(|statement| statement.lists.len()).sum::<usize>() >= 7 {
            break drawn;
        }
    };
    let request = draw::request(&mut random, &statements, &SMALL);
    let table = support::build::table(&statements);
    for at in 0..table.len() {
        for byte in 0..=255 {
            let mut changed = table.clone();
            changed[at] = byte;
            let _ = judged(&changed, &request.request());
        }
    }
}

#[test]
fn garbage_judges_alike() {
    let mut random = Random::new(24);
    let request = portal::Request::new(b"a", b"a", b"a");
    for _ in 0..GARBAGE {
        let _ = judged(&garbage(&mut random), &request);
    }
}

#[test]
fn damaged_pairs_compare_alike() {
    let mut random = Random::new(25);
    let mut seen: Seen = [0; 16];
    let mut by_table = [0; 3];
    for case in 0..DAMAGED_PAIRS {
        let statements = draw::statements(&mut random, &TINY);
        let mut first = support::build::table(&statements);
        let changed = draw::statements_like(&mut random, &statements, &TINY);
        let mut second = damaged(&mut random, &changed);
        match case % 4 {
            0 => std::mem::swap(&mut first, &mut second),
            1 => damage_bytes(&mut random, &mut first),
            _ => {}
        }
        match compared(&first, &second, 4) {
            Ok(_) => seen[0] += 1,
            Err(refusal) => {
                seen[refusal.number as usize] += 1;
                by_table[refusal.table as usize] += 1;
            }
        }
    }
    check_variety(&seen);
    assert!(by_table[1] > 500 && by_table[2] > 500, "{by_table:?}");
}
