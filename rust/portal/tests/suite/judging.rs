//! Good tables and requests, drawn small and large; requests with faults.

use crate::agree::judged;
use crate::counts::{FAULTY_REQUESTS, JUDGED_TABLES, REQUESTS_EACH};
use crate::draw::{self, Shape, LARGE, MEDIUM, SMALL, TINY};
use portal::Verdict;
use support::random::Random;

fn shape_of(case: usize) -> &'static Shape {
    match case % 16 {
        0 => &LARGE,
        1..=3 => &MEDIUM,
        4..=8 => &TINY,
        _ => &SMALL,
    }
}

#[test]
fn drawn_tables_judge_alike() {
    let mut random = Random::new(11);
    let mut seen = [0; 3];
    for case in 0..JUDGED_TABLES {
        let shape = shape_of(case);
        let statements = draw::statements(&mut random, shape);
        let table = support::build::table(&statements);
        for _ in 0..REQUESTS_EACH {
            let request = draw::request(&mut random, &statements, shape);
            let verdict = judged(&table, &request.request()).unwrap();
            seen[verdict as usize] += 1;
        }
    }
    let least = JUDGED_TABLES * REQUESTS_EACH / 20;
    assert!(seen.iter().all(|&times| times > least), "{seen:?}");
}

/// A byte out of range in one or two columns, or one of columns 0 to 2 empty: 9, by the lowest such column.
#[test]
fn faulty_requests_judge_alike() {
    const OUT_OF_RANGE: [u8; 8] = [0x00, 0x05, 0x1F, 0x20, 0x7F, 0x80, 0xA1, 0xFF];
    let mut random = Random::new(12);
    let mut by_column = [0; 7];
    for _ in 0..FAULTY_REQUESTS {
        let statements = draw::statements(&mut random, &SMALL);
        let mut request = draw::request(&mut random, &statements, &SMALL);
        for _ in 0..random.up_to(2) {
            let column = random.below(7);
            let string = request.strings[column].get_or_insert_with(Vec::new);
            if random.once_in(4) {
                string.clear();
            } else {
                let at = random.below(string.len() + 1);
                string.insert(at, random.pick(&OUT_OF_RANGE));
            }
        }
        let table = support::build::table(&statements);
        if let Err(refusal) = judged(&table, &request.request()) {
            assert_eq!(refusal.number, 9);
            by_column[refusal.place as usize] += 1;
        }
    }
    assert!(by_column.iter().all(|&times| times > FAULTY_REQUESTS / 40), "{by_column:?}");
}

/// Every byte, alone and at the end of a string, in every string column.
#[test]
fn every_byte_in_every_column_judges_alike() {
    let mut random = Random::new(13);
    let statements = draw::statements(&mut random, &SMALL);
    let table = support::build::table(&statements);
    for column in 0..7 {
        for byte in 0..=255 {
            let mut request = draw::request(&mut random, &statements, &SMALL);
            request.strings[column] = Some(vec![byte]);
            let _ = judged(&table, &request.request());
            request.strings[column] = Some(vec![b'a', b'b', byte]);
            let answer = judged(&table, &request.request());
            assert_eq!(answer.is_ok(), (0x21..=0x7E).contains(&byte));
        }
    }
}

/// Only letters have a second case: every byte as an action's value against every byte as an action.
#[test]
fn every_action_byte_against_every_action_byte() {
    for listed in 0x21..=0x7E_u8 {
        let table = support::build::table(&[support::build::statement(
            support::build::ALLOW,
            &["*"],
            &[&(listed as char).to_string()],
            &["*"],
        )]);
        for asked in 0x21..=0x7E_u8 {
            let verdict = judged(&table, &portal::Request::new(b"p", &[asked], b"r"));
            let matches = b"*?".contains(&listed) || listed.eq_ignore_ascii_case(&asked);
            assert_eq!(verdict == Ok(Verdict::Allowed), matches);
        }
    }
}
