//! Pairs of good tables, drawn small with many overlaps: the number of gaps, and the gaps to the last byte.

use crate::agree::compared;
use crate::counts::{CHANGED_PAIRS, DRAWN_PAIRS, WILD_PAIRS};
use crate::draw::{self, Shape, MEDIUM, SMALL, TINY};
use portal::compare;
use support::build::*;
use support::random::Random;

/// Gaps asked for beside the last: up to this many of one pair in `ALL_ASKED_EACH`, of the others a few.
const MOST_ASKED: usize = 64;
const FEW_ASKED: usize = 4;
const ALL_ASKED_EACH: usize = 16;

fn asked(case: usize) -> usize {
    if case % ALL_ASKED_EACH == 0 {
        MOST_ASKED
    } else {
        FEW_ASKED
    }
}

#[test]
fn drawn_pairs_compare_alike() {
    let mut random = Random::new(31);
    let (mut with_gaps, mut many) = (0, 0);
    for case in 0..DRAWN_PAIRS {
        let shape = if case % 8 == 1 { &SMALL } else { &TINY };
        let (first, second) = (draw::table(&mut random, shape), draw::table(&mut random, shape));
        let count = compared(&first, &second, asked(case)).unwrap();
        with_gaps += usize::from(count > 0);
        many += usize::from(count > MOST_ASKED);
    }
    assert!(with_gaps > DRAWN_PAIRS / 4 && many > DRAWN_PAIRS / 100, "{with_gaps} {many}");
}

/// A table against itself with a small change: what a person asks who edits one.
#[test]
fn changed_pairs_compare_alike() {
    let mut random = Random::new(32);
    let (mut with_gaps, mut without) = (0, 0);
    for case in 0..CHANGED_PAIRS {
        let shape = if case % 4 == 0 { &SMALL } else { &TINY };
        let statements = draw::statements(&mut random, shape);
        let changed = draw::statements_like(&mut random, &statements, shape);
        let (first, second) = (table(&statements), table(&changed));
        let count = compared(&first, &second, asked(case)).unwrap();
        if count > 0 {
            with_gaps += 1;
        } else {
            without += 1;
        }
    }
    assert!(with_gaps > CHANGED_PAIRS / 10 && without > CHANGED_PAIRS / 10, "{with_gaps} {without}");
}

/// Nothing is lost from a table to itself.
#[test]
fn a_table_against_itself() {
    let mut random = Random::new(33);
    for _ in 0..300 {
        let table = draw::table(&mut random, &SMALL);
        assert_eq!(compared(&table, &table, 0), Ok(0));
    }
}

/// Long values full of wildcards in one column: many states, and refusal 11 among the answers.
#[test]
fn wild_pairs_compare_alike() {
    const WILD: Shape = Shape { statements: 0, conditions: 0, listed: 3, length: 11, bytes: b"ab*??" };
    let mut random = Random::new(34);
    let mut refused = 0;
    for _ in 0..WILD_PAIRS {
        let column = random.up_to(6);
        let (first, second) =
            (wild_table(&mut random, &WILD, column), wild_table(&mut random, &WILD, column));
        match compared(&first, &second, 1) {
            Ok(_) => {}
            Err(refusal) => {
                assert_eq!((refusal.number, refusal.place), (11, column as u64));
                refused += 1;
            }
        }
    }
    assert!((5..WILD_PAIRS / 2).contains(&refused), "{refused}");
}

fn wild_table(random: &mut Random, shape: &Shape, column: usize) -> Vec<u8> {
    let statements = random.up_to(2);
    let drawn = |random: &mut Random| {
        let listed: Vec<Vec<u8>> =
            (0..random.up_to(shape.listed)).map(|_| draw::drawn_value(random, shape, false)).collect();
        let listed: Vec<&str> = listed.iter().map(|value| std::str::from_utf8(value).unwrap()).collect();
        let mut statement = allow_in_column(column, &listed);
        statement.effect = u8::from(!random.once_in(4));
        statement
    };
    let drawn: Vec<Statement> = (0..statements).map(|_| drawn(random)).collect();
    table(&drawn)
}

/// Larger tables: mostly refused by 12, in the order of the columns' own refusals.
#[test]
fn medium_pairs_compare_alike() {
    let mut random = Random::new(35);
    let (mut answered, mut refused) = (0, 0);
    for _ in 0..30 {
        let (first, second) = (draw::table(&mut random, &MEDIUM), draw::table(&mut random, &MEDIUM));
        match compared(&first, &second, 2) {
            Ok(_) => answered += 1,
            Err(_) => refused += 1,
        }
    }
    assert!(answered >= 3 && refused >= 3, "{answered} {refused}");
}

/// Addresses alone: networks inside, beside and behind each other, both ends of all addresses among them.
#[test]
fn networks_compare_alike() {
    let mut random = Random::new(36);
    for _ in 0..400 {
        let drawn = |random: &mut Random| {
            let statements = (0..random.up_to(3)).map(|_| network_statement(random)).collect::<Vec<_>>();
            table(&statements)
        };
        let (first, second) = (drawn(&mut random), drawn(&mut random));
        compared(&first, &second, 16).unwrap();
    }
}

fn network_statement(random: &mut Random) -> Statement {
    let operator = IP_ADDRESS + random.below(2) as u8 + random.pick(&[0, IF_EXISTS]);
    let listed = (0..random.up_to(4)).map(|_| draw::drawn_network(random)).collect();
    let mut statement = allow_when(&[List { head: vec![0x04, operator, ADDRESS_KEY], listed }]);
    statement.effect = u8::from(!random.once_in(4));
    statement
}

/// Every byte as a value of its own, alone and behind another, in every string column.
#[test]
fn every_byte_can_show_a_gap() {
    for column in 0..7 {
        for byte in 0x21..=0x7E_u8 {
            if column < 3 && b"*?".contains(&byte) {
                continue;
            }
            for listed in [vec![byte], vec![b'x', byte]] {
                let mut row = allow_when(&[]);
                match column {
                    0..=2 => row.lists[column].listed = vec![value(&listed)],
                    _ => row.lists.push(List {
                        head: vec![0x04, STRING_EQUALS, column as u8 - 3],
                        listed: vec![value(&listed)],
                    }),
                }
                let first = table(&[row]);
                assert_eq!(compared(&first, &NOTHING, 1), Ok(1));
                let shown = if column == 1 { listed.to_ascii_uppercase() } else { listed };
                assert_eq!(shown_in(&first, column), shown);
            }
        }
    }
}

/// What the first gap against a table that allows nothing shows in one string column.
fn shown_in(first: &[u8], column: usize) -> Vec<u8> {
    let gap = compare(first, &NOTHING).unwrap().get(0).unwrap();
    let [vpc, prefix, vpce, referer] = gap.keys.map(Option::unwrap_or_default);
    [gap.principal, gap.action, gap.resource, vpc, prefix, vpce, referer][column].clone()
}

/// All strings of one byte but one are denied, so that one shows the gap, though no value has it.
#[test]
fn the_one_byte_that_is_left_shows_the_gap() {
    for left in [0x21, 0x22, b')', b'*', b'+', b'?', b'@', b'A', b'Z', b'[', b'a', b'z', 0x7D, 0x7E_u8] {
        let mut rows = vec![allow_when(&[strings(STRING_LIKE, 0, &["?"])])];
        let others: Vec<u8> = (0x21..=0x7E).filter(|&byte| byte != left).collect();
        for bytes in others.chunks(60) {
            let listed = bytes.iter().map(|&byte| value(&[byte])).collect();
            let mut row = allow_when(&[List { head: vec![0x04, STRING_EQUALS, 0], listed }]);
            row.effect = DENY;
            rows.push(row);
        }
        let first = table(&rows);
        assert_eq!(compared(&first, &NOTHING, 1), Ok(1));
        assert_eq!(shown_in(&first, 3), [left]);
    }
}
