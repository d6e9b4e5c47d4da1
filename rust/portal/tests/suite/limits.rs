//! Tables at every limit of RULES 7, and one past it.

use crate::agree::{compared, judged};
use portal::{Refusal, Request, Verdict};
use support::build::*;

fn refused(number: u16, table: u16, place: usize) -> Refusal {
    Refusal::new(number, table, place as u64)
}

fn letters(letter: char, length: usize) -> String {
    letter.to_string().repeat(length)
}

/// Judged, and compared with a table that allows nothing.
fn check_refused(table: &[u8], number: u16, place: usize) {
    assert_eq!(judged(table, &Request::new(b"p", b"a", b"r")), Err(refused(number, 0, place)));
    assert_eq!(compared(table, &NOTHING, 0), Err(refused(number, 1, place)));
    assert_eq!(compared(&NOTHING, table, 0), Err(refused(number, 2, place)));
}

/// Rows that each allow a one-byte principal of their own, from this byte on.
fn principals(from: u8, number: u8) -> Vec<Statement> {
    let row = |byte: u8| statement(ALLOW, &[&(byte as char).to_string()], &["*"], &["*"]);
    (from..from + number).map(row).collect()
}

#[test]
fn statements_32_and_33() {
    let full = table(&principals(b'@', 32));
    for byte in b'@'..=b'@' + 33 {
        let verdict = judged(&full, &Request::new(&[byte], b"a", b"r")).unwrap();
        assert_eq!(verdict == Verdict::Allowed, byte < b'@' + 32);
    }
    check_refused(&table(&principals(b'@', 33)), 6, 0);
    // 64 rows in all: what the first row of the first table allows alone, and the last of the second.
    assert_eq!(compared(&full, &table(&principals(b'A', 32)), 4), Ok(1));
    assert_eq!(compared(&table(&principals(b'A', 32)), &full, 4), Ok(1));
}

#[test]
fn values_64_and_65() {
    let with = |resources: usize| {
        let mut row = statement(ALLOW, &["*"], &["*"], &[]);
        row.lists[2].listed =
            (0..resources).map(|number| value(letters('r', number + 1).as_bytes())).collect();
        row
    };
    let full = table(&[with(62)]);
    let last = letters('r', 62);
    assert_eq!(judged(&full, &Request::new(b"p", b"a", last.as_bytes())), Ok(Verdict::Allowed));
    let over = records(&[with(63)]);
    let place = over[..over.len() - 2].concat().len();
    check_refused(&over.concat(), 6, place);

    let mut networks = allow_when(&[List { head: vec![4, IP_ADDRESS, ADDRESS_KEY], listed: vec![] }]);
    networks.lists[3].listed = (0..61).map(|number| network(number, 32)).collect();
    assert_eq!(compared(&table(&[networks.clone()]), &NOTHING, 64), Ok(1));
    networks.lists[3].listed.push(network(61, 32));
    let over = records(&[networks]);
    let place = over[..over.len() - 2].concat().len();
    check_refused(&over.concat(), 6, place);
}

#[test]
fn conditions_4_and_5() {
    let with = |number: u8| {
        let conditions: Vec<List> = (0..number).map(|key| strings(STRING_LIKE, key % 4, &["a*"])).collect();
        allow_when(&conditions)
    };
    let request = Request { keys: [Some(b"a"); 4], ..Request::new(b"p", b"a", b"r") };
    assert_eq!(judged(&table(&[with(4)]), &request), Ok(Verdict::Allowed));
    assert_eq!(compared(&table(&[with(4)]), &NOTHING, 4), Ok(1));
    let over = records(&[with(5)]);
    let place = over[..over.len() - 3].concat().len();
    check_refused(&over.concat(), 6, place);
}

#[test]
fn table_bytes_16384_and_16385() {
    // 259 bytes of other records, and 125 values of 129 bytes each.
    let long = letters('v', 128);
    let row = |number: usize| {
        let mut row = statement(ALLOW, &[&long], &[&long], &[&long]);
        if number < 29 {
            row.lists[2].listed.push(value(long.as_bytes()));
        }
        row
    };
    let rows: Vec<Statement> = (0..32).map(row).collect();
    let full = table(&rows);
    assert_eq!(full.len(), 16_384);
    let request = Request::new(long.as_bytes(), long.as_bytes(), long.as_bytes());
    assert_eq!(judged(&full, &request), Ok(Verdict::Allowed));
    assert_eq!(compared(&full, &NOTHING, 0), Err(refused(10, 0, 0)));
    for longer in [[&full[..], &[5]].concat(), [&full[..], &[0; 50_000]].concat(), vec![0xFF; 16_385]] {
        check_refused(&longer, 1, 16_384);
    }
    let cut = &full[..16_383];
    assert_eq!(compared(&full, cut, 0), Err(refused(2, 2, 16_383)));
}

/// Four values of 127 bytes in one column, both tables together: sum 512. One made 128: 513.
#[test]
fn sums_512_and_513_in_every_column() {
    for column in 0..7 {
        let long: Vec<String> = "abcd".chars().map(|letter| letters(letter, 127)).collect();
        let first = table(&[allow_in_column(column, &[&long[0], &long[1]])]);
        let second = |length| table(&[allow_in_column(column, &[&long[2], &letters('d', length)])]);
        // Gaps with that many states take long to ask for; one column of each sort will do.
        let asked = usize::from([0, 2, 6].contains(&column));
        assert_eq!(compared(&first, &second(127), asked), Ok(1), "column {column}");
        assert_eq!(compared(&first, &second(128), 0), Err(refused(10, 0, column)));
        assert_eq!(compared(&second(128), &first, 0), Err(refused(10, 0, column)));
    }
}

#[test]
fn networks_128_and_129() {
    let with = |from: u32, to: u32| {
        let listed = (from..to).map(|number| network(number * 2, 32)).collect();
        allow_when(&[List { head: vec![4, IP_ADDRESS, ADDRESS_KEY], listed }])
    };
    let first = table(&[with(0, 61), with(61, 67)]);
    assert_eq!(compared(&first, &table(&[with(67, 128)]), 2), Ok(2));
    assert_eq!(compared(&first, &table(&[with(67, 127), with(127, 129)]), 0), Err(refused(10, 0, 7)));
}

/// `*a` and seven `?` has 257 states; each byte of a plain value beside it adds one.
#[test]
fn states_512_and_513_in_every_column_with_wildcards() {
    for column in 1..7 {
        let first = |length| table(&[allow_in_column(column, &["*a???????", &letters('b', length)])]);
        let second = table(&[allow_in_column(column, &[&letters('c', 127)])]);
        assert_eq!(compared(&first(128), &second, 0).map(|_| ()), Ok(()), "column {column}");
        let third = table(&[allow_in_column(column, &[&letters('c', 128)])]);
        assert_eq!(compared(&first(128), &third, 0), Err(refused(11, 0, column)));
    }
}

/// 10 is asked of all columns before 11 of any, and 11 of all before 12.
#[test]
fn refusals_of_comparing_in_their_order() {
    let crowded = strings(STRING_LIKE, 0, &["*a????????"]);
    let wide = strings(
        STRING_LIKE,
        3,
        &[&letters('a', 128), &letters('b', 128), &letters('c', 128), &letters('d', 128)],
    );
    let both = table(&[allow_when(&[crowded.clone(), wide])]);
    assert_eq!(compared(&both, &NOTHING, 0), Err(refused(10, 0, 6)));
    let many = |from: u8, to: u8| -> Vec<Statement> {
        let own = |byte: u8| (byte as char).to_string();
        (from..to).map(|byte| statement(ALLOW, &[&own(byte)], &[&own(byte)], &[&own(byte)])).collect()
    };
    let keys = |rows: Vec<Statement>, last: Option<List>| {
        let with_key = |mut row: Statement| {
            let own = (row.lists[0].listed[0][1] as char).to_string();
            row.lists.push(strings(STRING_EQUALS, 0, &[&own]));
            row.lists.push(strings(STRING_EQUALS, 1, &[&own]));
            row
        };
        let mut rows: Vec<Statement> = rows.into_iter().map(with_key).collect();
        rows.extend(last.map(|list| allow_when(&[list])));
        table(&rows)
    };
    let first = keys(many(b'@', b'@' + 26), None);
    let second = keys(many(b'[', b'a'), None);
    assert_eq!(compared(&first, &second, 0), Err(refused(12, 0, 0)));
    let mut last = crowded;
    last.head[2] = 3;
    let second = keys(many(b'[', b'a'), Some(last));
    assert_eq!(compared(&first, &second, 0), Err(refused(11, 0, 6)));
}
