//! Policies as the tests of the portal draw them: the right ones make the tables that they were drawn with, and among the
//! damaged ones every number for no comes often.

use oracle::{read, read_json, Refusal};
use support::policies::{self, Tree};
use support::random::Random;

/// The answer in a buffer that is long enough for every table.
fn answer(json: &[u8]) -> Result<Vec<u8>, Refusal> {
    let mut buffer = vec![0xEE; 16_384];
    let length = read_json(json, &mut buffer)?;
    buffer.truncate(length);
    Ok(buffer)
}

/// How often each number came, 0 standing for a table.
#[derive(Debug, Default)]
struct Seen([usize; 23]);

impl Seen {
    fn ask(&mut self, json: &[u8]) {
        let number = match answer(json) {
            Ok(table) => {
                assert!(read(&table).is_ok(), "{}", json.escape_ascii());
                0
            }
            Err(Refusal { number, place }) => {
                assert!(place <= json.len() || number == 1, "{}", json.escape_ascii());
                number
            }
        };
        self.0[number as usize] += 1;
    }

    fn each_at_least(&self, times: usize, numbers: &[usize]) {
        for &number in numbers {
            assert!(self.0[number] >= times, "{number} came {} times: {:?}", self.0[number], self.0);
        }
    }
}

#[test]
fn right_policies_make_their_tables() {
    let mut random = Random::new(61);
    for _ in 0..20_000 {
        let (json, table) = policies::right(&mut random);
        assert_eq!(answer(&json), Ok(table), "{}", json.escape_ascii());
    }
}

#[test]
fn tables_of_about_16384_bytes() {
    let mut random = Random::new(62);
    for _ in 0..300 {
        let (tree, bytes) = policies::near_16384(&mut random);
        let expected = if bytes > 16_384 { Err(Refusal { number: 1, place: 16_384 }) } else { Ok(bytes) };
        assert_eq!(answer(&policies::plainly(&tree)).map(|table| table.len()), expected);
    }
}

#[test]
fn every_number_comes_often() {
    let mut random = Random::new(63);
    let mut seen = Seen::default();
    for _ in 0..50_000 {
        seen.ask(&policies::damaged(&mut random));
    }
    seen.each_at_least(500, &[0, 3, 5, 6, 7, 8, 21, 22]);
    let mut seen = Seen::default();
    for _ in 0..50_000 {
        seen.ask(&policies::spoilt(&mut random));
    }
    seen.each_at_least(500, &[0, 20, 21, 22]);
    let mut seen = Seen::default();
    for _ in 0..20_000 {
        seen.ask(&policies::garbage(&mut random));
    }
    seen.each_at_least(100, &[20, 22]);
}

#[test]
fn limits_and_variants() {
    let mut seen = Seen::default();
    for tree in policies::at_the_limits() {
        seen.ask(&policies::plainly(&tree));
    }
    seen.each_at_least(20, &[0, 6, 7, 8]);
    let mut seen = Seen::default();
    for tree in policies::variants(&policies::whole()) {
        seen.ask(&policies::plainly(&tree));
    }
    seen.each_at_least(5, &[0, 5, 8, 21, 22]);
}

/// The order of members decides nothing.
#[test]
fn every_order_makes_the_same_table() {
    let whole = policies::whole();
    let table = answer(&policies::plainly(&whole));
    let orders: Vec<Tree> = policies::orders(&whole);
    assert_eq!((orders.len(), table.is_ok()), (720, true));
    for tree in orders {
        assert_eq!(answer(&policies::plainly(&tree)), table);
    }
}
