//! Megabytes of JSON a second: the verified library beside the oracle and python3, on the same policies.

use std::time::Duration;

use oracle::{limits, Refusal};
use support::random::Random;

use crate::corpus::policies::{policy_of, Policy};
use crate::judging::STATEMENTS;
use crate::measure::time_of;
use crate::python;
use crate::table;

const PRETTY: &str = "pretty";
const COMPACT: &str = "compact";

/// Megabytes a second on policies of one size, written in one way.
pub struct Rates {
    pub statements: usize,
    pub written: &'static str,
    /// The bytes of a text, on average.
    pub bytes: usize,
    pub ours: f64,
    pub oracle: f64,
    /// None where it is not installed.
    pub python: Option<f64>,
    pub differences: Vec<String>,
}

pub fn run(seed: u64, policies: usize) -> Vec<Rates> {
    let mut all = Vec::new();
    for statements in STATEMENTS {
        let mut random = Random::new(seed ^ statements as u64);
        let drawn: Vec<Policy> = (0..policies).map(|_| policy_of(&mut random, statements)).collect();
        for written in [PRETTY, COMPACT] {
            let mut texts: Vec<&[u8]> = Vec::new();
            for policy in &drawn {
                texts.push(if written == PRETTY { &policy.pretty } else { &policy.compact });
            }
            let mut rates = rates(&texts, statements, written);
            rates.differences.extend(other_tables(&drawn, &texts));
            all.push(rates);
        }
    }
    all
}

fn rates(texts: &[&[u8]], statements: usize, written: &'static str) -> Rates {
    let bytes: usize = texts.iter().map(|text| text.len()).sum();
    let megabytes_a_second = |time: Duration| bytes as f64 / 1e6 / time.as_secs_f64();
    let sum = |time: fn(&[u8]) -> Duration| texts.iter().map(|text| time(text)).sum();
    Rates {
        statements,
        written,
        bytes: bytes / texts.len(),
        ours: megabytes_a_second(sum(ours)),
        oracle: megabytes_a_second(sum(oracle)),
        python: python::times(texts).map(|times| megabytes_a_second(times.iter().sum())),
        differences: texts.iter().filter_map(|text| difference(text)).collect(),
    }
}

/// The time in which the library reads a text into a lent buffer.
pub fn ours(text: &[u8]) -> Duration {
    let mut table = vec![0; limits::TABLE_BYTES];
    time_of(|| portal::ffi::read_json(text, &mut table))
}

/// The same of the oracle.
pub fn oracle(text: &[u8]) -> Duration {
    let mut table = vec![0; limits::TABLE_BYTES];
    time_of(|| oracle::read_json(text, &mut table))
}

/// What the library and the oracle do not agree on, in words: the answer or the buffer.
pub fn difference(text: &[u8]) -> Option<String> {
    let (mut ours, mut theirs) = (vec![0; limits::TABLE_BYTES], vec![0; limits::TABLE_BYTES]);
    let answer = portal::ffi::read_json(text, &mut ours);
    let expected = match oracle::read_json(text, &mut theirs) {
        Ok(size) => size as u64,
        Err(Refusal { number, place }) => u64::from(number) << 56 | place as u64,
    };
    let agree = answer == expected && ours == theirs;
    (!agree)
        .then(|| format!("reading {} bytes of JSON: ours {answer:#x}, the oracle {expected:#x}", text.len()))
}

/// The texts that make another table than the one that they were made from.
fn other_tables(drawn: &[Policy], texts: &[&[u8]]) -> Vec<String> {
    let mut other = Vec::new();
    for (policy, text) in drawn.iter().zip(texts) {
        let mut table = vec![0; policy.stored.len()];
        let size = oracle::read_json(text, &mut table);
        if size != Ok(table.len()) || table != policy.stored {
            other.push(format!("the oracle reads another table than was written: {}", text.escape_ascii()));
        }
    }
    other
}

pub fn text(rates: &[Rates]) -> String {
    let header = ["statements", "written", "bytes", "ours", "oracle", "x", "python3", "x"];
    let mut rows = vec![header.map(String::from).to_vec()];
    for one in rates {
        let python = |number: fn(f64, f64) -> f64| {
            one.python.map_or("-".to_string(), |python| table::digits(number(one.ours, python)))
        };
        rows.push(vec![
            one.statements.to_string(),
            one.written.to_string(),
            one.bytes.to_string(),
            table::digits(one.ours),
            table::digits(one.oracle),
            table::digits(one.ours / one.oracle),
            python(|_, python| python),
            python(|ours, python| ours / python),
        ]);
    }
    table::aligned(&rows)
}
