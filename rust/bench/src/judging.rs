//! Judgements a second: the verified library beside the oracle, on the same tables and requests.

use oracle::table::ElementColumn;
use oracle::{limits, Table};

use crate::corpus::{build, realistic};
use crate::measure::time_of;
use crate::table;
use support::random::Random;

const TABLES: usize = 12;
const REQUESTS: usize = 24;
pub const STATEMENTS: [usize; 3] = [1, 8, 32];

/// Judgements a second on tables of one size.
pub struct Rates {
    pub statements: usize,
    pub ours: f64,
    pub oracle: f64,
    /// The oracle when it has read the table before; ours always reads it.
    pub oracle_read_before: f64,
    /// The bytes of a table, on average.
    pub bytes: usize,
    pub allowed: usize,
    pub judged: usize,
    pub differences: Vec<String>,
}

/// A table with its requests.
struct Case {
    stored: Vec<u8>,
    table: Table,
    requests: Vec<oracle::Request>,
}

pub fn run(seed: u64) -> Vec<Rates> {
    STATEMENTS.into_iter().map(|statements| rates(&cases(seed, statements), statements)).collect()
}

fn cases(seed: u64, statements: usize) -> Vec<Case> {
    let mut random = Random::new(seed ^ statements as u64);
    let mut case = || {
        let table = realistic::table_of(&mut random, statements);
        let stored = build::stored(&table).expect("within the limits of the stored form");
        let requests = (0..REQUESTS).map(|_| request(&mut random, &table)).collect();
        Case { stored, table, requests }
    };
    (0..TABLES).map(|_| case()).collect()
}

/// A request made for one statement of the table: each column a string that one of its values matches, or now and then another.
fn request(random: &mut Random, table: &Table) -> oracle::Request {
    let statement = &table.statements[random.below(table.statements.len())];
    let mut request = oracle::Request::default();
    for (column, element) in statement.elements.iter().enumerate() {
        let string = instance(random, &element.values);
        match ElementColumn::ALL[column] {
            ElementColumn::Principal => request.principal = string,
            ElementColumn::Action => request.action = string,
            ElementColumn::Resource => request.resource = string,
        }
    }
    for condition in &statement.conditions {
        if let Some(network) = condition.networks.first() {
            request.address = Some(network.address + random.below(2) as u32);
        } else {
            let key = condition.key.column() - limits::ELEMENT_COLUMNS;
            request.keys[key] = Some(instance(random, &condition.values));
        }
    }
    request
}

fn instance(random: &mut Random, values: &[Vec<u8>]) -> Vec<u8> {
    let value = &values[random.below(values.len())];
    let mut string = Vec::new();
    for &byte in value {
        match byte {
            b'*' => string.extend_from_slice(&b"reports-2025/"[..random.below(13)]),
            b'?' => string.push(b'5'),
            _ if random.once_in(200) => string.push(b'#'),
            _ => string.push(byte),
        }
    }
    if string.is_empty() {
        string.push(b'x');
    }
    string
}

fn lent(request: &oracle::Request) -> portal::Request<'_> {
    let key = |code: usize| request.keys[code].as_deref();
    portal::Request {
        principal: &request.principal,
        action: &request.action,
        resource: &request.resource,
        keys: [key(0), key(1), key(2), key(3)],
        address: request.address,
    }
}

fn rates(cases: &[Case], statements: usize) -> Rates {
    let judged = cases.len() * REQUESTS;
    let (mut allowed, mut differences) = (0, Vec::new());
    for case in cases {
        for request in &case.requests {
            let ours = portal::judge(&case.stored, &lent(request)).map(|verdict| format!("{verdict:?}"));
            let theirs = oracle::judge(&case.stored, request).map(|verdict| format!("{verdict:?}"));
            allowed += usize::from(ours.as_deref() == Ok("Allowed"));
            if ours.as_deref().ok() != theirs.as_deref().ok() {
                differences.push(format!("judging {request:?}: ours {ours:?}, the oracle {theirs:?}"));
            }
        }
    }
    let a_second = |judge: &dyn Fn(&Case, &oracle::Request) -> bool| {
        let all = || {
            cases
                .iter()
                .map(|case| case.requests.iter().filter(|one| judge(case, one)).count())
                .sum::<usize>()
        };
        judged as f64 / time_of(all).as_secs_f64()
    };
    Rates {
        statements,
        ours: a_second(&|case, request| portal::judge(&case.stored, &lent(request)).is_ok()),
        oracle: a_second(&|case, request| oracle::judge(&case.stored, request).is_ok()),
        oracle_read_before: a_second(&|case, request| {
            oracle::judge::judge_table(&case.table, request) == oracle::Verdict::Allowed
        }),
        bytes: cases.iter().map(|case| case.stored.len()).sum::<usize>() / cases.len(),
        allowed,
        judged,
        differences,
    }
}

pub fn text(rates: &[Rates]) -> String {
    let header = ["statements", "bytes", "allowed", "ours", "oracle", "x", "oracle, table read before"];
    let mut rows = vec![header.map(String::from).to_vec()];
    for one in rates {
        rows.push(vec![
            one.statements.to_string(),
            one.bytes.to_string(),
            format!("{} of {}", one.allowed, one.judged),
            format!("{:.0}", one.ours),
            format!("{:.0}", one.oracle),
            table::digits(one.ours / one.oracle),
            format!("{:.0}", one.oracle_read_before),
        ]);
    }
    table::aligned(&rows)
}
