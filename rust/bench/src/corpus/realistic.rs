//! Tables as people write them: ARN-like principals and resources, actions by service, keys and networks.

use oracle::table::{Effect, Key, Statement};
use oracle::Table;
use support::random::Random;

use super::build::*;

const ACCOUNTS: [&str; 3] = ["123456789012", "210987654321", "555500001111"];
const ROLES: [&str; 5] = ["reader", "writer", "operator", "audit", "build"];
const ACTIONS: [&str; 14] = [
    "s3:GetObject",
    "s3:PutObject",
    "s3:DeleteObject",
    "s3:ListBucket",
    "s3:Get*",
    "s3:List*",
    "s3:*",
    "sqs:SendMessage",
    "sqs:*Message",
    "sqs:Receive*",
    "dynamodb:GetItem",
    "dynamodb:*Item",
    "kms:Decrypt",
    "logs:Put*",
];
const BUCKETS: [&str; 4] = ["invoices", "clock-data", "exports", "logs"];
const FOLDERS: [&str; 6] = ["2024/", "2025/", "raw/", "home/", "public/", "tmp/"];
const VPCS: [&str; 4] = ["vpc-111bbb222", "vpc-0a1b2c3d", "vpc-*", "vpc-0a*"];
const PREFIXES: [&str; 5] = ["home/*", "home/alice/*", "public/*", "raw/2025-??/*", "*"];
const ENDPOINTS: [&str; 4] = ["vpce-1a2b3c4d", "vpce-9f8e7d6c", "vpce-1*", "vpce-*"];
const REFERERS: [&str; 4] =
    ["https://portal.example.org/*", "https://*.example.org/*", "http*://intern/*", "https://*"];
const NETWORKS: [([u8; 4], u8); 8] = [
    ([10, 0, 0, 0], 8),
    ([10, 20, 0, 0], 16),
    ([10, 20, 30, 0], 24),
    ([192, 168, 0, 0], 16),
    ([192, 168, 17, 0], 24),
    ([203, 0, 113, 0], 24),
    ([203, 0, 113, 128], 25),
    ([0, 0, 0, 0], 0),
];

/// One third apart, one third the second tightened, one third the first tightened.
pub fn pair(random: &mut Random) -> (String, Table, Table) {
    let number = random.up_to(6);
    let first = table_of(random, number);
    match random.below(3) {
        0 => {
            let number = random.up_to(6);
            ("apart".to_string(), first, table_of(random, number))
        }
        1 => {
            let tighter = tightened(random, &first);
            ("tightened".to_string(), first, tighter)
        }
        _ => {
            let tighter = tightened(random, &first);
            ("loosened".to_string(), tighter, first)
        }
    }
}

pub fn table_of(random: &mut Random, statements: usize) -> Table {
    Table { statements: (0..statements).map(|at| drawn_statement(random, at == 0)).collect() }
}

pub fn drawn_statement(random: &mut Random, allows: bool) -> Statement {
    let effect = if !allows && random.once_in(4) { Effect::Deny } else { Effect::Allow };
    let principals = listed(random, 2, principal);
    let actions = listed(random, 3, |random| random.pick(&ACTIONS).to_string());
    let resources = listed(random, 2, resource);
    let borrowed = |strings: &[String]| strings.iter().map(|string| string.as_bytes().to_vec()).collect();
    let mut statement = statement(effect, &[], &[], &[]);
    for (element, strings) in statement.elements.iter_mut().zip([principals, actions, resources]) {
        element.values = borrowed(&strings);
    }
    if effect == Effect::Deny && random.once_in(3) {
        statement.elements[random.below(3)].negated = true;
    }
    for _ in 0..random.below(3) {
        statement.conditions.push(condition(random));
    }
    statement
}

fn listed(random: &mut Random, most: usize, mut draw: impl FnMut(&mut Random) -> String) -> Vec<String> {
    (0..random.up_to(most)).map(|_| draw(random)).collect()
}

fn principal(random: &mut Random) -> String {
    if random.once_in(3) {
        return "*".to_string();
    }
    format!("arn:aws:iam::{}:role/{}", random.pick(&ACCOUNTS), random.pick(&ROLES))
}

fn resource(random: &mut Random) -> String {
    let bucket = random.pick(&BUCKETS);
    match random.below(8) {
        0 => "*".to_string(),
        1 => format!("arn:aws:s3:::{bucket}"),
        2 => format!("arn:aws:s3:::{bucket}*"),
        3 => format!("arn:aws:s3:::{bucket}/*.csv"),
        4 => format!("arn:aws:s3:::{bucket}/20??/*"),
        5 => format!("arn:aws:sqs:*:{}:{bucket}", random.pick(&ACCOUNTS)),
        _ => format!("arn:aws:s3:::{bucket}/{}*", random.pick(&FOLDERS)),
    }
}

fn condition(random: &mut Random) -> oracle::table::Condition {
    let form = if random.once_in(3) { IF_EXISTS } else { 0 };
    if random.once_in(3) {
        let operator = if random.once_in(4) { NOT_IP_ADDRESS } else { IP_ADDRESS };
        let drawn: Vec<_> = (0..random.up_to(3)).map(|_| random.pick(&NETWORKS)).collect();
        return networks(form + operator, &drawn);
    }
    let (key, from): (Key, &[&str]) = match random.below(4) {
        0 => (Key::SourceVpc, &VPCS),
        1 => (Key::Prefix, &PREFIXES),
        2 => (Key::SourceVpce, &ENDPOINTS),
        _ => (Key::Referer, &REFERERS),
    };
    let operator =
        random.pick(&[STRING_LIKE, STRING_LIKE, STRING_EQUALS, STRING_NOT_LIKE, STRING_NOT_EQUALS]);
    let drawn: Vec<&str> = (0..random.up_to(2)).map(|_| random.pick(from)).collect();
    strings(form + operator, key, &drawn)
}

/// The same table with one thing taken away: a condition more, a value less, a value without its wildcard, or a deny more.
fn tightened(random: &mut Random, table: &Table) -> Table {
    let mut tighter = table.clone();
    let at = random.below(tighter.statements.len());
    let statement = &mut tighter.statements[at];
    let column = 1 + random.below(2);
    let values = &mut statement.elements[column].values;
    match random.below(4) {
        0 if statement.conditions.len() < 4 => statement.conditions.push(condition(random)),
        1 if values.len() > 1 => drop(values.pop()),
        2 if values[0].len() > 1 && values[0].ends_with(b"*") => drop(values[0].pop()),
        _ => {
            let mut more = drawn_statement(random, true);
            more.effect = Effect::Deny;
            tighter.statements.push(more);
        }
    }
    tighter
}
