//! Tables put together from their parts, and written in the stored form by the oracle's writer.

use oracle::limits;
use oracle::table::{Condition, Effect, Element, Key, Network, Operator, Statement, Table};
use oracle::Writer;

/// Operator codes (RULES 2.4).
pub const STRING_EQUALS: u8 = 1;
pub const STRING_NOT_EQUALS: u8 = 2;
pub const STRING_LIKE: u8 = 3;
pub const STRING_NOT_LIKE: u8 = 4;
pub const IP_ADDRESS: u8 = 5;
pub const NOT_IP_ADDRESS: u8 = 6;
pub const IF_EXISTS: u8 = 0x10;

pub const EVERYTHING: &[&str] = &["*"];

pub fn element(values: &[&str]) -> Element {
    Element { negated: false, values: values.iter().map(|value| value.as_bytes().to_vec()).collect() }
}

pub fn statement(effect: Effect, principals: &[&str], actions: &[&str], resources: &[&str]) -> Statement {
    let elements = [element(principals), element(actions), element(resources)];
    Statement { effect, elements, conditions: Vec::new() }
}

pub fn allow(principals: &[&str], actions: &[&str], resources: &[&str]) -> Statement {
    statement(Effect::Allow, principals, actions, resources)
}

pub fn deny(principals: &[&str], actions: &[&str], resources: &[&str]) -> Statement {
    statement(Effect::Deny, principals, actions, resources)
}

pub fn when(mut statement: Statement, condition: Condition) -> Statement {
    statement.conditions.push(condition);
    statement
}

fn operator(code: u8) -> Operator {
    Operator::from_code(code).expect("one of the twelve operator codes")
}

pub fn strings(code: u8, key: Key, values: &[&str]) -> Condition {
    let values = values.iter().map(|value| value.as_bytes().to_vec()).collect();
    Condition { operator: operator(code), key, values, networks: Vec::new() }
}

pub fn networks(code: u8, networks: &[([u8; 4], u8)]) -> Condition {
    let network = |&(parts, length): &([u8; 4], u8)| Network { address: u32::from_be_bytes(parts), length };
    let networks = networks.iter().map(network).collect();
    Condition { operator: operator(code), key: Key::SourceIp, values: Vec::new(), networks }
}

pub fn table(statements: &[Statement]) -> Table {
    Table { statements: statements.to_vec() }
}

/// The stored form, or None where the table is past a limit of it.
pub fn stored(table: &Table) -> Option<Vec<u8>> {
    let mut bytes = vec![0; limits::TABLE_BYTES];
    let mut writer = Writer::new();
    for item in table.items() {
        writer.take(&item, &mut bytes).ok()?;
    }
    bytes.truncate(writer.length());
    Some(bytes)
}
