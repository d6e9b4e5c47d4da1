//! Judging: one request by one table.

use crate::limits;
use crate::matching::{matches, network_holds, Reading};
use crate::table::{read, Condition, Effect, Element, ElementColumn, Refusal, Statement, Table, Test};

#[derive(Clone, Debug, PartialEq, Eq, Default)]
pub struct Request {
    pub principal: Vec<u8>,
    pub action: Vec<u8>,
    pub resource: Vec<u8>,
    /// By key code 0 to 3.
    pub keys: [Option<Vec<u8>>; 4],
    pub address: Option<u32>,
}

#[derive(Clone, Copy, Debug, PartialEq, Eq, Hash)]
pub enum Verdict {
    Allowed,
    DeniedByRule,
    NotMentioned,
}

/// "Judging: the table, then 9 by column."
pub fn judge(table: &[u8], request: &Request) -> Result<Verdict, Refusal> {
    let table = read(table)?;
    request.check()?;
    Ok(judge_table(&table, request))
}

/// The verdict of a table that reads, on a request that is not refused.
pub fn judge_table(table: &Table, request: &Request) -> Verdict {
    let some_applies = |effect: Effect| {
        let mut statements = table.statements.iter();
        statements.any(|statement| statement.effect == effect && applies(statement, request))
    };
    if some_applies(Effect::Deny) {
        Verdict::DeniedByRule
    } else if some_applies(Effect::Allow) {
        Verdict::Allowed
    } else {
        Verdict::NotMentioned
    }
}

/// "A statement applies if its three elements and all its conditions hold."
pub fn applies(statement: &Statement, request: &Request) -> bool {
    let elements_hold = ElementColumn::ALL.into_iter().all(|column| {
        let string = request.string(column as usize).expect("an element column is present");
        element_holds(&statement.elements[column as usize], column, string)
    });
    elements_hold
        && statement.conditions.iter().all(|condition| {
            if condition.key.is_address() {
                address_condition_holds(condition, request.address)
            } else {
                string_condition_holds(condition, request.string(condition.key.column()))
            }
        })
}

/// "A column element holds if some listed value matches; a Not-form holds if none does."
pub fn element_holds(element: &Element, column: ElementColumn, string: &[u8]) -> bool {
    let mut values = element.values.iter();
    let some_match = values.any(|value| matches(value, column_reading(column), string));
    some_match != element.negated
}

pub fn string_condition_holds(condition: &Condition, string: Option<&[u8]>) -> bool {
    let Some(string) = string else {
        return condition.operator.if_exists;
    };
    let reading = test_reading(condition.operator.test);
    let mut values = condition.values.iter();
    let some_match = values.any(|value| matches(value, reading, string));
    some_match != condition.operator.negated
}

pub fn address_condition_holds(condition: &Condition, address: Option<u32>) -> bool {
    let Some(address) = address else {
        return condition.operator.if_exists;
    };
    let mut networks = condition.networks.iter();
    let some_match = networks.any(|network| network_holds(network, address));
    some_match != condition.operator.negated
}

pub fn column_reading(column: ElementColumn) -> Reading {
    match column {
        ElementColumn::Principal => Reading::Principal,
        ElementColumn::Action => Reading::Fold,
        ElementColumn::Resource => Reading::Plain,
    }
}

pub fn test_reading(test: Test) -> Reading {
    match test {
        Test::StringEquals => Reading::Literal,
        Test::StringLike => Reading::Plain,
        Test::IpAddress => unreachable!("networks are not read as strings"),
    }
}

impl Request {
    /// The string in one of columns 0 to 6, None when it is absent.
    pub fn string(&self, column: usize) -> Option<&[u8]> {
        match column {
            0 => Some(&self.principal),
            1 => Some(&self.action),
            2 => Some(&self.resource),
            _ => self.keys[column - limits::ELEMENT_COLUMNS].as_deref(),
        }
    }

    /// 9: "column 0 to 2 empty, or a byte out of range".
    pub fn check(&self) -> Result<(), Refusal> {
        for column in 0..limits::STRING_COLUMNS {
            let Some(string) = self.string(column) else {
                continue;
            };
            let may_be_empty = column >= limits::ELEMENT_COLUMNS;
            let in_range = string.iter().all(|&byte| limits::is_string_byte(byte));
            if !in_range || (string.is_empty() && !may_be_empty) {
                return Err(Refusal { number: 9, place: column });
            }
        }
        Ok(())
    }
}
