//! A table as plain data, and the items that stand for its records one by one.

mod codes;
mod progress;
mod reader;
mod records;
mod writer;

pub use codes::{Effect, ElementColumn, Key, Operator, Test};
pub(crate) use progress::Progress;
pub use reader::{read, read_items};
pub use records::{record_length, Kind};
pub use writer::Writer;

/// Why and where: RULES 7.
#[derive(Clone, Copy, Debug, PartialEq, Eq, Hash)]
pub struct Refusal {
    pub number: u8,
    pub place: usize,
}

#[derive(Clone, Debug, PartialEq, Eq, Default)]
pub struct Table {
    pub statements: Vec<Statement>,
}

#[derive(Clone, Debug, PartialEq, Eq)]
pub struct Statement {
    pub effect: Effect,
    /// Principal, action, resource.
    pub elements: [Element; 3],
    pub conditions: Vec<Condition>,
}

#[derive(Clone, Debug, PartialEq, Eq, Default)]
pub struct Element {
    /// A Not-form: holds if none of the values matches.
    pub negated: bool,
    pub values: Vec<Vec<u8>>,
}

/// A condition lists values for a string key and networks for the address; the other list is empty.
#[derive(Clone, Debug, PartialEq, Eq)]
pub struct Condition {
    pub operator: Operator,
    pub key: Key,
    pub values: Vec<Vec<u8>>,
    pub networks: Vec<Network>,
}

#[derive(Clone, Copy, Debug, PartialEq, Eq, Hash)]
pub struct Network {
    pub address: u32,
    pub length: u8,
}

/// One record. A value may be of any length here, since the writer is asked about those too.
#[derive(Clone, Debug, PartialEq, Eq)]
pub enum Item {
    Start(u8),
    Statement(Effect),
    Column { column: ElementColumn, negated: bool },
    Condition { operator: Operator, key: Key },
    Value(Vec<u8>),
    Network(Network),
    End,
}

impl Table {
    /// The table that a whole list of items, as the reader gives it, describes.
    pub fn from_items(items: &[Item]) -> Table {
        let mut statements: Vec<Statement> = Vec::new();
        let mut open_column = 0;
        for item in items {
            match item {
                Item::Start(_) | Item::End => {}
                Item::Statement(effect) => statements.push(Statement::of(*effect)),
                Item::Column { column, negated } => {
                    open_column = *column as usize;
                    last(&mut statements).elements[open_column].negated = *negated;
                }
                Item::Condition { operator, key } => {
                    let condition = Condition::of(*operator, *key);
                    last(&mut statements).conditions.push(condition);
                }
                Item::Value(value) => last(&mut statements).add_value(open_column, value),
                Item::Network(network) => {
                    let conditions = &mut last(&mut statements).conditions;
                    last(conditions).networks.push(*network);
                }
            }
        }
        Table { statements }
    }

    /// The items of the table's records in order.
    pub fn items(&self) -> Vec<Item> {
        let mut items = vec![Item::Start(self.statements.len() as u8)];
        for statement in &self.statements {
            items.push(Item::Statement(statement.effect));
            for (column, element) in ElementColumn::ALL.into_iter().zip(&statement.elements) {
                let negated = element.negated;
                items.push(Item::Column { column, negated });
                items.extend(element.values.iter().cloned().map(Item::Value));
            }
            for condition in &statement.conditions {
                let (operator, key) = (condition.operator, condition.key);
                items.push(Item::Condition { operator, key });
                items.extend(condition.values.iter().cloned().map(Item::Value));
                items.extend(condition.networks.iter().copied().map(Item::Network));
            }
        }
        items.push(Item::End);
        items
    }
}

impl Statement {
    fn of(effect: Effect) -> Statement {
        Statement { effect, elements: Default::default(), conditions: Vec::new() }
    }

    /// Conditions follow the elements, so the list at hand is the last condition's once there is one.
    fn add_value(&mut self, open_column: usize, value: &[u8]) {
        let list = match self.conditions.last_mut() {
            Some(condition) => &mut condition.values,
            None => &mut self.elements[open_column].values,
        };
        list.push(value.to_vec());
    }
}

impl Condition {
    fn of(operator: Operator, key: Key) -> Condition {
        Condition { operator, key, values: Vec::new(), networks: Vec::new() }
    }
}

/// The part that the items so far have opened; the reader admits nothing that has no place.
fn last<T>(parts: &mut [T]) -> &mut T {
    parts.last_mut().expect("an item inside a part that is open")
}
