//! The records that a document makes, in the order of the table: the first one that is refused decides, with the place
//! of the JSON value it comes from.

use super::members::{ConditionText, Document, Listed, StatementText, Text};
use super::names;
use super::network::network;
use crate::limits;
use crate::table::{ElementColumn, Item, Progress, Refusal};

/// The whole table of a document, of whatever length.
pub fn table(document: &Document) -> Result<Vec<u8>, Refusal> {
    let mut draft = Draft { progress: Progress::fresh(), bytes: Vec::new() };
    let announced = u8::try_from(document.statements.len()).unwrap_or(u8::MAX);
    draft.take(Item::Start(announced), document.place)?;
    for statement in &document.statements {
        draft.statement(statement)?;
    }
    draft.take(Item::End, document.place)?;
    Ok(draft.bytes)
}

/// A table as far as it has been written, with no limit on its bytes.
struct Draft {
    progress: Progress,
    bytes: Vec<u8>,
}

impl Draft {
    fn take(&mut self, item: Item, place: usize) -> Result<(), Refusal> {
        self.progress = self.progress.admit_item(&item).map_err(|number| Refusal { number, place })?;
        self.bytes.extend(item.encode());
        Ok(())
    }

    fn statement(&mut self, statement: &StatementText) -> Result<(), Refusal> {
        let Text { place, bytes } = statement.effect;
        let effect = names::effect(bytes).ok_or(Refusal { number: 3, place })?;
        self.take(Item::Statement(effect), place)?;
        for (column, element) in ElementColumn::ALL.into_iter().zip(&statement.elements) {
            let negated = element.negated;
            self.take(Item::Column { column, negated }, element.listed.place)?;
            self.list(&element.listed, value)?;
        }
        for ConditionText { operator, key, listed } in &statement.conditions {
            self.take(Item::Condition { operator: *operator, key: *key }, listed.place)?;
            self.list(listed, if operator.takes_networks() { network_item } else { value })?;
        }
        Ok(())
    }

    /// "An empty list: 5 at its `[`, when its first value would be due."
    fn list(&mut self, listed: &Listed, item: fn(&[u8]) -> Item) -> Result<(), Refusal> {
        if listed.texts.is_empty() {
            return Err(Refusal { number: 5, place: listed.place });
        }
        for text in &listed.texts {
            self.take(item(text.bytes), text.place)?;
        }
        Ok(())
    }
}

fn value(text: &[u8]) -> Item {
    Item::Value(text.to_vec())
}

/// A text of no bytes or of over 128 is refused by its length as a value is, before anything else of it is asked.
fn network_item(text: &[u8]) -> Item {
    if (1..=limits::VALUE_BYTES).contains(&text.len()) {
        Item::Network(network(text))
    } else {
        value(text)
    }
}
