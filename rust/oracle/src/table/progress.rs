//! Which record may come next, and by which number another is refused: the reader and the writer ask here.

use super::records::{record_length, Kind};
use super::{ElementColumn, Item, Network};
use crate::limits;

#[derive(Clone, Copy, Debug, PartialEq, Eq)]
enum List {
    Element(ElementColumn),
    Condition { networks: bool },
}

/// What the last record was, as far as it decides what may follow.
#[derive(Clone, Copy, Debug, PartialEq, Eq)]
enum Turn {
    Nothing,
    Started,
    StatementOpened,
    In { list: List, empty: bool },
    Ended,
}

/// Where a table stands after some of its records. Each item gives a new one, so a refused item changes nothing.
#[derive(Clone, Copy, Debug, PartialEq, Eq)]
pub struct Progress {
    turn: Turn,
    statements_left: u8,
    /// Values and networks of the statement at hand.
    listed: usize,
    /// Conditions of the statement at hand.
    conditions: usize,
}

impl Progress {
    pub fn fresh() -> Progress {
        Progress { turn: Turn::Nothing, statements_left: 0, listed: 0, conditions: 0 }
    }

    pub fn is_ended(&self) -> bool {
        self.turn == Turn::Ended
    }

    /// The record at the start of `rest`, its length, and the progress behind it, in the order of RULES 7.1:
    /// after 05, unknown kind, empty list, out of turn, cut, unknown code, then `check_item`.
    pub fn admit(&self, rest: &[u8]) -> Result<(Item, usize, Progress), u8> {
        if self.is_ended() {
            return Err(4);
        }
        let kind = Kind::of(rest[0]).ok_or(3)?;
        self.check_turn(kind)?;
        let length = record_length(rest[0]).ok_or(3)?;
        let record = rest.get(..length).ok_or(2)?;
        let item = Item::decode(kind, &record[1..]).ok_or(3)?;
        self.check_item(&item)?;
        let next = self.after(&item);
        Ok((item, length, next))
    }

    /// As `admit`, for an item that has no bytes yet: it is never cut and its codes are known.
    pub fn admit_item(&self, item: &Item) -> Result<Progress, u8> {
        self.check_turn(item.kind())?;
        self.check_item(item)?;
        Ok(self.after(item))
    }

    /// 4 behind 05; "list still empty and the record neither value nor network 5"; "out of turn 4".
    fn check_turn(&self, kind: Kind) -> Result<(), u8> {
        let fills_list = matches!(kind, Kind::Value | Kind::Network);
        let list_is_empty = matches!(self.turn, Turn::In { empty: true, .. });
        if list_is_empty && !fills_list {
            return Err(5);
        }
        if !self.has_place_for(kind) {
            return Err(4);
        }
        Ok(())
    }

    /// Looks at the record order and the announced count alone; a list at hand has a value.
    fn has_place_for(&self, kind: Kind) -> bool {
        let statement_may_end = match self.turn {
            Turn::Nothing => return kind == Kind::Start,
            Turn::Ended => return false,
            Turn::StatementOpened => return kind == Kind::Column,
            Turn::Started => true,
            Turn::In { list, .. } => follows_resource(list),
        };
        let in_list = self.turn != Turn::Started;
        match kind {
            Kind::Value | Kind::Network => in_list,
            Kind::Column => in_list && !statement_may_end,
            Kind::Condition => in_list && statement_may_end,
            Kind::Statement => statement_may_end && self.statements_left > 0,
            Kind::End => statement_may_end && self.statements_left == 0,
            Kind::Start => false,
        }
    }

    /// "Column out of turn or repeated 4; 6; 7; 8."
    fn check_item(&self, item: &Item) -> Result<(), u8> {
        if self.is_column_out_of_turn(item) {
            return Err(4);
        }
        if self.passes_a_bound(item) {
            return Err(6);
        }
        if has_byte_out_of_range(item) {
            return Err(7);
        }
        if self.is_unfit(item) {
            return Err(8);
        }
        Ok(())
    }

    fn is_column_out_of_turn(&self, item: &Item) -> bool {
        let Item::Column { column, .. } = item else {
            return false;
        };
        let due = match self.turn {
            Turn::In { list: List::Element(ElementColumn::Principal), .. } => ElementColumn::Action,
            Turn::In { list: List::Element(ElementColumn::Action), .. } => ElementColumn::Resource,
            _ => ElementColumn::Principal,
        };
        *column != due
    }

    fn passes_a_bound(&self, item: &Item) -> bool {
        match item {
            Item::Start(announced) => *announced > limits::STATEMENTS,
            Item::Condition { .. } => self.conditions == limits::CONDITIONS,
            Item::Network(_) => self.listed == limits::LISTED,
            Item::Value(value) => {
                let length_fits = (1..=limits::VALUE_BYTES).contains(&value.len());
                self.listed == limits::LISTED || !length_fits
            }
            _ => false,
        }
    }

    fn is_unfit(&self, item: &Item) -> bool {
        let list = match self.turn {
            Turn::In { list, .. } => Some(list),
            _ => None,
        };
        let takes_networks = list == Some(List::Condition { networks: true });
        let is_principal = list == Some(List::Element(ElementColumn::Principal));
        match item {
            Item::Condition { operator, key } => operator.takes_networks() != key.is_address(),
            Item::Network(network) => !takes_networks || !is_network(network),
            Item::Value(value) => {
                takes_networks
                    || value.windows(2).any(|pair| pair == b"${")
                    || (is_principal && !is_principal_value(value))
            }
            _ => false,
        }
    }

    fn after(&self, item: &Item) -> Progress {
        let mut next = *self;
        match item {
            Item::Start(announced) => {
                next.turn = Turn::Started;
                next.statements_left = *announced;
            }
            Item::Statement(_) => {
                next.turn = Turn::StatementOpened;
                next.statements_left -= 1;
                next.listed = 0;
                next.conditions = 0;
            }
            Item::Column { column, .. } => next.turn = opened(List::Element(*column)),
            Item::Condition { operator, .. } => {
                let networks = operator.takes_networks();
                next.turn = opened(List::Condition { networks });
                next.conditions += 1;
            }
            Item::Value(_) | Item::Network(_) => {
                next.listed += 1;
                if let Turn::In { empty, .. } = &mut next.turn {
                    *empty = false;
                }
            }
            Item::End => next.turn = Turn::Ended,
        }
        next
    }
}

fn opened(list: List) -> Turn {
    Turn::In { list, empty: true }
}

/// Behind the resource list, and behind any condition list, the statement may end.
fn follows_resource(list: List) -> bool {
    !matches!(list, List::Element(ElementColumn::Principal) | List::Element(ElementColumn::Action))
}

fn has_byte_out_of_range(item: &Item) -> bool {
    match item {
        Item::Value(value) => value.iter().any(|&byte| !limits::is_string_byte(byte)),
        _ => false,
    }
}

/// "A principal value is `*` alone, meaning everyone, or is compared byte for byte."
fn is_principal_value(value: &[u8]) -> bool {
    value == b"*" || !value.iter().any(|byte| b"*?".contains(byte))
}

/// "The bits after the length are zero in the table."
fn is_network(network: &Network) -> bool {
    network.length <= 32 && (network.length..32).all(|bit| network.address >> (31 - bit) & 1 == 0)
}
