//! The members of a policy and their types: what the document says, or the 21 or 22 with the lowest place.

use super::names::{self, Part, Top};
use super::text::{Member, Node, Value};
use crate::table::{ElementColumn, Key, Operator, Refusal};

/// A policy whose members are all there, known, once and of the right type.
pub struct Document<'a> {
    /// The place of the value of Statement.
    pub place: usize,
    pub statements: Vec<StatementText<'a>>,
}

pub struct StatementText<'a> {
    pub effect: Text<'a>,
    /// Principal, action, resource.
    pub elements: [ElementText<'a>; 3],
    pub conditions: Vec<ConditionText<'a>>,
}

pub struct ElementText<'a> {
    pub negated: bool,
    pub listed: Listed<'a>,
}

pub struct ConditionText<'a> {
    pub operator: Operator,
    pub key: Key,
    pub listed: Listed<'a>,
}

/// A string alone or a list of strings; the place is that of the string or of the `[`.
pub struct Listed<'a> {
    pub place: usize,
    pub texts: Vec<Text<'a>>,
}

#[derive(Clone, Copy)]
pub struct Text<'a> {
    pub place: usize,
    pub bytes: &'a [u8],
}

/// The members that a statement has to have.
const NEEDED: [Part; 4] = [
    Part::Effect,
    Part::Element(ElementColumn::Principal),
    Part::Element(ElementColumn::Action),
    Part::Element(ElementColumn::Resource),
];

pub fn document(tree: &Node) -> Result<Document<'_>, Refusal> {
    let mut checker = Checker { lowest: None };
    let document = checker.policy(tree);
    match checker.lowest {
        Some(refusal) => Err(refusal),
        None => Ok(document.expect("a policy without a fault")),
    }
}

/// Walks all of the tree and remembers the fault with the lowest place. Each question gives what it finds, or
/// nothing where it, or something in it, is at fault.
struct Checker {
    lowest: Option<Refusal>,
}

impl Checker {
    fn fault(&mut self, number: u8, place: usize) {
        match self.lowest {
            Some(lowest) if lowest.place <= place => {}
            _ => self.lowest = Some(Refusal { number, place }),
        }
    }

    fn wrong_type<T>(&mut self, node: &Node) -> Option<T> {
        self.fault(22, node.place);
        None
    }

    /// The members that a name stands for, each met once; 21 for the others. 22 where a needed one is not met.
    fn members<'a, S: Copy + PartialEq>(
        &mut self,
        node: &'a Node,
        meaning: impl Fn(&[u8]) -> Option<S>,
        needed: &[S],
    ) -> Option<Vec<(S, &'a Member)>> {
        let Value::Object { members, end } = &node.value else {
            return self.wrong_type(node);
        };
        let mut met: Vec<(S, &Member)> = Vec::new();
        for member in members {
            match meaning(&member.name) {
                Some(slot) if met.iter().all(|(other, _)| *other != slot) => met.push((slot, member)),
                _ => self.fault(21, member.place),
            }
        }
        if needed.iter().any(|slot| met.iter().all(|(other, _)| other != slot)) {
            self.fault(22, *end);
        }
        Some(met)
    }

    fn policy<'a>(&mut self, tree: &'a Node) -> Option<Document<'a>> {
        let mut statements = None;
        for (slot, member) in self.members(tree, names::top, &[Top::Version, Top::Statement])? {
            match slot {
                Top::Version => self.version(&member.value),
                Top::Statement => statements = self.statements(&member.value),
            }
        }
        statements
    }

    fn version(&mut self, node: &Node) {
        match self.string(node) {
            Some(text) if text.bytes != names::VERSION => self.fault(22, node.place),
            _ => {}
        }
    }

    fn statements<'a>(&mut self, node: &'a Node) -> Option<Document<'a>> {
        let statements = match &node.value {
            Value::Object { .. } => self.statement(node).map(|statement| vec![statement]),
            Value::List(nodes) => all(nodes.iter().map(|element| self.statement(element)).collect()),
            _ => self.wrong_type(node),
        };
        Some(Document { place: node.place, statements: statements? })
    }

    fn statement<'a>(&mut self, node: &'a Node) -> Option<StatementText<'a>> {
        let mut effect = None;
        let mut elements = [None, None, None];
        let mut conditions = Some(Vec::new());
        for (part, Member { name, value, .. }) in self.members(node, names::part, &NEEDED)? {
            match part {
                Part::Sid => {
                    self.string(value);
                }
                Part::Effect => effect = self.string(value),
                Part::Element(column) => {
                    let listed = match column {
                        ElementColumn::Principal => self.principal(value),
                        _ => self.strings(value),
                    };
                    let negated = names::is_not_form(name);
                    elements[column as usize] = listed.map(|listed| ElementText { negated, listed });
                }
                Part::Condition => conditions = self.conditions(value),
            }
        }
        let [principal, action, resource] = elements;
        Some(StatementText {
            effect: effect?,
            elements: [principal?, action?, resource?],
            conditions: conditions?,
        })
    }

    /// "The string `*`, or an object with the one member `AWS`."
    fn principal<'a>(&mut self, node: &'a Node) -> Option<Listed<'a>> {
        match &node.value {
            Value::String(bytes) if bytes == names::EVERYONE => self.strings(node),
            Value::Object { .. } => {
                let met = self.members(node, names::account, &[()])?;
                met.first().and_then(|(_, member)| self.strings(&member.value))
            }
            _ => self.wrong_type(node),
        }
    }

    fn conditions<'a>(&mut self, node: &'a Node) -> Option<Vec<ConditionText<'a>>> {
        let mut conditions = Vec::new();
        for (operator, under_operator) in self.members(node, names::operator, &[])? {
            for (key, under_key) in self.members(&under_operator.value, names::key, &[]).unwrap_or_default() {
                let listed = self.strings(&under_key.value);
                conditions.push(listed.map(|listed| ConditionText { operator, key, listed }));
            }
        }
        all(conditions)
    }

    fn strings<'a>(&mut self, node: &'a Node) -> Option<Listed<'a>> {
        let texts = match &node.value {
            Value::List(nodes) => all(nodes.iter().map(|element| self.string(element)).collect()),
            _ => self.string(node).map(|text| vec![text]),
        };
        Some(Listed { place: node.place, texts: texts? })
    }

    fn string<'a>(&mut self, node: &'a Node) -> Option<Text<'a>> {
        match &node.value {
            Value::String(bytes) => Some(Text { place: node.place, bytes }),
            _ => self.wrong_type(node),
        }
    }
}

/// All of them, if each is there. (Each has been asked for by now, as it must be to find every fault.)
fn all<T>(parts: Vec<Option<T>>) -> Option<Vec<T>> {
    parts.into_iter().collect()
}
