//! Tables as people write them, said in JSON: on one line, or a member to a line.

use oracle::table::{Condition, Element, Operator, Statement, Test};
use oracle::Table;
use support::policies::{plainly, Tree};
use support::random::Random;

use super::{build, realistic};

const KEYS: [&str; 5] = ["aws:SourceVpc", "s3:prefix", "aws:SourceVpce", "aws:Referer", "aws:SourceIp"];
const ELEMENTS: [&str; 3] = ["Principal", "Action", "Resource"];
const INDENT: &str = "    ";

/// One policy in both ways of writing, and the table that both make.
pub struct Policy {
    pub compact: Vec<u8>,
    pub pretty: Vec<u8>,
    pub stored: Vec<u8>,
}

pub fn policy_of(random: &mut Random, statements: usize) -> Policy {
    let mut table = realistic::table_of(random, statements);
    table.statements.iter_mut().for_each(put_together);
    let tree = document(&table);
    let mut pretty = Vec::new();
    print(&tree, 0, &mut pretty);
    pretty.push(b'\n');
    let stored = build::stored(&table).expect("within the limits of the stored form");
    Policy { compact: plainly(&tree), pretty, stored }
}

/// A policy has each operator once, and under it each key once.
fn put_together(statement: &mut Statement) {
    let mut together: Vec<Condition> = Vec::new();
    for condition in statement.conditions.drain(..) {
        let (operator, key) = (condition.operator, condition.key);
        if together.iter().any(|other| (other.operator, other.key) == (operator, key)) {
            continue;
        }
        let behind = together.iter().rposition(|other| other.operator == operator);
        together.insert(behind.map_or(together.len(), |at| at + 1), condition);
    }
    statement.conditions = together;
}

fn object<const MEMBERS: usize>(members: [(&str, Tree); MEMBERS]) -> Tree {
    Tree::Object(members.into_iter().map(|(name, value)| (name.into(), value)).collect())
}

fn text(text: &str) -> Tree {
    Tree::Text(text.into())
}

fn document(table: &Table) -> Tree {
    let mut statements: Vec<Tree> =
        table.statements.iter().enumerate().map(|(number, one)| statement(number, one)).collect();
    let said = if statements.len() == 1 { statements.remove(0) } else { Tree::List(statements) };
    object([("Version", text("2012-10-17")), ("Statement", said)])
}

fn statement(number: usize, statement: &Statement) -> Tree {
    let effect = format!("{:?}", statement.effect);
    let mut members = vec![
        (b"Sid".to_vec(), Tree::Text(format!("{effect}Rule{}", number + 1).into())),
        (b"Effect".to_vec(), text(&effect)),
    ];
    for (name, element) in ELEMENTS.into_iter().zip(&statement.elements) {
        let form = if element.negated { "Not" } else { "" };
        let said = if name == ELEMENTS[0] { principal(element) } else { strings(element.values.clone()) };
        members.push((format!("{form}{name}").into(), said));
    }
    if !statement.conditions.is_empty() {
        members.push((b"Condition".to_vec(), conditions(&statement.conditions)));
    }
    Tree::Object(members)
}

fn principal(element: &Element) -> Tree {
    if element.values == [b"*"] {
        return text("*");
    }
    object([("AWS", strings(element.values.clone()))])
}

fn strings(mut values: Vec<Vec<u8>>) -> Tree {
    if values.len() == 1 {
        return Tree::Text(values.remove(0));
    }
    Tree::List(values.into_iter().map(Tree::Text).collect())
}

fn conditions(conditions: &[Condition]) -> Tree {
    let mut operators: Vec<(Vec<u8>, Tree)> = Vec::new();
    for under in conditions.chunk_by(|one, other| one.operator == other.operator) {
        let keys = under.iter().map(|condition| (KEYS[condition.key as usize].into(), listed(condition)));
        operators.push((operator_name(under[0].operator).into(), Tree::Object(keys.collect())));
    }
    Tree::Object(operators)
}

fn listed(condition: &Condition) -> Tree {
    let networks = condition.networks.iter().map(|network| {
        let [a, b, c, d] = network.address.to_be_bytes();
        format!("{a}.{b}.{c}.{d}/{}", network.length).into_bytes()
    });
    strings(condition.values.iter().cloned().chain(networks).collect())
}

fn operator_name(operator: Operator) -> String {
    let name = match (operator.test, operator.negated) {
        (Test::StringEquals, false) => "StringEquals",
        (Test::StringEquals, true) => "StringNotEquals",
        (Test::StringLike, false) => "StringLike",
        (Test::StringLike, true) => "StringNotLike",
        (Test::IpAddress, false) => "IpAddress",
        (Test::IpAddress, true) => "NotIpAddress",
    };
    format!("{name}{}", if operator.if_exists { "IfExists" } else { "" })
}

/// A member or an element to a line.
fn print(tree: &Tree, depth: usize, out: &mut Vec<u8>) {
    match tree {
        Tree::Object(members) => {
            out.push(b'{');
            for (number, (name, value)) in members.iter().enumerate() {
                line(number > 0, depth + 1, out);
                out.extend(plainly(&Tree::Text(name.clone())));
                out.extend(b": ");
                print(value, depth + 1, out);
            }
            line(false, depth, out);
            out.push(b'}');
        }
        Tree::List(elements) => {
            out.push(b'[');
            for (number, element) in elements.iter().enumerate() {
                line(number > 0, depth + 1, out);
                print(element, depth + 1, out);
            }
            line(false, depth, out);
            out.push(b']');
        }
        _ => out.extend(plainly(tree)),
    }
}

/// Begins a line, behind a comma if there was another one.
fn line(goes_on: bool, depth: usize, out: &mut Vec<u8>) {
    out.extend(if goes_on { &b",\n"[..] } else { b"\n" });
    out.extend(INDENT.repeat(depth).bytes());
}

#[cfg(test)]
mod tests {
    use super::*;

    #[test]
    fn both_ways_make_the_table() {
        let mut random = Random::new(1);
        for statements in [1, 2, 8, 32] {
            for _ in 0..50 {
                let Policy { compact, pretty, stored } = policy_of(&mut random, statements);
                for text in [compact, pretty] {
                    let mut table = vec![0; stored.len()];
                    assert_eq!(oracle::read_json(&text, &mut table), Ok(stored.len()));
                    assert!(table == stored, "{}", String::from_utf8_lossy(&text));
                }
            }
        }
    }

    #[test]
    fn as_people_write_them() {
        let tree = object([("a", text("b")), ("c", strings(vec![b"d".to_vec(), b"e".to_vec()]))]);
        let mut out = Vec::new();
        print(&tree, 0, &mut out);
        let lines =
            ["{", r#"    "a": "b","#, r#"    "c": ["#, r#"        "d","#, r#"        "e""#, "    ]", "}"];
        assert_eq!(String::from_utf8(out).unwrap(), lines.join("\n"));
    }
}
