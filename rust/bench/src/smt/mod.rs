//! The question "is there a request that the first table allows and the second does not?" as SMT-LIB text.
//!
//! Columns 0 to 6 are strings, column 7 a bit vector of 32 bits; a column that may be absent has a Boolean beside it. A key
//! that neither table names is left out. Actions ignore case: their values are written in lower case, and the action ranges over
//! strings without capital letters, which asks the same, since the verdict on an action is that on its lower case.

mod formula;
mod pieces;
mod regular;

use crate::corpus::Pair;
use formula::{all, any, literal, not};
use oracle::table::{Condition, Effect, Element, Network, Statement, Test};
use oracle::{limits, Table};

/// How a value with wildcards is written.
#[derive(Clone, Copy, Debug, PartialEq, Eq, Hash)]
pub enum Values {
    /// Source 001, section 2.3: a regular expression.
    Regular,
    /// Source 002, section III: prefix, suffix and contains where these are exact, else a regular expression.
    Pieces,
}

/// What a string may be.
#[derive(Clone, Copy, Debug, PartialEq, Eq, Hash)]
pub enum Alphabet {
    /// Any string of the solver's, as in both sources.
    Any,
    /// Strings of the bytes 21 to 7E (RULES 1.2).
    Exact,
}

#[derive(Clone, Copy, Debug, PartialEq, Eq, Hash)]
pub struct Encoding {
    pub values: Values,
    pub alphabet: Alphabet,
}

impl Encoding {
    pub const ALL: [Encoding; 4] = [
        Encoding { values: Values::Regular, alphabet: Alphabet::Any },
        Encoding { values: Values::Regular, alphabet: Alphabet::Exact },
        Encoding { values: Values::Pieces, alphabet: Alphabet::Any },
        Encoding { values: Values::Pieces, alphabet: Alphabet::Exact },
    ];

    pub fn name(self) -> &'static str {
        match (self.values, self.alphabet) {
            (Values::Regular, Alphabet::Any) => "001",
            (Values::Regular, Alphabet::Exact) => "001 exact",
            (Values::Pieces, Alphabet::Any) => "002",
            (Values::Pieces, Alphabet::Exact) => "002 exact",
        }
    }
}

/// The smallest question, to time a solver's start by.
pub const TRIVIAL: &str = "(set-logic ALL)\n(assert true)\n(check-sat)\n";

const VARIABLES: [&str; limits::COLUMNS] =
    ["principal", "action", "resource", "vpc", "prefix", "vpce", "referer", "address"];
/// The action column, in which case is ignored.
const ACTION: usize = 1;

pub fn question(pair: &Pair, encoding: Encoding) -> String {
    let mut text = String::from("(set-logic ALL)\n");
    for column in 0..limits::COLUMNS {
        if column < limits::ELEMENT_COLUMNS || is_named(pair, column) {
            text.push_str(&declared(column, encoding.alphabet));
        }
    }
    let [first, second] = &pair.tables;
    text.push_str(&format!("(assert {})\n", allowed(first, encoding.values)));
    text.push_str(&format!("(assert (not {}))\n", allowed(second, encoding.values)));
    text.push_str("(check-sat)\n");
    text
}

fn is_named(pair: &Pair, column: usize) -> bool {
    let statements = pair.tables.iter().flat_map(|table| &table.statements);
    statements.flat_map(|statement| &statement.conditions).any(|condition| condition.key.column() == column)
}

/// The column's variables, and which values it admits.
fn declared(column: usize, alphabet: Alphabet) -> String {
    let variable = VARIABLES[column];
    if column == limits::ADDRESS_COLUMN {
        return format!(
            "(declare-const {variable} (_ BitVec 32))\n(declare-const {variable}-present Bool)\n"
        );
    }
    let mut text = format!("(declare-const {variable} String)\n");
    let may_be_empty = column >= limits::ELEMENT_COLUMNS;
    if may_be_empty {
        text.push_str(&format!("(declare-const {variable}-present Bool)\n"));
    }
    let bytes = if column == ACTION {
        r#"(re.union (re.range "!" "@") (re.range "[" "~"))"#
    } else {
        r#"(re.range "!" "~")"#
    };
    match (alphabet, may_be_empty) {
        (Alphabet::Exact, true) => {
            text.push_str(&format!("(assert (str.in_re {variable} (re.* {bytes})))\n"))
        }
        (Alphabet::Exact, false) => {
            text.push_str(&format!("(assert (str.in_re {variable} (re.+ {bytes})))\n"))
        }
        (Alphabet::Any, true) => {}
        (Alphabet::Any, false) => text.push_str(&format!("(assert (not (= {variable} \"\")))\n")),
    }
    text
}

/// 002, equation (1): some allow statement applies and no deny statement does.
fn allowed(table: &Table, values: Values) -> String {
    let applying = |effect: Effect| {
        let statements = table.statements.iter().filter(|statement| statement.effect == effect);
        any(statements.map(|statement| applies(statement, values)).collect())
    };
    let (allow, deny) = (applying(Effect::Allow), applying(Effect::Deny));
    all(vec![allow, not(deny)])
}

/// 002, equation (2).
fn applies(statement: &Statement, values: Values) -> String {
    let elements = statement.elements.iter().enumerate();
    let mut parts: Vec<String> =
        elements.map(|(column, element)| element_holds(column, element, values)).collect();
    parts.extend(statement.conditions.iter().map(|condition| condition_holds(condition, values)));
    all(parts)
}

fn element_holds(column: usize, element: &Element, values: Values) -> String {
    let one = |value: &Vec<u8>| match column {
        0 if value != b"*" => equals(VARIABLES[column], value),
        ACTION => matches(VARIABLES[column], &value.to_ascii_lowercase(), values),
        _ => matches(VARIABLES[column], value, values),
    };
    let some = any(element.values.iter().map(one).collect());
    if element.negated {
        not(some)
    } else {
        some
    }
}

/// 002, equation (3), with "none matches" for negated operators (RULES 5.2).
fn condition_holds(condition: &Condition, values: Values) -> String {
    let variable = VARIABLES[condition.key.column()];
    let parts = match condition.operator.test {
        Test::IpAddress => condition.networks.iter().map(|network| in_network(variable, network)).collect(),
        Test::StringEquals => condition.values.iter().map(|value| equals(variable, value)).collect(),
        Test::StringLike => condition.values.iter().map(|value| matches(variable, value, values)).collect(),
    };
    let some = any(parts);
    let holds = if condition.operator.negated { not(some) } else { some };
    let present = format!("{variable}-present");
    if condition.operator.if_exists {
        any(vec![not(present), holds])
    } else {
        all(vec![present, holds])
    }
}

/// 002, equation (7).
fn in_network(variable: &str, network: &Network) -> String {
    if network.length == 0 {
        return "true".to_string();
    }
    let mask = u32::MAX << (32 - network.length);
    format!("(= (bvand {variable} #x{mask:08x}) #x{:08x})", network.address)
}

/// A value in which `*` and `?` are wild.
fn matches(variable: &str, value: &[u8], values: Values) -> String {
    if value.iter().all(|&byte| byte == b'*') {
        return "true".to_string();
    }
    if !value.contains(&b'*') && !value.contains(&b'?') {
        return equals(variable, value);
    }
    match values {
        Values::Regular => regular::matches(variable, value),
        Values::Pieces => {
            pieces::matches(variable, value).unwrap_or_else(|| regular::matches(variable, value))
        }
    }
}

fn equals(variable: &str, value: &[u8]) -> String {
    format!("(= {variable} {})", literal(value))
}

#[cfg(test)]
mod tests {
    use super::*;
    use crate::corpus::build::*;
    use oracle::table::Key;

    #[test]
    fn the_text_of_one_pair() {
        let conditions = when(
            allow(&["students"], &["getObject"], &["ab*bc"]),
            strings(STRING_NOT_EQUALS + IF_EXISTS, Key::Prefix, &["a\"*"]),
        );
        let first = table(&[conditions, deny(EVERYTHING, &["x?"], EVERYTHING)]);
        let networks = networks(IP_ADDRESS, &[([11, 22, 33, 0], 24)]);
        let second = table(&[when(allow(EVERYTHING, EVERYTHING, EVERYTHING), networks)]);
        let pair = Pair::of("example", first, second);
        let expected = r#"(set-logic ALL)
(declare-const principal String)
(assert (not (= principal "")))
(declare-const action String)
(assert (not (= action "")))
(declare-const resource String)
(assert (not (= resource "")))
(declare-const prefix String)
(declare-const prefix-present Bool)
(declare-const address (_ BitVec 32))
(declare-const address-present Bool)
(assert (and (and (= principal "students") (= action "getobject") RESOURCE (or (not prefix-present) (not (= prefix "a""*")))) (not (str.in_re action (re.++ (str.to_re "x") re.allchar)))))
(assert (not (and address-present (= (bvand address #xffffff00) #x0b162100))))
(check-sat)
"#;
        let regular = r#"(str.in_re resource (re.++ (str.to_re "ab") re.all (str.to_re "bc")))"#;
        let pieces =
            r#"(and (str.prefixof "ab" resource) (str.suffixof "bc" resource) (not (= resource "abc")))"#;
        assert_eq!(question(&pair, Encoding::ALL[0]), expected.replace("RESOURCE", regular));
        assert_eq!(question(&pair, Encoding::ALL[2]), expected.replace("RESOURCE", pieces));
        let exact = question(&pair, Encoding::ALL[1]);
        assert!(exact.contains(r#"(assert (str.in_re principal (re.+ (re.range "!" "~"))))"#), "{exact}");
        assert!(exact.contains(r#"(assert (str.in_re prefix (re.* (re.range "!" "~"))))"#), "{exact}");
    }
}
