//! Right policies: statements are drawn as they are stored, so that the table is known, and then said in JSON in one of
//! the ways in which they can be.

use super::tree::{member, text, Tree};
use crate::build::{network, table, value, List, Statement};
use crate::random::Random;

/// A policy and the table that it makes.
#[derive(Clone, Debug)]
pub struct Policy {
    pub tree: Tree,
    pub table: Vec<u8>,
}

pub const OPERATORS: [(&str, u8); 12] = [
    ("StringEquals", 0x01),
    ("StringNotEquals", 0x02),
    ("StringLike", 0x03),
    ("StringNotLike", 0x04),
    ("IpAddress", 0x05),
    ("NotIpAddress", 0x06),
    ("StringEqualsIfExists", 0x11),
    ("StringNotEqualsIfExists", 0x12),
    ("StringLikeIfExists", 0x13),
    ("StringNotLikeIfExists", 0x14),
    ("IpAddressIfExists", 0x15),
    ("NotIpAddressIfExists", 0x16),
];
/// Every member that a policy's objects can have.
pub const MEMBERS: [&str; 12] = [
    "Version",
    "Statement",
    "Sid",
    "Effect",
    "Principal",
    "NotPrincipal",
    "Action",
    "NotAction",
    "Resource",
    "NotResource",
    "Condition",
    "AWS",
];
pub const KEYS: [&str; 5] = ["aws:SourceVpc", "s3:prefix", "aws:SourceVpce", "aws:Referer", "aws:SourceIp"];
const ADDRESS: usize = 4;
const ELEMENTS: [&str; 3] = ["Principal", "Action", "Resource"];
/// The most conditions of a statement.
const CONDITIONS: usize = 4;

pub fn policy(random: &mut Random) -> Policy {
    let number = random.pick(&[0, 1, 1, 1, 1, 1, 2, 2, 3, 5]);
    let (stored, mut said): (Vec<Statement>, Vec<Tree>) = (0..number).map(|_| statement(random)).unzip();
    let said = if number == 1 && random.once_in(2) { said.remove(0) } else { Tree::List(said) };
    let mut members = vec![member("Version", text("2012-10-17")), member("Statement", said)];
    shuffle(random, &mut members);
    Policy { tree: Tree::Object(members), table: table(&stored) }
}

pub fn shuffle<T>(random: &mut Random, parts: &mut [T]) {
    for last in (1..parts.len()).rev() {
        parts.swap(last, random.below(last + 1));
    }
}

fn statement(random: &mut Random) -> (Statement, Tree) {
    let (effect, name) = random.pick(&[(1, "Allow"), (1, "Allow"), (0, "Deny")]);
    let mut members = vec![member("Effect", text(name))];
    let mut lists = Vec::new();
    for (column, name) in ELEMENTS.into_iter().enumerate() {
        let negated = random.once_in(5);
        let (listed, said) = values(random, column == 0);
        lists.push(List { head: vec![0x03, column as u8 + if negated { 0x10 } else { 0 }], listed });
        let said = if column == 0 { principal(random, said) } else { said };
        members.push(member(&format!("{}{name}", if negated { "Not" } else { "" }), said));
    }
    if random.once_in(3) {
        members.push(member("Sid", Tree::Text(random.pick(&SIDS).into())));
    }
    if random.once_in(2) {
        let (conditions, said) = conditions(random);
        lists.extend(conditions);
        members.push(member("Condition", said));
    }
    shuffle(random, &mut members);
    (Statement { effect, lists }, Tree::Object(members))
}

const SIDS: [&str; 7] =
    ["", "Clocks", "two words", "\u{E9}", "\u{20AC}\u{1F570}", "\0\n\x1F\"\\/\x7F", "${x}*?"];

/// `"*"` may stand alone; anything may stand under `AWS`.
fn principal(random: &mut Random, said: Tree) -> Tree {
    if said == text("*") && random.once_in(2) {
        return said;
    }
    Tree::Object(vec![member("AWS", said)])
}

/// Operators in any order, each once; under each its keys in any order, each once.
fn conditions(random: &mut Random) -> (Vec<List>, Tree) {
    let mut operators = OPERATORS;
    shuffle(random, &mut operators);
    let mut lists = Vec::new();
    let mut under_condition = Vec::new();
    for (operator, code) in operators.into_iter().take(random.below(4)) {
        let mut keys: Vec<usize> = if is_of_addresses(code) { vec![ADDRESS] } else { (0..ADDRESS).collect() };
        shuffle(random, &mut keys);
        let number = random.below(keys.len().min(2) + 1).min(CONDITIONS - lists.len());
        let mut under_operator = Vec::new();
        for &key in &keys[..number] {
            let (listed, said) = if is_of_addresses(code) { networks(random) } else { values(random, false) };
            lists.push(List { head: vec![0x04, code, key as u8], listed });
            under_operator.push((in_any_case(random, KEYS[key]), said));
        }
        under_condition.push(member(operator, Tree::Object(under_operator)));
    }
    (lists, Tree::Object(under_condition))
}

fn is_of_addresses(operator: u8) -> bool {
    matches!(operator & 0x0F, 5 | 6)
}

pub fn in_any_case(random: &mut Random, name: &str) -> Vec<u8> {
    let mut name = name.as_bytes().to_vec();
    match random.below(4) {
        0 => name.make_ascii_lowercase(),
        1 => name.make_ascii_uppercase(),
        2 => name.iter_mut().filter(|_| random.once_in(2)).for_each(|byte| *byte ^= letter_case(*byte)),
        _ => {}
    }
    name
}

/// The bit that parts the cases of a letter.
fn letter_case(byte: u8) -> u8 {
    if byte.is_ascii_alphabetic() {
        0x20
    } else {
        0
    }
}

fn values(random: &mut Random, principals: bool) -> (Vec<Vec<u8>>, Tree) {
    let number = random.pick(&[1, 1, 1, 2, 3, 6]);
    let drawn: Vec<Vec<u8>> = (0..number).map(|_| drawn_value(random, principals)).collect();
    let said = drawn.iter().cloned().map(Tree::Text).collect();
    (drawn.iter().map(|bytes| value(bytes)).collect(), alone_or_listed(random, said))
}

fn networks(random: &mut Random) -> (Vec<Vec<u8>>, Tree) {
    let number = random.pick(&[1, 1, 2, 4]);
    let (stored, said) = (0..number).map(|_| drawn_network(random)).unzip();
    (stored, alone_or_listed(random, said))
}

fn alone_or_listed(random: &mut Random, mut said: Vec<Tree>) -> Tree {
    if said.len() == 1 && random.once_in(2) {
        return said.remove(0);
    }
    Tree::List(said)
}

/// Bytes of 21 to 7E and no `${`; a principal is `*` alone or has neither `*` nor `?`.
fn drawn_value(random: &mut Random, principal: bool) -> Vec<u8> {
    if random.once_in(if principal { 2 } else { 8 }) {
        return b"*".to_vec();
    }
    let length = if random.once_in(30) { random.pick(&[127, 128]) } else { random.up_to(12) };
    let mut drawn: Vec<u8> = Vec::with_capacity(length);
    for _ in 0..length {
        let byte = random.pick(b"abzAZ019!~:/*?\"\\${}[],.-");
        let spoils = (principal && b"*?".contains(&byte)) || (byte == b'{' && drawn.last() == Some(&b'$'));
        drawn.push(if spoils { b'x' } else { byte });
    }
    drawn
}

fn drawn_network(random: &mut Random) -> (Vec<u8>, Tree) {
    let length = random.pick(&[0, 1, 7, 8, 9, 16, 24, 30, 31, 32, 32, 32]);
    let host_bits = (1u64 << (32 - length)) - 1;
    let any = random.word() as u32;
    let address = random.pick(&[0, u32::MAX, 0x0B16_212C, 0x0A00_0000, any]);
    let address = address & !(host_bits as u32);
    let [a, b, c, d] = address.to_be_bytes();
    let mut said = format!("{a}.{b}.{c}.{d}");
    if length < 32 || random.once_in(2) {
        said += &format!("/{length}");
    }
    (network(address, length), text(&said))
}
