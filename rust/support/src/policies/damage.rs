//! Faults among members and values: missing, twice, unknown, of the wrong type, past a limit, of a form that no record
//! has. Some changes are none, and leave a policy right.

use super::draw::{in_any_case, shuffle, KEYS, MEMBERS, OPERATORS};
use super::tree::{text, Member, Tree};
use crate::random::Random;

const WORDS: [&str; 8] = ["0", "-1.5e+3", "10", "0.0E-0", "1e5", "true", "false", "null"];
/// Names that no policy has there.
const STRANGE: [&str; 8] = ["Id", "Service", "", "effect", "action", "Not", "Bool", "NumericEquals"];
const TEXTS: [&str; 44] = [
    "",
    " ",
    "*",
    "**",
    "?",
    "a*",
    "a b",
    "\u{E9}",
    "\u{1F570}",
    "\x7F",
    "\0",
    "\x1F",
    "${aws:username}",
    "$",
    "{",
    "$${",
    "Allow",
    "Deny",
    "allow",
    "Permit",
    "2012-10-17",
    "2008-10-17",
    "arn:clock",
    "1.2.3.4",
    "1.2.3.4/32",
    "10.0.0.0/8",
    "10.0.0.1/8",
    "0.0.0.0/0",
    "0.0.0.1/31",
    "0.0.0.0/33",
    "0.0.0.0/032",
    "01.2.3.4",
    "1.2.3",
    "1.2.3.4.5",
    "256.1.1.1",
    "1.2.3.4/",
    "1.2.3.4/-1",
    " 1.2.3.4",
    "+1.2.3.4",
    "1..3.4",
    "0.0.0.0/4294967296",
    "1.2.3.4\u{E9}",
    "::1",
    "1.2.3.4 ",
];

/// One change somewhere in the tree.
pub fn damage(random: &mut Random, tree: &mut Tree) {
    let path = tree.path_to(random.below(tree.size()));
    let node = tree.at(&path);
    if random.once_in(5) {
        *node = strange(random);
        return;
    }
    match node {
        Tree::Object(members) => damage_object(random, members),
        Tree::List(elements) => damage_list(random, elements),
        Tree::Text(bytes) => damage_text(random, bytes),
        Tree::Word(word) => *word = random.pick(&WORDS),
    }
}

/// A value of any type.
fn strange(random: &mut Random) -> Tree {
    match random.below(8) {
        0 => Tree::Object(vec![]),
        1 => Tree::List(vec![]),
        2 => Tree::List(vec![strange(random)]),
        3 => Tree::Object(vec![(name(random), strange(random))]),
        4 | 5 => Tree::Word(random.pick(&WORDS)),
        _ => text(random.pick(&TEXTS)),
    }
}

fn name(random: &mut Random) -> Vec<u8> {
    match random.below(4) {
        0 => random.pick(&OPERATORS).0.into(),
        1 => {
            let key = random.pick(&KEYS);
            in_any_case(random, key)
        }
        2 => random.pick(&TEXTS).into(),
        _ => random.pick(&[MEMBERS.as_slice(), &STRANGE].concat()).into(),
    }
}

fn damage_object(random: &mut Random, members: &mut Vec<Member>) {
    if members.is_empty() {
        return members.push((name(random), strange(random)));
    }
    let at = random.below(members.len());
    let to = random.below(members.len() + 1);
    match random.below(8) {
        0 => drop(members.remove(at)),
        1 => members.insert(to, members[at].clone()),
        2 => {
            let mut doubled = members[at].clone();
            doubled.0 = other_form(random, &doubled.0);
            members.insert(to, doubled);
        }
        3 => members[at].0 = other_form(random, &members[at].0),
        4 => members[at].0 = name(random),
        5 => members.insert(to, (name(random), members[at].1.clone())),
        6 => members.insert(to, (name(random), strange(random))),
        _ => shuffle(random, members),
    }
}

/// The form for a Not-form and the other way round, another case, or a byte more or less.
fn other_form(random: &mut Random, name: &[u8]) -> Vec<u8> {
    let said = String::from_utf8_lossy(name).into_owned();
    match random.below(5) {
        0 | 1 => match name.strip_prefix(b"Not") {
            Some(form) => form.to_vec(),
            None => [b"Not", name].concat(),
        },
        2 => in_any_case(random, &said),
        3 => [name, random.pick(&["IfExists", " ", "s", "\0", "\u{E9}"]).as_bytes()].concat(),
        _ => said.chars().skip(1).collect::<String>().into(),
    }
}

fn damage_list(random: &mut Random, elements: &mut Vec<Tree>) {
    if elements.is_empty() {
        return elements.push(strange(random));
    }
    let at = random.below(elements.len());
    let to = random.below(elements.len() + 1);
    match random.below(7) {
        0 => elements.clear(),
        1 => drop(elements.remove(at)),
        2 => elements.insert(to, strange(random)),
        3 => elements[at] = Tree::List(vec![elements[at].clone()]),
        // To about as many as a list may have: 32 statements, 64 values.
        4 | 5 => {
            let number = if matches!(elements[at], Tree::Object(_)) { 33 } else { 66 };
            let number = number - random.below(6);
            let more = number.saturating_sub(elements.len());
            elements.splice(to..to, vec![elements[at].clone(); more]);
        }
        _ => shuffle(random, elements),
    }
}

fn damage_text(random: &mut Random, bytes: &mut Vec<u8>) {
    match random.below(4) {
        0 | 1 => *bytes = random.pick(&TEXTS).into(),
        // To about as many bytes as a value may have.
        2 => bytes.resize(126 + random.below(5), b'x'),
        _ => {
            let said = String::from_utf8_lossy(bytes).into_owned();
            let at = random.below(said.chars().count() + 1);
            let inserted = random.pick(&["*", "?", " ", "${", "$", "\u{E9}", "0", "/", ".", "\0", "a"]);
            let (before, after): (String, String) =
                (said.chars().take(at).collect(), said.chars().skip(at).collect());
            *bytes = [before, inserted.into(), after].concat().into();
        }
    }
}
