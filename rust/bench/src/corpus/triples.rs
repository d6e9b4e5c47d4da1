//! Policies as source 001 draws them in its section 3.1: statements, strings per block and length are drawn, and zero, one
//! or two wildcards spliced into each block of actions and of resources.

use oracle::limits;
use oracle::table::{Effect, Element, Statement};
use oracle::Table;
use support::random::Random;

use super::build;

/// (numStatements, numStrings, stringLength).
#[derive(Clone, Copy, Debug)]
pub struct Triple {
    pub statements: usize,
    pub strings: usize,
    pub length: usize,
}

const LETTERS: &[u8] = b"abcdefghijklmnopqrstuvwxyzABCDEFGHIJKLMNOPQRSTUVWXYZ0123456789:/-";

/// One third apart from each other, one third the second at least as wide, one third the other way round.
pub fn pair(random: &mut Random, wildcards: usize) -> (String, Table, Table) {
    let triple = drawn_triple(random, wildcards);
    let Triple { statements, strings, length } = triple;
    let name = format!("({statements}, {strings}, {length})");
    let first = policy(random, triple, wildcards);
    match random.below(3) {
        0 => (format!("{name} apart"), first, policy(random, triple, wildcards)),
        1 => {
            let wider = widened(random, &first, triple, wildcards);
            (format!("{name} widened"), first, wider)
        }
        _ => {
            let wider = widened(random, &first, triple, wildcards);
            (format!("{name} narrowed"), wider, first)
        }
    }
}

/// Both tables together stay within 512 positions in each column.
fn drawn_triple(random: &mut Random, wildcards: usize) -> Triple {
    loop {
        let triple =
            Triple { statements: random.up_to(8), strings: random.up_to(5), length: 5 + random.below(36) };
        let positions = 2 * triple.statements * (triple.strings * (triple.length + 1) + wildcards + 1);
        if positions <= limits::VALUE_SUM {
            return triple;
        }
    }
}

/// The first statement allows; of the others one in four denies.
pub fn policy(random: &mut Random, triple: Triple, wildcards: usize) -> Table {
    let statement = |at: usize| {
        let effect = if at > 0 && random.once_in(4) { Effect::Deny } else { Effect::Allow };
        let elements =
            [block(random, triple, 0), block(random, triple, wildcards), block(random, triple, wildcards)];
        Statement { effect, elements, conditions: Vec::new() }
    };
    Table { statements: (0..triple.statements).map(statement).collect() }
}

fn block(random: &mut Random, triple: Triple, wildcards: usize) -> Element {
    let mut values: Vec<Vec<u8>> = (0..triple.strings).map(|_| string(random, triple.length)).collect();
    for _ in 0..wildcards {
        splice(random, &mut values);
    }
    Element { negated: false, values }
}

pub fn string(random: &mut Random, length: usize) -> Vec<u8> {
    (0..length).map(|_| random.pick(LETTERS)).collect()
}

/// A wildcard at any place of any of the strings.
fn splice(random: &mut Random, values: &mut [Vec<u8>]) {
    let value = random.below(values.len());
    let at = random.below(values[value].len() + 1);
    values[value].insert(at, b'*');
}

/// The same policy with one block of an allow statement wider: by a wildcard more, or without wildcards by a string more.
fn widened(random: &mut Random, policy: &Table, triple: Triple, wildcards: usize) -> Table {
    let mut wider = policy.clone();
    let statement = &mut wider.statements[0];
    let column = 1 + random.below(2);
    let values = &mut statement.elements[column].values;
    if wildcards == 0 {
        values.push(string(random, triple.length));
    } else {
        splice(random, values);
    }
    debug_assert!(build::stored(&wider).is_some());
    wider
}
