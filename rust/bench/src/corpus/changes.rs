//! A table against itself with one row changed, added or removed, and against itself as it is.

use oracle::table::Effect;
use oracle::Table;
use support::random::Random;

use super::{realistic, triples};

/// The sorts of change in turn, each from the old table to the new and the other way.
pub fn pair(random: &mut Random, at: usize) -> (String, Table, Table) {
    let old = base(random);
    let sort = random.below(5);
    let (name, new) = match sort {
        0 => ("a row added", added(random, &old)),
        1 => ("a row removed", removed(random, &old)),
        2 => ("a row turned", turned(random, &old)),
        3 => ("a value changed", value_changed(random, &old)),
        _ => ("nothing changed", old.clone()),
    };
    if at % 2 == 0 {
        (name.to_string(), old, new)
    } else {
        (format!("{name}, turned round"), new, old)
    }
}

fn base(random: &mut Random) -> Table {
    if random.once_in(3) {
        let triple = triples::Triple { statements: 2 + random.below(5), strings: 2, length: 8 };
        return triples::policy(random, triple, 1);
    }
    let statements = 2 + random.below(5);
    realistic::table_of(random, statements)
}

fn added(random: &mut Random, old: &Table) -> Table {
    let mut new = old.clone();
    let at = random.below(new.statements.len() + 1);
    let row = realistic::drawn_statement(random, false);
    new.statements.insert(at, row);
    new
}

fn removed(random: &mut Random, old: &Table) -> Table {
    let mut new = old.clone();
    new.statements.remove(random.below(old.statements.len()));
    new
}

fn turned(random: &mut Random, old: &Table) -> Table {
    let mut new = old.clone();
    let row = random.below(old.statements.len());
    let effect = &mut new.statements[row].effect;
    *effect = if *effect == Effect::Allow { Effect::Deny } else { Effect::Allow };
    new
}

/// The last byte of a value of actions or resources becomes another, or a wildcard.
fn value_changed(random: &mut Random, old: &Table) -> Table {
    let mut new = old.clone();
    let row = random.below(old.statements.len());
    let values = &mut new.statements[row].elements[1 + random.below(2)].values;
    let value = random.below(values.len());
    let last = values[value].last_mut().expect("a value has a byte");
    *last = random.pick(b"*?xyz");
    new
}
