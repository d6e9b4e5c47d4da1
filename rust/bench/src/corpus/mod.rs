//! The corpus: pairs of tables by family, the same on every run with the same seed.

pub mod build;
mod changes;
pub mod growth;
mod papers;
pub mod policies;
pub mod realistic;
pub mod texts;
mod triples;
pub mod worst;

use oracle::Table;
use support::random::Random;

#[derive(Clone, Copy, Debug, PartialEq, Eq, Hash)]
pub enum Family {
    Papers,
    Triples { wildcards: usize },
    Realistic,
    Changes,
    Worst,
}

impl Family {
    pub const ALL: [Family; 7] = [
        Family::Papers,
        Family::Triples { wildcards: 0 },
        Family::Triples { wildcards: 1 },
        Family::Triples { wildcards: 2 },
        Family::Realistic,
        Family::Changes,
        Family::Worst,
    ];

    pub fn name(self) -> &'static str {
        match self {
            Family::Papers => "papers' examples",
            Family::Triples { wildcards: 0 } => "triples, no wildcard",
            Family::Triples { wildcards: 1 } => "triples, 1 wildcard",
            Family::Triples { .. } => "triples, 2 wildcards",
            Family::Realistic => "realistic tables",
            Family::Changes => "one row changed",
            Family::Worst => "worst cases",
        }
    }
}

/// Two tables that compare without refusal: what does the first allow that the second does not?
#[derive(Clone, Debug)]
pub struct Pair {
    pub name: String,
    pub tables: [Table; 2],
    /// The same two in the stored form.
    pub stored: [Vec<u8>; 2],
}

impl Pair {
    /// None where a table is past a limit of the stored form, or the two past a limit of comparing.
    pub fn within_limits(name: &str, first: Table, second: Table) -> Option<Pair> {
        let stored = [build::stored(&first)?, build::stored(&second)?];
        portal::compare(&stored[0], &stored[1]).ok()?;
        Some(Pair { name: name.to_string(), tables: [first, second], stored })
    }

    /// A pair that is known to be within the limits.
    pub fn of(name: &str, first: Table, second: Table) -> Pair {
        Pair::within_limits(name, first, second).unwrap_or_else(|| panic!("{name} is past a limit"))
    }

    /// Both tables as the gap program takes them.
    pub fn input(&self) -> Vec<u8> {
        self.stored.concat()
    }
}

/// The pairs of one family.
#[derive(Clone, Debug)]
pub struct Drawn {
    pub family: Family,
    pub pairs: Vec<Pair>,
    /// Pairs that were drawn and left out, since they are past a limit of RULES 7.3.
    pub past_limits: usize,
}

/// The pairs of a family; `number` of them where they are drawn at random.
pub fn draw(family: Family, seed: u64, number: usize) -> Drawn {
    let mut random = Random::new(seed);
    match family {
        Family::Papers => fixed(family, papers::pairs()),
        Family::Triples { wildcards } => drawn(family, number, |_| triples::pair(&mut random, wildcards)),
        Family::Realistic => drawn(family, number, |_| realistic::pair(&mut random)),
        Family::Changes => drawn(family, number, |at| changes::pair(&mut random, at)),
        Family::Worst => fixed(family, worst::pairs()),
    }
}

fn fixed(family: Family, pairs: Vec<Pair>) -> Drawn {
    Drawn { family, pairs, past_limits: 0 }
}

/// Draws until there are enough pairs within the limits.
fn drawn(family: Family, number: usize, mut next: impl FnMut(usize) -> (String, Table, Table)) -> Drawn {
    let mut drawn = fixed(family, Vec::new());
    while drawn.pairs.len() < number {
        let (name, first, second) = next(drawn.pairs.len());
        let name = format!("{} {name}", drawn.pairs.len());
        match Pair::within_limits(&name, first, second) {
            Some(pair) => drawn.pairs.push(pair),
            None => drawn.past_limits += 1,
        }
    }
    drawn
}

#[cfg(test)]
mod tests {
    use super::*;
    use oracle::{limits, Comparison};

    /// A few of each family; the worst cases are the same for every seed.
    fn few(seed: u64) -> Vec<Pair> {
        Family::ALL[..6].iter().flat_map(|&family| draw(family, seed, 3).pairs).collect()
    }

    #[test]
    fn the_same_seed_draws_the_same_corpus() {
        let stored = |seed| few(seed).into_iter().map(|pair| pair.stored).collect::<Vec<_>>();
        assert_eq!(stored(1), stored(1));
        assert_ne!(stored(1), stored(2));
    }

    #[test]
    fn the_oracle_reads_every_table() {
        for pair in few(3) {
            for (table, stored) in pair.tables.iter().zip(&pair.stored) {
                assert_eq!(oracle::read(stored).as_ref(), Ok(table), "{}", pair.name);
            }
            assert!(pair.input().len() <= limits::INPUT_BYTES);
        }
    }

    #[test]
    fn the_oracle_compares_drawn_pairs() {
        for family in [Family::Papers, Family::Realistic, Family::Changes] {
            for pair in draw(family, 5, 2).pairs {
                let [first, second] = &pair.stored;
                let counted = Comparison::of(first, second).unwrap().count();
                assert_eq!(counted, portal::compare(first, second).unwrap().len() as u64, "{}", pair.name);
            }
        }
    }

    /// So that a solver whose strings have more bytes than 21 to 7E must answer as we do.
    #[test]
    fn every_column_leaves_a_byte_out() {
        for pair in few(4).into_iter().chain(worst::pairs()) {
            for column in 0..limits::STRING_COLUMNS {
                let mut left: Vec<u8> = (limits::LOWEST_BYTE..=limits::HIGHEST_BYTE).collect();
                for value in pair.tables.iter().flat_map(|table| values_of(table, column)) {
                    left.retain(|byte| !value.to_ascii_lowercase().contains(&byte.to_ascii_lowercase()));
                }
                assert!(!left.is_empty(), "{} column {column}", pair.name);
            }
        }
    }

    fn values_of(table: &Table, column: usize) -> Vec<Vec<u8>> {
        let mut values = Vec::new();
        for statement in &table.statements {
            if let Some(element) = statement.elements.get(column) {
                values.extend(element.values.clone());
            }
            let conditions = statement.conditions.iter().filter(|condition| condition.key.column() == column);
            values.extend(conditions.flat_map(|condition| condition.values.clone()));
        }
        values
    }
}
