//! How many cases each seeded test draws, and that together they are enough.

/// Tables in `judging`, and requests put to each.
pub const JUDGED_TABLES: usize = 6_000;
pub const REQUESTS_EACH: usize = 20;
/// Tables in `damaged`, each judged once.
pub const DAMAGED_TABLES: usize = 90_000;
/// Byte strings in `damaged` that never were tables, each judged once.
pub const GARBAGE: usize = 30_000;
/// Requests in `judging` with a fault, each judged once.
pub const FAULTY_REQUESTS: usize = 20_000;

/// Pairs of tables in `comparing` drawn apart from each other.
pub const DRAWN_PAIRS: usize = 7_000;
/// Pairs in `comparing` where the second table is the first with a small change.
pub const CHANGED_PAIRS: usize = 8_000;
/// Pairs in `damaged` where one table or both are damaged.
pub const DAMAGED_PAIRS: usize = 6_000;
/// Pairs in `comparing` with long values full of wildcards in one column.
pub const WILD_PAIRS: usize = 200;

const JUDGEMENTS: usize = JUDGED_TABLES * REQUESTS_EACH + DAMAGED_TABLES + GARBAGE + FAULTY_REQUESTS;
const COMPARISONS: usize = DRAWN_PAIRS + CHANGED_PAIRS + DAMAGED_PAIRS + WILD_PAIRS;
const _: () = assert!(JUDGEMENTS >= 200_000 && COMPARISONS >= 20_000);
