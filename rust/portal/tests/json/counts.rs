//! How many texts each test puts to the entry point, and that together they are enough.

/// Right policies in `drawn`.
pub const RIGHT: usize = 60_000;
/// Policies in `drawn` with faults among members and values.
pub const DAMAGED: usize = 120_000;
/// Policies in `drawn` with faults among their bytes.
pub const SPOILT: usize = 100_000;
/// Texts in `drawn` that never were policies.
pub const GARBAGE: usize = 30_000;
/// Policies in `limits` whose tables have about 16,384 bytes.
pub const LONG_TABLES: usize = 1_500;

const _: () = assert!(RIGHT + DAMAGED + SPOILT + GARBAGE + LONG_TABLES >= 300_000);
