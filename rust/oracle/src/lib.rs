//! An independent second opinion on the rules (RULES), written apart from the verified crates and for plainness:
//! slow where that is clearer, and sharing neither code nor tables with the verified crates.

pub mod cases;
pub mod compare;
pub mod json;
pub mod judge;
pub mod limits;
pub mod matching;
pub mod program;
pub mod table;

pub use cases::policy_cases;
pub use compare::{compare, gap_buffer, CompareRefusal, Comparison, Gap};
pub use json::read_json;
pub use judge::{judge, Request, Verdict};
pub use program::gaps_program;
pub use table::{read, read_items, Item, Refusal, Table, Writer};
