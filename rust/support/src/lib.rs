//! What the tests of the oracle and of the portal and the benchmark share. It depends on none of them: tables are bytes, and what must be
//! printed is text.

pub mod bench;
pub mod build;
pub mod documents;
pub mod policies;
pub mod random;
pub mod strings;
