//! The parts of the benchmark: a corpus of pairs of tables, those who answer them, and what is made of their times.

pub mod bounds;
pub mod clock;
pub mod contest;
pub mod corpus;
pub mod goals;
pub mod growth;
pub mod instructions;
pub mod judging;
pub mod lengths;
pub mod machine;
pub mod measure;
pub mod plot;
pub mod python;
pub mod reading;
pub mod settings;
pub mod smt;
pub mod solvers;
pub mod stack;
pub mod summary;
pub mod table;
