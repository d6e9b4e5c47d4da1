//! Policies in the JSON form: the entry point of the verified library held against the oracle.

mod agree;
mod bytes;
mod counts;
mod drawn;
mod limits;
mod long;
mod members;
mod python;
mod real_policies;
mod words;
