//! The entry points of the verified library held against the oracle, and against the examples of RULES 8 and 10.

mod agree;
mod bench_list;
mod comparing;
mod counts;
mod damage;
mod damaged;
mod draw;
mod entry_points;
mod enumeration;
mod judging;
mod limits;
mod long_strings;
mod words;
