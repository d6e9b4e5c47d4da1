//! The tests of the oracle, a file for each part of the rules.

mod bench_list;
mod build;
mod comparing;
mod enumeration;
mod errors_that_look_right;
mod gap_program;
mod json_drawn;
mod json_members;
mod json_networks;
mod json_places;
mod json_records;
mod json_text;
mod judging;
mod marked;
mod matching;
mod policy_cases;
mod reading;
mod real_policies;
mod writing;
