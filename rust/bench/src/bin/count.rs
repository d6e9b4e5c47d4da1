//! Compares one pair of the corpus once, by its name, so that another program can count what that executes.

use std::env;
use std::process::exit;

use bench::corpus::{build, worst};

fn main() {
    let name = env::args().nth(1).unwrap_or_default();
    let Some((_, first, second)) = worst::tables().into_iter().find(|worst| worst.0 == name) else {
        eprintln!("count: no worst case has the name {name:?}");
        exit(2);
    };
    let stored = |table| build::stored(table).expect("within the limits of the stored form");
    println!("{}", portal::ffi::gaps(&stored(&first), &stored(&second)));
}
