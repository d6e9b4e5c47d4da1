//! The cases of `crates/policy_cases/stdin`, as the oracle answers them: what is to stand in `stdout` beside it.

use std::io::{self, Read, Write};

use oracle::policy_cases;

fn main() -> io::Result<()> {
    let mut input = Vec::new();
    io::stdin().lock().read_to_end(&mut input)?;
    io::stdout().write_all(policy_cases(&input).as_bytes())
}
