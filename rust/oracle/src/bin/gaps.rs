//! The gap program (RULES 8), as the oracle answers it.

use std::io::{self, Read, Write};

use oracle::{gaps_program, limits};

fn main() -> io::Result<()> {
    // One byte more than is taken is enough to know that there is too much.
    let mut input = Vec::new();
    let most = limits::INPUT_BYTES as u64 + 1;
    io::stdin().lock().take(most).read_to_end(&mut input)?;
    io::stdout().write_all(gaps_program(&input).as_bytes())
}
