//! Reads a trace from standard input and prints its answers (document 01,
//! Replay program).

use std::io::{self, Read, Write};

fn main() -> io::Result<()> {
    let mut trace = Vec::new();
    io::stdin().read_to_end(&mut trace)?;
    io::stdout().write_all(peer::replay::replay(&trace).as_bytes())
}
