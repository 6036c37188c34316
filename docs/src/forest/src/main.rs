//! Reads a file of records from standard input and prints its listing, or the line of its refusal. The species list that it
//! lends is empty.

use std::io::{self, Read, Write};

/// The header and 500 lines of at most 8 + 7 × 21 + 8 bytes.
const LONGEST: usize = 100_000;

fn main() -> io::Result<()> {
    let mut file = Vec::new();
    io::stdin().read_to_end(&mut file)?;
    let mut out = vec![0; LONGEST];
    match forest::report(&file, &[], &mut out) {
        Ok(length) => io::stdout().write_all(&out[..length]),
        Err(refusal) => Err(io::Error::other(refusal.to_string())),
    }
}
