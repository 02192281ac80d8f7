//! The second program's own `wedge`: reads at most 65,536 bytes, prints the session.

use second::session::{session, MOST_BYTES};
use std::io::{stdin, stdout, Read, Write};

fn main() -> std::io::Result<()> {
    let mut input = Vec::new();
    stdin().lock().take(MOST_BYTES as u64).read_to_end(&mut input)?;
    stdout().lock().write_all(&session(&input))
}
