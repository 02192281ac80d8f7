//! Writes the committed sessions and what the second program prints for them:
//!
//!   make_sessions FOLDER
//!
//! `stdin` has the listed lines first, then a long mix, and its last line lacks its LF;
//! `overlong.stdin` is longer than is read.

#![allow(dead_code)]

#[path = "../shared/session_texts.rs"]
mod session_texts;
#[path = "../shared/wedge_lines.rs"]
mod wedge_lines;

use second::chance::{self, Chance};
use second::listed::LINES;
use second::session::session;

fn main() -> std::io::Result<()> {
    let folder = std::env::args().nth(1).expect("make_sessions FOLDER");
    let mut long: Vec<u8> =
        LINES.iter().flat_map(|(input, _)| format!("{input}\n").into_bytes()).collect();
    long.extend(session_texts::text(&mut Chance::of(1, "session file", 0), 900));
    long.extend(b"\n0 0 1 101 100 100 100 0 1");
    let mut chance = Chance::of(1, "session file", 1);
    let overlong = session_texts::overlong(&mut chance, session_texts::THROUGH_FIRST_DIGIT);
    for (name, input) in [("", long), ("overlong.", overlong)] {
        std::fs::write(format!("{folder}/{name}stdout"), session(&input))?;
        std::fs::write(format!("{folder}/{name}stdin"), input)?;
    }
    Ok(())
}
