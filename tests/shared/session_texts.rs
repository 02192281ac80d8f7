//! Made-up sessions: good, refused and bad lines.

use crate::chance::Chance;
use crate::wedge_lines::line;
use second::session::MOST_BYTES;

fn good(chance: &mut Chance) -> Vec<String> {
    line(chance).map(|number| number.to_string()).to_vec()
}

const ODD_WORDS: [&str; 24] = [
    "-0",
    "0000000000",
    "0000000008",
    "-0000000008",
    "00000000008",
    "+8",
    "-",
    "",
    "--1",
    "2147483647",
    "2147483648",
    "-2147483648",
    "-2147483649",
    "4294967296",
    "9999999999",
    "-9999999999",
    "10000000000",
    "1e2",
    "0x8",
    "8\r",
    "\t8",
    "8\0",
    "８",
    "1.0",
];

/// A line of nine words, one or two of them odd; or too few, too many, or parted otherwise.
fn odd(chance: &mut Chance) -> String {
    let mut words = good(chance);
    match chance.below(10) {
        0 => words.truncate(chance.below(9) as usize),
        1 => words.push(chance.one_of(&["8", "", "x"]).to_string()),
        2 => words.insert(0, chance.one_of(&["", "-1"]).to_string()),
        3 => words[8].push(chance.one_of(&['\r', '\0', ' ', '\t', '9', '\u{b}'])),
        4 => words.clear(),
        _ => {
            let at = chance.below(9) as usize;
            words[at] = chance.one_of(&ODD_WORDS).to_string();
        }
    }
    let between = if chance.percent(4) { "  " } else { " " };
    words.join(between)
}

/// So many lines, and a last one that may lack its LF.
pub fn text(chance: &mut Chance, lines: u64) -> Vec<u8> {
    let mut text = Vec::new();
    for _ in 0..lines {
        let line = if chance.percent(30) { odd(chance) } else { good(chance).join(" ") };
        text.extend(line.bytes());
        text.push(b'\n');
    }
    match chance.below(4) {
        0 => drop(text.pop()),
        1 => text.extend(chance.one_of(&["\n", "1", "-", " ", "\r"]).bytes()),
        _ => {}
    }
    text
}

/// From a line's LF before it through the first digit of its reach.
pub const THROUGH_FIRST_DIGIT: usize = 26;

/// A session longer than is read, cut so many bytes after the last whole line. A line with reach
/// 88 follows it: cut after the first digit it is a good line with reach 8.
pub fn overlong(chance: &mut Chance, after: usize) -> Vec<u8> {
    let mut text = text(chance, 2600);
    while text.len() < MOST_BYTES {
        text.extend(b"1 2 5 808 100 100 100 0 8\n");
    }
    text.truncate(MOST_BYTES - after);
    text.extend(b"\n1 2 5 808 100 100 100 0 88\n");
    let behind = chance.len_to(70_000);
    text.extend((0..behind).map(|_| chance.one_of(b"1 2\n")));
    text
}
