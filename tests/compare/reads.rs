//! The reader, over whole, decorated and damaged files.

use crate::call::{Call, Lent};
use crate::chance::Chance;
use second::p4;
use second::solid::Sizes;

/// A buffer that is too short, exact, longer or of any length for this input.
fn lent_for(chance: &mut Chance, input: &[u8]) -> Lent {
    let needed = match p4::read(input, &mut []) {
        Err(p4::Refusal { number: 27, value }) => value as usize,
        _ => chance.len_to(40),
    };
    let few = chance.len_to(needed);
    let behind = needed + chance.len_to(30);
    let len = match chance.below(10) {
        0 => few,
        1 => needed.saturating_sub(1),
        2 => 0,
        3..=5 => needed,
        6 => needed + 1,
        _ => behind,
    };
    Lent::new(chance, len)
}

const WHITE: [u8; 4] = *b" \t\r\n";

/// Now and then left open: what follows is comment too.
fn comment(chance: &mut Chance) -> Vec<u8> {
    let len = chance.len_to(6);
    let mut text = vec![b'#'];
    text.extend((0..len).map(|_| chance.one_of(b"#P4 19\tz\0\xff\x0b")));
    if !chance.percent(3) {
        text.push(chance.one_of(b"\r\n"));
    }
    text
}

/// Where white space is required: one byte of it, or a comment that touches.
fn required_white_space(chance: &mut Chance, plain: bool) -> Vec<u8> {
    if !plain && chance.percent(30) {
        return comment(chance);
    }
    vec![chance.one_of(&WHITE)]
}

fn gap(chance: &mut Chance, plain: bool) -> Vec<u8> {
    let mut text = required_white_space(chance, plain);
    let pieces = if plain { 0 } else { chance.below(4) };
    for _ in 0..pieces {
        if chance.percent(50) {
            text.extend(comment(chance));
        } else {
            text.push(chance.one_of(&WHITE));
        }
    }
    text
}

fn digits(chance: &mut Chance, value: i64, plain: bool) -> Vec<u8> {
    let zeros = match chance.below(if plain { 1 } else { 12 }) {
        1..=3 => chance.len_to(4),
        4 => 30,
        _ => 0,
    };
    let mut text = vec![b'0'; zeros];
    text.extend(value.to_string().bytes());
    text
}

const ODD_NUMBERS: [&str; 20] = [
    "0",
    "00",
    "257",
    "0257",
    "300",
    "999",
    "1000",
    "65537",
    "65792",
    "4294967297",
    "4294967552",
    "18446744073709551617",
    "18446744073709551872",
    "340282366920938463463374607431768211457",
    "100000000000000000000000000000000000000000000000000",
    "",
    "-1",
    "1a",
    "+1",
    "1.0",
];

fn number(chance: &mut Chance, value: i64, plain: bool) -> Vec<u8> {
    if !plain && chance.percent(3) {
        return chance.one_of(&ODD_NUMBERS).bytes().collect();
    }
    digits(chance, value, plain)
}

fn header(chance: &mut Chance, width: i64, height: i64, plain: bool) -> Vec<u8> {
    let mut text = b"P4".to_vec();
    text.extend(gap(chance, plain));
    text.extend(number(chance, width, plain));
    text.extend(gap(chance, plain));
    text.extend(number(chance, height, plain));
    text.extend(required_white_space(chance, plain));
    text
}

/// Rows of one image; now and then they begin as if the header went on.
fn rows(chance: &mut Chance, width: i64, height: i64) -> Vec<u8> {
    let mut rows = chance.bytes(Sizes { width, height, depth: 1 }.slice_bytes());
    if chance.percent(10) {
        rows[0] = chance.one_of(b"# \t\r\n1");
    }
    rows
}

fn size(chance: &mut Chance) -> i64 {
    match chance.below(30) {
        0 => 256,
        1 => chance.between(1, 256),
        2..=4 => chance.one_of(&[1, 7, 8, 9, 15, 16, 17]),
        _ => chance.between(1, 20),
    }
}

fn file(chance: &mut Chance) -> Vec<u8> {
    let (width, height) = (size(chance), size(chance));
    let images = match chance.below(10) {
        0 => chance.between(3, 9),
        1..=3 => 2,
        _ => 1,
    };
    let plain = chance.percent(25);
    let mut text = Vec::new();
    for _ in 0..images {
        let other = chance.below(30);
        let width = if other == 0 { width + 1 } else { width };
        let height = if other == 1 { height + 1 } else { height };
        text.extend(header(chance, width, height, plain));
        text.extend(rows(chance, width, height));
    }
    text
}

const TELLING: [u8; 16] = *b"P4# \t\r\n0129p\0\xff-\x0b";

fn damage(chance: &mut Chance, text: &mut Vec<u8>) {
    // Mostly in the front, where the header is.
    let end = if chance.percent(70) { text.len().min(30) } else { text.len() };
    let at = chance.len_to(end.saturating_sub(1));
    match chance.below(7) {
        0 => text.truncate(at),
        1 => text.insert(at, chance.one_of(&TELLING)),
        2 => text.push(chance.one_of(&TELLING)),
        3 if !text.is_empty() => drop(text.remove(at)),
        4 | 5 => touch(chance, text, at),
        _ if !text.is_empty() => text[at] = chance.one_of(&TELLING),
        _ => {}
    }
}

/// A # before the next white space byte, or in its place. Behind the magic or a number it touches.
fn touch(chance: &mut Chance, text: &mut Vec<u8>, from: usize) {
    let next = text[from..].iter().position(|byte| WHITE.contains(byte));
    match next.map(|behind| from + behind) {
        Some(at) if chance.percent(50) => text.insert(at, b'#'),
        Some(at) => text[at] = b'#',
        None => {}
    }
}

/// Bytes of a header, and # at once behind a digit.
const PIECES: [&str; 20] = [
    "P", "4", "#", "#\n", " ", " ", "\t", "\r", "\n", "\n", "0", "0#", "1", "1", "1", "1#", "2",
    "2", "2#\r", "x",
];

/// Bytes that only look like a header.
fn soup(chance: &mut Chance) -> Vec<u8> {
    let len = chance.len_to(24);
    let mut text = if chance.percent(80) { b"P4".to_vec() } else { Vec::new() };
    text.extend((0..len).flat_map(|_| chance.one_of(&PIECES).bytes()));
    text
}

pub fn any(chance: &mut Chance, _: u64) -> Vec<Call> {
    let mut text = if chance.percent(20) { soup(chance) } else { file(chance) };
    if chance.percent(40) {
        for _ in 0..chance.between(1, 3) {
            damage(chance, &mut text);
        }
    }
    let len = text.len();
    text.extend(b"0 1\nP4 1 1\n\xff\xff");
    let lent = lent_for(chance, &text[..len]);
    vec![Call::Read { text, len, lent }]
}

fn read_of(chance: &mut Chance, text: &[u8], len: usize) -> Call {
    Call::Read { text: text.to_vec(), len, lent: lent_for(chance, &text[..len]) }
}

/// One decorated file cut at every byte, then each byte of its header exchanged for every telling one.
pub fn headers(chance: &mut Chance, _: u64) -> Vec<Call> {
    let (width, height) = (chance.between(1, 12), chance.between(1, 3));
    let mut text = header(chance, width, height, false);
    text.extend(rows(chance, width, height));
    text.extend(header(chance, width, height, false));
    let headers = text.len();
    text.extend(rows(chance, width, height));
    let mut calls: Vec<Call> = (0..=text.len()).map(|len| read_of(chance, &text, len)).collect();
    for at in 0..headers {
        for byte in TELLING {
            let mut damaged = text.clone();
            damaged[at] = byte;
            calls.push(read_of(chance, &damaged, damaged.len()));
        }
    }
    calls
}

/// 1 to 257 images and what may stand after them.
pub fn many(chance: &mut Chance, index: u64) -> Vec<Call> {
    let images = if index < 258 { index } else { chance.between(250, 258) as u64 };
    let (width, height) = (chance.between(1, 9), chance.between(1, 2));
    let slice = Sizes { width, height, depth: 1 }.slice_bytes();
    let odd_one = if chance.percent(10) { chance.below(images + 1) } else { u64::MAX };
    let mut text = Vec::new();
    for image in 0..images {
        let height = if image == odd_one { height + 1 } else { height };
        text.extend(header(chance, width, height, true));
        text.extend(chance.bytes(slice));
    }
    if chance.percent(30) {
        text.push(chance.one_of(&TELLING));
    }
    vec![read_of(chance, &text, text.len())]
}
