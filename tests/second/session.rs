//! The wedge program's session: the whole text in, the whole text out.

use crate::firm::{firm, Firm, Footing};
use crate::lean::{Bound, Lean};
use crate::pick::{pick, Pick};
use crate::point::Point;
use crate::ready::{check, walk_from, Check, Handed, Ready};
use crate::solid::Wedge;
use crate::touch::{touch, Guess, Touch};
use crate::walk::{Record, Refusal};

pub const MOST_BYTES: usize = 65_536;

pub fn session(input: &[u8]) -> Vec<u8> {
    let read = &input[..input.len().min(MOST_BYTES)];
    let mut lines: Vec<&[u8]> = read.split(|&byte| byte == b'\n').collect();
    // What follows the last LF is a line only if it is not empty.
    if lines.last().map_or(false, |last| last.is_empty()) {
        lines.pop();
    }
    lines.into_iter().flat_map(|line| answer(line).into_bytes()).collect()
}

/// What is printed for one line, its LF with it.
fn answer(line: &[u8]) -> String {
    match numbers(line) {
        Some(nine) => told(pick_of(nine)),
        None => "B\n".to_string(),
    }
}

/// Nine whole numbers parted by single spaces.
pub fn numbers(line: &[u8]) -> Option<[i64; 9]> {
    let parts: Option<Vec<i64>> = line.split(|&byte| byte == b' ').map(number).collect();
    parts?.try_into().ok()
}

/// An optional minus and 1 to 10 digits within 32 signed bits.
fn number(text: &[u8]) -> Option<i64> {
    let digits = text.strip_prefix(b"-").unwrap_or(text);
    let in_form = (1..=10).contains(&digits.len()) && digits.iter().all(u8::is_ascii_digit);
    if !in_form {
        return None;
    }
    let size = digits.iter().fold(0, |value, digit| 10 * value + i64::from(digit - b'0'));
    let value = if text.starts_with(b"-") { -size } else { size };
    i32::try_from(value).is_ok().then_some(value)
}

/// A line's numbers: a b c h, p, frame, R.
pub fn asked_by<A>(
    [a, b, c, h, x, y, z, frame, reach]: [i64; 9],
    ask: impl FnOnce(&Wedge, Point, i64, i64) -> A,
) -> A {
    ask(&Wedge { abc: [a, b, c], h }, [x, y, z], frame, reach)
}

pub fn pick_of(nine: [i64; 9]) -> Pick {
    asked_by(nine, pick)
}

/// No session asks for a touch; the nine numbers are the same.
pub fn touch_of(nine: [i64; 9]) -> Touch {
    asked_by(nine, touch)
}

/// Nor for a check.
pub fn check_of(nine: [i64; 9]) -> Check {
    asked_by(nine, check)
}

/// A line's p is the ready start's.
pub fn walk_of(nine: [i64; 9], handed: Handed) -> Pick {
    asked_by(nine, |wedge, start, frame, reach| {
        walk_from(wedge, Ready { start, handed }, frame, reach)
    })
}

/// A line's p is not asked about.
pub fn firm_of(nine: [i64; 9], answer: Pick) -> Firm {
    asked_by(nine, |wedge, _, frame, reach| firm(wedge, answer, frame, reach))
}

pub fn told(answer: Pick) -> String {
    told_as("N", answer)
}

/// In the session's manner, with "G" for a guess.
pub fn told_touch(answer: Touch) -> String {
    told_as("G", answer.map(|Guess(record)| record))
}

/// With "S" for a ready start: its apex, level axes and looks. (Its start is the one asked about.)
pub fn told_check(answer: Check) -> String {
    match answer {
        Ok(Ready { handed: Handed { apex: [x, y, z], level, looks }, .. }) => {
            format!("S {x} {y} {z} {level} {looks}\n")
        }
        Err(refusal) => told_refusal(refusal),
    }
}

/// With "L" for a known lean: part and whole.
pub fn told_lean(answer: Lean) -> String {
    match answer {
        Ok(Bound { part, whole }) => format!("L {part} {whole}\n"),
        Err(number) => format!("R {number}\n"),
    }
}

/// With "F" for a footing: its power, looks, part and whole.
pub fn told_firm(answer: Firm) -> String {
    match answer {
        Ok(Footing { power, looks, bound: Bound { part, whole } }) => {
            format!("F {power} {looks} {part} {whole}\n")
        }
        Err(refusal) => told_refusal(refusal),
    }
}

fn told_as(accepted: &str, answer: Result<Record, Refusal>) -> String {
    match answer {
        Ok(record) => {
            let [x, y, z] = record.normal;
            format!("{accepted} {x} {y} {z} {} {}\n", record.steps, record.looks)
        }
        Err(refusal) => told_refusal(refusal),
    }
}

fn told_refusal(Refusal { number, place: [x, y, z], steps, looks }: Refusal) -> String {
    format!("R {number} {x} {y} {z} {steps} {looks}\n")
}
