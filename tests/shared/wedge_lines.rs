//! Made-up wedges: lines of nine numbers as a session has them.

use crate::chance::Chance;
use second::point::{dot, lay, plus, signs, Point};

/// a b c h, p, frame, R.
pub type Line = [i32; 9];

pub fn line_of(normal: Point, h: i64, start: Point, frame: i64, reach: i64) -> Line {
    let [a, b, c] = normal;
    let [x, y, z] = start;
    [a, b, c, h, x, y, z, frame, reach].map(|number| number as i32)
}

fn divisor(a: i64, b: i64) -> i64 {
    if b == 0 {
        a
    } else {
        divisor(b, a % b)
    }
}

/// All normals without a common divisor whose parts, from 0 on, add to at most w.
pub fn normals(w: i64) -> Vec<Point> {
    let mut list = Vec::new();
    for a in 0..=w {
        for b in 0..=w - a {
            for c in (0..=w - a - b).filter(|&c| divisor(divisor(a, b), c) == 1) {
                list.push([a, b, c]);
            }
        }
    }
    list
}

pub fn near_walls(chance: &mut Chance) -> Point {
    [0, 1, 2].map(|_| {
        let inward = chance.between(0, 40);
        chance.one_of(&[inward, 1023 - inward, 512])
    })
}

pub fn reach(chance: &mut Chance) -> i64 {
    match chance.below(20) {
        0 => chance.one_of(&[0, -1, 257, 258, 1 << 20, i64::from(i32::MIN), i64::from(i32::MAX)]),
        1..=3 => chance.one_of(&[4, 8, 16, 32, 64, 128, 256]) - chance.between(0, 1),
        4..=5 => chance.one_of(&[1, 2, 3, 5, 9, 17, 33, 65, 129]),
        6..=14 => chance.between(1, 24),
        _ => chance.between(1, 256),
    }
}

pub fn frame(chance: &mut Chance) -> i64 {
    if chance.percent(2) {
        return chance.one_of(&[8, -1, 9, 16, 256, i64::from(i32::MIN), i64::from(i32::MAX)]);
    }
    chance.between(0, 7)
}

/// So many sizes of at least 1 that add to w, then zeros.
fn sizes(chance: &mut Chance, remaining: i64, w: i64) -> Point {
    match remaining {
        0 => [0, 0, 0],
        1 => [w, 0, 0],
        2 => {
            let a = chance.between(1, w - 1);
            [a, w - a, 0]
        }
        _ => {
            let a = chance.between(1, w - 2);
            let b = chance.between(1, w - a - 1);
            [a, b, w - a - b]
        }
    }
}

/// A normal in the frame, the sum of its sizes about the reach, small, or anything. Some have
/// level axes, some a part against the frame, some a common divisor. The parts' sum is not below 0.
pub fn normal_in_frame(chance: &mut Chance, reach: i64) -> Point {
    let remaining = match chance.below(100) {
        0 => 0,
        1..=11 => 1,
        12..=33 => 2,
        _ => 3,
    };
    let least = remaining.max(1);
    let reach = reach.clamp(least, 256);
    let w = match chance.below(8) {
        0 => chance.between(least, 12),
        1 => chance.between(least, 3 * reach),
        2 => chance.between(least, 900),
        _ => chance.between(least, reach),
    };
    let mut parts = sizes(chance, remaining, w);
    parts.rotate_left(chance.below(3) as usize);
    let axis = chance.below(3) as usize;
    if chance.percent(8) && 2 * parts[axis] < w {
        parts[axis] *= -1;
    }
    let factor = if chance.percent(15) { chance.between(2, 9) } else { 1 };
    parts.map(|part| factor * part)
}

/// A height of q above the plane: 0 to w - 1 if p is to be filled and q empty.
pub fn height(chance: &mut Chance, w: i64) -> i64 {
    match chance.below(20) {
        0 => chance.between(-w - 2, -1),
        1 => w + chance.between(0, 2),
        2..=5 => 0,
        6..=8 => (w - 1).max(0),
        _ => chance.between(0, (w - 1).max(0)),
    }
}

fn start(chance: &mut Chance) -> Point {
    match chance.below(10) {
        0..=3 => [0, 1, 2].map(|_| chance.between(300, 720)),
        4..=5 => near_walls(chance),
        6 => [0, 1, 2].map(|_| chance.one_of(&[0, 1, 511, 1022, 1023])),
        _ => [0, 1, 2].map(|_| chance.between(0, 1023)),
    }
}

fn slope(chance: &mut Chance) -> Line {
    let reach = reach(chance);
    let parts = normal_in_frame(chance, reach);
    let frame = frame(chance);
    let start = start(chance);
    let normal = lay(signs(frame & 7), parts);
    let height = height(chance, parts.iter().sum());
    let h = dot(normal, plus(start, signs(frame & 7))) - height;
    let seen_from = if chance.percent(5) { chance.between(0, 7) } else { frame };
    line_of(normal, h, start, seen_from, reach)
}

/// Any permitted wedge whose surface passes near p.
fn steep(chance: &mut Chance) -> Line {
    let normal = [0, 1, 2].map(|_| chance.between(-1000, 1000));
    let start = start(chance);
    let h = dot(normal, start) + chance.between(-1500, 1500);
    line_of(normal, h, start, chance.between(0, 7), reach(chance))
}

const ENDS: [i32; 32] = [
    i32::MIN,
    i32::MIN + 1,
    -4_000_001,
    -4_000_000,
    -1025,
    -1024,
    -1023,
    -1001,
    -1000,
    -999,
    -257,
    -3,
    -2,
    -1,
    0,
    1,
    2,
    3,
    7,
    8,
    255,
    256,
    257,
    999,
    1000,
    1001,
    1023,
    1024,
    4_000_000,
    4_000_001,
    i32::MAX - 1,
    i32::MAX,
];

fn damaged(chance: &mut Chance) -> Line {
    let mut line = slope(chance);
    for _ in 0..chance.between(1, 2) {
        let index = chance.below(9) as usize;
        line[index] = match chance.below(3) {
            0 => line[index].saturating_add(chance.one_of(&[-1, 1])),
            1 => line[index].saturating_neg(),
            _ => chance.one_of(&ENDS),
        };
    }
    line
}

pub fn line(chance: &mut Chance) -> Line {
    match chance.below(20) {
        0 => [0; 9].map(|_| chance.one_of(&ENDS)),
        1 => [0; 9].map(|_| chance.bits() as i32),
        2..=4 => damaged(chance),
        5 => steep(chance),
        _ => slope(chance),
    }
}
