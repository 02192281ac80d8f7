//! Whole vectors, and frames.

pub type Point = [i64; 3];

pub const ORIGIN: Point = [0, 0, 0];
pub const UNITS: [Point; 3] = [[1, 0, 0], [0, 1, 0], [0, 0, 1]];

pub fn plus(a: Point, b: Point) -> Point {
    [a[0] + b[0], a[1] + b[1], a[2] + b[2]]
}

pub fn minus(a: Point, b: Point) -> Point {
    [a[0] - b[0], a[1] - b[1], a[2] - b[2]]
}

pub fn times(l: i64, a: Point) -> Point {
    [l * a[0], l * a[1], l * a[2]]
}

pub fn dot(a: Point, b: Point) -> i64 {
    a[0] * b[0] + a[1] * b[1] + a[2] * b[2]
}

pub fn cross(a: Point, b: Point) -> Point {
    [a[1] * b[2] - a[2] * b[1], a[2] * b[0] - a[0] * b[2], a[0] * b[1] - a[1] * b[0]]
}

/// The signs of a frame: bit i set means that axis i has sign -1.
pub fn signs(frame: i64) -> Point {
    [0, 1, 2].map(|axis| if frame >> axis & 1 == 1 { -1 } else { 1 })
}

/// A frame vector laid into the box: each part multiplied by its sign.
pub fn lay(signs: Point, u: Point) -> Point {
    [signs[0] * u[0], signs[1] * u[1], signs[2] * u[2]]
}
