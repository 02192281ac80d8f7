//! The display normal.

use crate::point::{dot, Point, ORIGIN};

pub const ALL_ZERO_OR_TOO_LARGE: u32 = 30;

/// The largest whole m with m·m·S ≤ n·n·2^30. The float root is a guess; whole numbers decide.
pub fn size(n: i64, sum_of_squares: i64) -> i64 {
    let most = (n * n) << 30;
    let fits = |m: i64| m * m * sum_of_squares <= most;
    let mut m = (most as f64 / sum_of_squares as f64).sqrt() as i64;
    while !fits(m) {
        m -= 1;
    }
    while fits(m + 1) {
        m += 1;
    }
    m
}

/// Three floats, or the refusal number.
pub fn display(normal: Point) -> Result<[f32; 3], u32> {
    let within = normal.iter().all(|n| (-1023..=1023).contains(n));
    if normal == ORIGIN || !within {
        return Err(ALL_ZERO_OR_TOO_LARGE);
    }
    let sum_of_squares = dot(normal, normal);
    Ok(normal.map(|n| {
        let signed = n.signum() * size(n, sum_of_squares);
        (signed as f64 / 32768.0) as f32
    }))
}
