//! The display normal by the processor's division and square root.

use crate::answers::Lit;

/// The whole root of a number up to 2^30, which a double holds exactly.
fn root(square: u64) -> u64 {
    (square as f64).sqrt() as u64
}

#[inline(never)]
pub fn display(normal: [i32; 3]) -> Lit {
    let within = normal.iter().all(|n| (-1023..=1023).contains(n));
    if normal == [0; 3] || !within {
        return Lit { number: 30, ..Default::default() };
    }
    let sum = normal.iter().map(|n| n * n).sum::<i32>() as u64;
    let [x, y, z] = normal.map(|n| {
        let square = (((i64::from(n) * i64::from(n)) as u64) << 30) / sum;
        (root(square) as i32 * n.signum()) as f32 / 32768.0
    });
    Lit { number: 0, x, y, z }
}
