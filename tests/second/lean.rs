//! Known lean: how far a face can lean from an accepted normal, told by the answer itself. No
//! document asks for it; the words are those of include/ulgenzhir.h.

use crate::pick::{powers, Pick};
use crate::point::{dot, minus, Point, ORIGIN};
use crate::walk::Record;

/// "The pick is refused, reach is outside 1 to 256, a part of the normal is beyond 256 or one of m0,
/// m1, m2 beyond 2046 in size, or the normal is 0 0 0."
pub const NOT_MEASURABLE: u32 = 35;

/// The squared sine of the lean is below part / whole.
#[derive(Clone, Copy, Debug, PartialEq, Eq)]
pub struct Bound {
    pub part: u64,
    pub whole: u64,
}

pub type Lean = Result<Bound, u32>;

pub fn known_lean(answer: Pick, reach: i64) -> Lean {
    let record = measurable(answer)?;
    if !(1..=256).contains(&reach) {
        return Err(NOT_MEASURABLE);
    }
    Ok(bound(&record, last_power(reach)))
}

/// L, "the first of 1, 2, 4, .. that is at least reach".
pub fn last_power(reach: i64) -> i64 {
    *powers(reach).last().expect("1 is one of them")
}

/// Sizes are judged before any product is taken.
pub fn measurable(answer: Pick) -> Result<Record, u32> {
    let record = answer.map_err(|_| NOT_MEASURABLE)?;
    let within = |most: i64, vector: Point| vector.iter().all(|part| part.abs() <= most);
    let small = within(256, record.normal) && record.vectors.iter().all(|&m| within(2046, m));
    if small && record.normal != ORIGIN {
        Ok(record)
    } else {
        Err(NOT_MEASURABLE)
    }
}

/// "An axis is level exactly if the normal's part is 0."
pub fn level(record: &Record, axis: usize) -> bool {
    record.normal[axis] == 0
}

/// 3S and power²·(n·n).
pub fn bound(record: &Record, power: i64) -> Bound {
    let whole = power * power * dot(record.normal, record.normal);
    Bound { part: 3 * spread(record) as u64, whole: whole as u64 }
}

/// S, "the greatest squared length of a difference of two of m0, m1, m2 that are not level (0 if
/// there is none), plus 1 for each level axis". A vector alone counts as its own other: length 0.
fn spread(record: &Record) -> i64 {
    let (levels, corners): (Vec<usize>, Vec<usize>) = (0..3).partition(|&axis| level(record, axis));
    let mut longest = 0;
    for &k in &corners {
        for &l in &corners {
            let side = minus(record.vectors[l], record.vectors[k]);
            longest = longest.max(dot(side, side));
        }
    }
    longest + levels.len() as i64
}
