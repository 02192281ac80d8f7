//! Firm footing: how far the face goes on beside the start, looked at along the ways of an accepted
//! answer. No document asks for it; the words are those of include/ulgenzhir.h.

use crate::lean::{bound, level, measurable, Bound};
use crate::pick::{powers, Pick};
use crate::point::{lay, minus, plus, signs, times, Point, ORIGIN, UNITS};
use crate::solid::Solid;
use crate::walk::{at_once, judged, Record, Refusal, Walk, PAIRS};

#[derive(Clone, Copy, Debug, PartialEq, Eq)]
pub struct Footing {
    /// "The last at which all were filled, 0 if there is none."
    pub power: i64,
    pub looks: u32,
    pub bound: Bound,
}

pub type Firm = Result<Footing, Refusal>;

/// Refused "in this order: 1, 2, 3, 35, 4, 5, 6"; 4 with p, else with the apex.
pub fn firm<S: Solid>(solid: &S, answer: Pick, frame: i64, reach: i64) -> Firm {
    judged(solid, frame, reach)?;
    let record = measurable(answer).map_err(|number| at_once(number, ORIGIN))?;
    let signs = signs(frame);
    let start = start(record.apex, signs);
    let mut walk = Walk::about(solid, start, record.apex, frame, reach, powers(reach))?;
    walk.face()?;
    let power = firm_to(&mut walk, start, &powers(reach), &ways(&record, signs));
    Ok(Footing { power, looks: walk.looks, bound: bound(&record, power) })
}

/// p = apex - s, "each part held to 32 bits".
fn start(apex: Point, signs: Point) -> Point {
    minus(apex, signs).map(|part| part.clamp(i32::MIN.into(), i32::MAX.into()))
}

/// "Along each difference of two of m0, m1, m2 that are not level and along each level axis, all of
/// them both ways": the pairs in a round's order, then each axis with the frame's sign first.
pub fn ways(record: &Record, signs: Point) -> Vec<Point> {
    let stands = |axis: usize| !level(record, axis);
    let sides = PAIRS.iter().filter(|&&(k, l)| stands(k) && stands(l));
    let mut ways: Vec<Point> =
        sides.map(|&(k, l)| minus(record.vectors[l], record.vectors[k])).collect();
    for axis in (0..3).filter(|&axis| level(record, axis)) {
        let unit = lay(signs, UNITS[axis]);
        ways.extend([unit, times(-1, unit)]);
    }
    ways
}

/// "A voxel that is not filled ends the search, and so does one outside the box, which is no look."
fn firm_to<S: Solid>(walk: &mut Walk<S>, start: Point, powers: &[i64], ways: &[Point]) -> i64 {
    let mut firm = 0;
    for &power in powers {
        for &way in ways {
            if !matches!(walk.look(plus(start, times(power, way))), Ok(true)) {
                return firm;
            }
        }
        firm = power;
    }
    firm
}
