//! The pick: the probing walk with document 01's axis questions, as document 02's 2026-01 (level
//! faces) changes them.

use crate::point::{times, Point, UNITS};
use crate::solid::Solid;
use crate::walk::{Record, Refusal, Remaining, Stop, Walk};

pub type Pick = Result<Record, Refusal>;

pub fn pick<S: Solid>(solid: &S, start: Point, frame: i64, reach: i64) -> Pick {
    let mut walk = Walk::new(solid, start, frame, reach, powers(reach))?;
    let remaining = walk.begin(axes)?;
    walk.answer(&remaining)
}

/// 1, 2, 4, .. up to the first that is at least the reach.
pub fn powers(reach: i64) -> Vec<i64> {
    let mut list = vec![1];
    while list[list.len() - 1] < reach {
        list.push(2 * list[list.len() - 1]);
    }
    list
}

/// Item 2: the axes that are not level. "7 now means that an axis's opposite falls, or (place as
/// for axis 0) that all three are level."
pub fn axes<S: Solid>(walk: &mut Walk<S>) -> Remaining {
    let mut remaining = Vec::new();
    for axis in 0..3 {
        if !level(walk, axis)? {
            remaining.push(axis);
        }
    }
    if remaining.is_empty() {
        return Err(Stop { number: 7, place: walk.corner(0) });
    }
    Ok(remaining)
}

/// "When minus an axis vector doesn't fall, its opposite is asked too. If neither falls the axis
/// is level."
fn level<S: Solid>(walk: &mut Walk<S>, axis: usize) -> Result<bool, Stop> {
    if walk.falls(times(-1, UNITS[axis]))? {
        return Ok(false);
    }
    if walk.falls(UNITS[axis])? {
        return Err(Stop { number: 7, place: walk.corner(axis) });
    }
    Ok(true)
}
