//! The quick touch, document 02's 2026-04. "Its steps, choice and last tests stay those of the long
//! walk."

use crate::point::Point;
use crate::solid::Solid;
use crate::walk::{Record, Refusal, Remaining, Stop, Walk};

/// "Its accepted answer is always marked a guess."
#[derive(Clone, Copy, Debug, PartialEq, Eq)]
pub struct Guess(pub Record);

pub type Touch = Result<Guess, Refusal>;

/// "A direction falls only if power 1 is filled."
pub fn touch<S: Solid>(solid: &S, start: Point, frame: i64, reach: i64) -> Touch {
    let mut walk = Walk::new(solid, start, frame, reach, vec![1])?;
    let remaining = walk.begin(corners)?;
    walk.answer(&remaining).map(Guess)
}

/// "The three corners q less each unit vector must be filled", lowest first. "The axis questions
/// go away", so every axis remains.
fn corners<S: Solid>(walk: &mut Walk<S>) -> Remaining {
    for axis in 0..3 {
        let corner = walk.corner(axis);
        if !walk.look(corner)? {
            return Err(Stop { number: 11, place: corner });
        }
    }
    Ok(vec![0, 1, 2])
}
