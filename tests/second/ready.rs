//! Two calls out of one, document 02's 2026-05: "a start check that covers refusals 1 to 8 up to the
//! axis questions and hands back a ready start with its looks, and a walk from a ready start."

use crate::pick::{axes, powers, Pick};
use crate::point::{Point, ORIGIN};
use crate::solid::Solid;
use crate::walk::{at_once, Refusal, Walk};

/// "The apex, level axes and looks that it was handed."
#[derive(Clone, Copy, Debug, PartialEq, Eq)]
pub struct Handed {
    pub apex: Point,
    /// Bit i set means that axis i is level; higher bits say nothing.
    pub level: u32,
    pub looks: u32,
}

impl Handed {
    /// The axes that are not level.
    fn remaining(&self) -> Vec<usize> {
        (0..3).filter(|axis| self.level >> axis & 1 == 0).collect()
    }
}

#[derive(Clone, Copy, Debug, PartialEq, Eq)]
pub struct Ready {
    pub start: Point,
    pub handed: Handed,
}

pub type Check = Result<Ready, Refusal>;

pub fn check<S: Solid>(solid: &S, start: Point, frame: i64, reach: i64) -> Check {
    let mut walk = Walk::new(solid, start, frame, reach, powers(reach))?;
    let remaining = walk.begin(axes)?;
    let level = (0..3).filter(|axis| !remaining.contains(axis)).map(|axis| 1 << axis).sum();
    Ok(Ready { start, handed: Handed { apex: walk.apex, level, looks: walk.looks } })
}

/// "It judges 1 to 4 again (4 on the handed start and apex), asks p, q and the axes no more, and
/// begins its rounds from the apex, level axes and looks that it was handed."
pub fn walk_from<S: Solid>(
    solid: &S,
    Ready { start, handed }: Ready,
    frame: i64,
    reach: i64,
) -> Pick {
    let powers = powers(reach);
    let most_looks = 2 + 6 * powers.len();
    let mut walk = Walk::about(solid, start, handed.apex, frame, reach, powers)?;
    let remaining = handed.remaining();
    // "13, a ready start with more than 2 + 6K looks or with all three axes level, place and
    // counts zero, after 4."
    if handed.looks as usize > most_looks || remaining.is_empty() {
        return Err(at_once(13, ORIGIN));
    }
    walk.looks = handed.looks;
    walk.answer(&remaining)
}
