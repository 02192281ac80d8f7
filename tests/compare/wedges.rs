//! Picks on wedges, and what else is asked of the same numbers.

use crate::call::{Call, Walk};
use crate::chance::Chance;
use crate::wedge_lines::{line, line_of, near_walls, normals};
use second::point::{dot, lay, plus, signs};

/// How many normals there are whose parts, from 0 on, add to at most 15.
pub const SMALL_NORMALS: u64 = 625;

/// One small normal: every height of q (at 0 it is on the plane's first empty level), every frame,
/// reach w and above, in the middle and by a wall.
pub fn heights(walk: Walk, chance: &mut Chance, index: u64) -> Vec<Call> {
    let normal = normals(15)[index as usize];
    let w: i64 = normal.iter().sum();
    let mut calls = Vec::new();
    for frame in 0..8 {
        let laid = lay(signs(frame), normal);
        for height in 0..w {
            let reach = w + chance.between(0, 1) * chance.between(1, 40);
            let by_wall = near_walls(chance);
            let start = chance.one_of(&[[511; 3], [500, 520, 505], by_wall]);
            let h = dot(laid, plus(start, signs(frame))) - height;
            calls.push(Call::Wedge(walk, line_of(laid, h, start, frame, reach)));
        }
    }
    calls
}

pub fn any(walk: Walk, chance: &mut Chance, _: u64) -> Vec<Call> {
    vec![Call::Wedge(walk, line(chance))]
}
