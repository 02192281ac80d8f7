//! Picks with many looks, found with the second program by seeded climbs: small changes are kept
//! as long as the looks do not fall.

use crate::chance::Chance;
use crate::roomy::Roomy;
use second::pick::{pick, Pick};
use second::point::{dot, plus, Point};
use second::solid::Sizes;
use std::cell::RefCell;
use std::collections::HashMap;

const START: Point = [-1, -1, -1];
const REACHES: [i64; 7] = [4, 8, 16, 32, 64, 128, 256];

pub fn looks(answer: Pick) -> u32 {
    answer.map_or_else(|refusal| refusal.looks, |record| record.looks)
}

/// A slope seen from q at the origin: normal, height, reach.
type Slope = (Point, i64, i64);

fn slope_looks((normal, height, reach): Slope, side: i64) -> (u32, Point) {
    let solid = Roomy::new(side, START, |point| dot(normal, point) + height < 0);
    (looks(pick(&solid, START, 0, reach)), solid.shift())
}

/// No axis is level: a level one takes no part in the pairs, so there are fewer looks.
fn any_slope(chance: &mut Chance) -> Slope {
    let most = chance.one_of(&[20, 60, 200, 1000]);
    let normal = [0, 1, 2].map(|_| chance.between(1, most));
    (normal, chance.between(0, normal.iter().sum::<i64>() - 1), chance.one_of(&REACHES))
}

fn changed_slope(chance: &mut Chance, (mut normal, height, reach): Slope) -> Slope {
    let axis = chance.below(3) as usize;
    let by = chance.one_of(&[1, 1, 3, 20]);
    let part = normal[axis] + chance.between(-by, by);
    normal[axis] = part.clamp(1, 1000);
    let highest = normal.iter().sum::<i64>() - 1;
    let height = match chance.below(3) {
        0 => highest,
        1 => chance.between(0, highest),
        _ => height.min(highest),
    };
    (normal, height, reach)
}

/// Where one climb over slopes ends: a b c h, p, frame, R, and the looks.
pub fn worst_slope(side: i64, climb: u64, changes: u64) -> ([i32; 9], u32) {
    let mut chance = Chance::of(side as u64, "worst slope", climb);
    let mut slope = any_slope(&mut chance);
    let mut most = slope_looks(slope, side).0;
    for _ in 0..changes {
        let next = changed_slope(&mut chance, slope);
        let (found, _) = slope_looks(next, side);
        if found >= most {
            (slope, most) = (next, found);
        }
    }
    (laid_in(slope, side), most)
}

/// The slope where its looks fit the true box.
fn laid_in(slope: Slope, side: i64) -> [i32; 9] {
    let (normal, height, reach) = slope;
    let apex = slope_looks(slope, side).1;
    let [a, b, c] = normal;
    let [x, y, z] = plus(apex, START);
    [a, b, c, dot(normal, apex) - height, x, y, z, 0, reach].map(|number| number as i32)
}

/// Any solid at all, told by what it answers at each new voxel in turn.
struct AnySolid {
    reach: i64,
    answers: Vec<bool>,
}

/// The looks of such a solid, the voxels that were looked at, and the shift into the true box.
fn solid_looks(solid: &AnySolid, side: i64) -> (u32, HashMap<Point, bool>, Point) {
    let told = RefCell::new(HashMap::new());
    let roomy = Roomy::new(side, START, |point| {
        let mut told = told.borrow_mut();
        let next = told.len();
        *told.entry(point).or_insert(solid.answers[next])
    });
    let count = looks(pick(&roomy, START, 0, solid.reach));
    let shift = roomy.shift();
    (count, told.into_inner(), shift)
}

fn any_solid(chance: &mut Chance, reach: i64) -> AnySolid {
    let percent = chance.one_of(&[5, 10, 20]);
    let mut answers: Vec<bool> = (0..14_000).map(|_| chance.percent(percent)).collect();
    // p filled, q empty, the axes fall.
    answers[..5].copy_from_slice(&[true, false, true, true, true]);
    AnySolid { reach, answers }
}

/// A stack with many looks: sizes, bytes, start, reach, looks.
pub struct WorstStack {
    pub side: i64,
    pub bytes: Vec<u8>,
    pub start: [i32; 3],
    pub reach: i32,
    pub looks: u32,
}

/// Where one climb over any solids ends.
pub fn worst_stack(side: i64, climb: u64, changes: u64) -> WorstStack {
    let mut chance = Chance::of(side as u64, "worst stack", climb);
    let mut solid = any_solid(&mut chance, REACHES[climb as usize % 6]);
    let (mut most, mut told, _) = solid_looks(&solid, side);
    for _ in 0..changes {
        let flipped = chance.below(told.len() as u64) as usize;
        solid.answers[flipped] ^= true;
        let (found, met, _) = solid_looks(&solid, side);
        if found >= most {
            (most, told) = (found, met);
        } else {
            solid.answers[flipped] ^= true;
        }
    }
    stack_of(solid, side)
}

fn stack_of(solid: AnySolid, side: i64) -> WorstStack {
    let (looks, told, shift) = solid_looks(&solid, side);
    let sizes = Sizes { width: side, height: side, depth: side };
    let mut bytes = vec![0; sizes.stack_bytes()];
    for (&point, _) in told.iter().filter(|&(_, &filled)| filled) {
        let (byte, bit) = sizes.bit_place(plus(point, shift));
        bytes[byte] |= bit;
    }
    let start = plus(START, shift).map(|part| part as i32);
    WorstStack { side, bytes, start, reach: solid.reach as i32, looks }
}
