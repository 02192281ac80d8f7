//! How a pick grows with the reach: slopes up to it, touched in the middle of the wedges' box.

use crate::chance::Chance;
use crate::wedge_lines::{line_of, Line};
use second::point::{dot, Point};
use second::session::pick_of;

pub const TRIED: usize = 400;
const MIDDLE: Point = [511; 3];

/// What was tried at one reach, the accepted picks among it, and their steps and looks on average.
pub struct Grown {
    pub reach: i64,
    pub accepted: Vec<Line>,
    pub steps: f64,
    pub looks: f64,
}

/// Three parts of at least 1 that add to at most the reach, any sum as likely.
fn normal(chance: &mut Chance, reach: i64) -> Point {
    let sum = chance.between(3, reach);
    let first = chance.between(1, sum - 2);
    let second = chance.between(1, sum - first - 1);
    [first, second, sum - first - second]
}

/// The plane goes by the apex or up to the normal's sum below it.
fn slope(chance: &mut Chance, reach: i64) -> Line {
    let normal = normal(chance, reach);
    let height = chance.between(0, normal.iter().sum::<i64>() - 1);
    line_of(normal, dot(normal, [512; 3]) - height, MIDDLE, 0, reach)
}

pub fn grown(reach: i64) -> Grown {
    let mut chance = Chance::of(1, "growth", reach as u64);
    let found: Vec<_> = (0..TRIED)
        .map(|_| slope(&mut chance, reach))
        .filter_map(|line| pick_of(line.map(i64::from)).ok().map(|record| (line, record)))
        .collect();
    let mean = |total: u32| f64::from(total) / found.len().max(1) as f64;
    Grown {
        reach,
        steps: mean(found.iter().map(|(_, record)| record.steps).sum()),
        looks: mean(found.iter().map(|(_, record)| record.looks).sum()),
        accepted: found.into_iter().map(|(line, _)| line).collect(),
    }
}
