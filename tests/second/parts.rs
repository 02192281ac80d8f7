//! Planes and convex parts made by chance, and where they are touched.

use crate::chance::Chance;
use crate::lean::Bound;
use crate::point::{cross, dot, lay, plus, signs, Point};
use crate::solid::{in_box, Solid};

/// What has normal·v < t is below it.
#[derive(Clone, Copy, Debug)]
pub struct Plane {
    pub normal: Point,
    pub t: i64,
}

impl Plane {
    pub fn below(&self, point: Point) -> bool {
        dot(self.normal, point) < self.t
    }

    /// The squared sine of the angle to n, as a fraction of whole numbers.
    pub fn lean(&self, n: Point) -> [i128; 2] {
        let across = cross(self.normal, n);
        [dot(across, across), dot(self.normal, self.normal) * dot(n, n)].map(i128::from)
    }

    /// Whether that is below the bound.
    pub fn within(&self, n: Point, bound: Bound) -> bool {
        let [part, whole] = self.lean(n);
        i128::from(bound.whole) * part < i128::from(bound.part) * whole
    }
}

/// The largest part of a plane's normal that is made up.
pub const MOST: i64 = 1000;

/// A plane that p = start is below and q is not; in the frame its parts are these.
pub fn plane_between(chance: &mut Chance, start: Point, frame: i64, parts: Point) -> Plane {
    let normal = lay(signs(frame), parts);
    let height = chance.between(0, parts.iter().sum::<i64>() - 1);
    Plane { normal, t: dot(normal, plus(start, signs(frame))) - height }
}

/// What is below all of these planes, in a box of this side.
#[derive(Clone, Debug)]
pub struct Part {
    pub planes: Vec<Plane>,
    pub side: i64,
}

impl Solid for Part {
    fn permitted(&self) -> bool {
        true
    }

    fn inside(&self, point: Point) -> bool {
        in_box(point, [self.side; 3])
    }

    fn filled(&self, point: Point) -> bool {
        self.planes.iter().all(|plane| plane.below(point))
    }
}

/// Where a part is touched.
#[derive(Clone, Copy, Debug)]
pub struct Spot {
    pub start: Point,
    pub frame: i64,
}

fn any_vector(chance: &mut Chance) -> Point {
    [0, 1, 2].map(|_| chance.between(-MOST, MOST))
}

/// A part with 4 to 8 faces of any slope about the middle, which in a box of 256 a side are 40 to 70
/// voxels from it.
pub fn convex(chance: &mut Chance, side: i64) -> Part {
    let faces = chance.between(4, 8);
    Part { planes: (0..faces).map(|_| face(chance, side)).collect(), side }
}

fn face(chance: &mut Chance, side: i64) -> Plane {
    let normal = any_vector(chance);
    let far = chance.between(40 * side, 70 * side) as f64 / 256.0;
    let length = (dot(normal, normal) as f64).sqrt();
    Plane { normal, t: dot(normal, [side / 2; 3]) + (far * length) as i64 }
}

impl Part {
    /// A spot where p is filled and q, if it is inside, is not: near where a way from the middle meets
    /// a face, in the frame of that face. Some are seen from any frame. None where the way meets the
    /// box.
    pub fn touched(&self, chance: &mut Chance) -> Option<Spot> {
        let way = any_vector(chance);
        let on_way = |k: i64| way.map(|part| self.side / 2 + part * k / MOST);
        let last = (0..2 * self.side).take_while(|&k| self.stands(on_way(k))).last()?;
        let next = on_way(last + 1);
        let met = self.planes.iter().find(|plane| !plane.below(next) && self.inside(next))?;
        let frame = if chance.percent(10) { chance.between(0, 7) } else { frame_of(met.normal) };
        let beside = plus(on_way(last), [0, 1, 2].map(|_| chance.between(-1, 1)));
        let free = |start: Point| self.stands(start) && !self.stands(plus(start, signs(frame)));
        let start = if free(beside) { beside } else { on_way(last) };
        Some(Spot { start, frame })
    }

    fn stands(&self, point: Point) -> bool {
        self.inside(point) && self.filled(point)
    }

    /// The planes that a point is not below.
    pub fn under(&self, point: Point) -> impl Iterator<Item = &Plane> {
        self.planes.iter().filter(move |plane| !plane.below(point))
    }
}

/// The frame in which no part of the normal is below 0.
fn frame_of(normal: Point) -> i64 {
    (0..3).filter(|&axis| normal[axis] < 0).map(|axis| 1 << axis).sum()
}
