//! The probing walk, in document 01's order and with document 02's 2026-01 (level faces): what the
//! pick, the quick touch, the start check and the walk from a ready start share.

use crate::point::{cross, dot, lay, minus, plus, signs, times, Point, ORIGIN, UNITS};
use crate::solid::Solid;

pub const PAIRS: [(usize, usize); 6] = [(0, 1), (0, 2), (1, 0), (1, 2), (2, 0), (2, 1)];

type Triangle = [Point; 3];

#[derive(Clone, Copy, Debug, PartialEq, Eq)]
pub struct Record {
    pub normal: Point,
    pub vectors: Triangle,
    pub apex: Point,
    pub steps: u32,
    pub looks: u32,
}

#[derive(Clone, Copy, Debug, PartialEq, Eq)]
pub struct Refusal {
    pub number: u32,
    pub place: Point,
    pub steps: u32,
    pub looks: u32,
}

/// A refusal before the first look.
pub fn at_once(number: u32, place: Point) -> Refusal {
    Refusal { number, place, steps: 0, looks: 0 }
}

/// Refusals 1, 2 and 3.
pub fn judged<S: Solid>(solid: &S, frame: i64, reach: i64) -> Result<(), Refusal> {
    let refused = |number| Err(at_once(number, ORIGIN));
    if !(1..=256).contains(&reach) {
        return refused(1);
    }
    if !(0..=7).contains(&frame) {
        return refused(2);
    }
    if !solid.permitted() {
        return refused(3);
    }
    Ok(())
}

/// Why a walk stops; its counts are known to the walk.
pub struct Stop {
    pub number: u32,
    pub place: Point,
}

/// The axes that take part in the rounds.
pub type Remaining = Result<Vec<usize>, Stop>;

pub struct Walk<'a, S> {
    solid: &'a S,
    signs: Point,
    start: Point,
    pub apex: Point,
    reach: i64,
    powers: Vec<i64>,
    steps: u32,
    pub looks: u32,
}

impl<'a, S: Solid> Walk<'a, S> {
    /// A walk whose apex is q = p + s.
    pub fn new(
        solid: &'a S,
        start: Point,
        frame: i64,
        reach: i64,
        powers: Vec<i64>,
    ) -> Result<Walk<'a, S>, Refusal> {
        Walk::about(solid, start, plus(start, signs(frame)), frame, reach, powers)
    }

    /// A walk with this apex that looks at these powers, unless it is refused with 1 to 4.
    pub fn about(
        solid: &'a S,
        start: Point,
        apex: Point,
        frame: i64,
        reach: i64,
        powers: Vec<i64>,
    ) -> Result<Walk<'a, S>, Refusal> {
        judged(solid, frame, reach)?;
        for point in [start, apex] {
            if !solid.inside(point) {
                return Err(at_once(4, point));
            }
        }
        let signs = signs(frame);
        Ok(Walk { solid, signs, start, apex, reach, powers, steps: 0, looks: 0 })
    }

    /// Item 1 alone.
    pub fn face(&mut self) -> Result<(), Refusal> {
        let facing = self.facing();
        facing.map_err(|stop| self.refusal(stop))
    }

    /// All before the rounds; what is asked after q is given.
    pub fn begin(&mut self, after_apex: fn(&mut Self) -> Remaining) -> Result<Vec<usize>, Refusal> {
        let remaining = self.facing().and_then(|()| after_apex(self));
        remaining.map_err(|stop| self.refusal(stop))
    }

    /// The rounds of these axes, and the end.
    pub fn answer(mut self, remaining: &[usize]) -> Result<Record, Refusal> {
        let end = self.end(remaining);
        let (normal, triangle) = end.map_err(|stop| self.refusal(stop))?;
        let Walk { signs, apex, steps, looks, .. } = self;
        let vectors = triangle.map(|m| lay(signs, m));
        Ok(Record { normal: lay(signs, normal), vectors, apex, steps, looks })
    }

    fn refusal(&self, Stop { number, place }: Stop) -> Refusal {
        Refusal { number, place, steps: self.steps, looks: self.looks }
    }

    /// The normal and the triangle, in the frame.
    fn end(&mut self, remaining: &[usize]) -> Result<(Point, Triangle), Stop> {
        let triangle = self.rounds(remaining)?;
        Ok((self.normal(triangle, remaining)?, triangle))
    }

    /// Item 1: p, then q.
    fn facing(&mut self) -> Result<(), Stop> {
        if !self.look(self.start)? {
            return Err(Stop { number: 5, place: self.start });
        }
        if self.look(self.apex)? {
            return Err(Stop { number: 6, place: self.apex });
        }
        Ok(())
    }

    /// Items 3 to 6: rounds until no pair falls. "As many steps allowed as the reach less the
    /// number of remaining axes (none if that is below zero)."
    fn rounds(&mut self, remaining: &[usize]) -> Result<Triangle, Stop> {
        let allowed = (self.reach - remaining.len() as i64).max(0);
        let mut triangle = UNITS;
        loop {
            let falling = self.round(&triangle, remaining)?;
            if falling.is_empty() {
                return Ok(triangle);
            }
            if i64::from(self.steps) == allowed {
                return Err(Stop { number: 9, place: self.apex });
            }
            let (k, l) = choice(&triangle, &falling);
            triangle[k] = minus(triangle[k], triangle[l]);
            self.steps += 1;
        }
    }

    /// The pairs that fall, all asked but those of a level axis, which "takes no part".
    fn round(
        &mut self,
        triangle: &Triangle,
        remaining: &[usize],
    ) -> Result<Vec<(usize, usize)>, Stop> {
        let mut falling = Vec::new();
        for (k, l) in PAIRS {
            let takes_part = remaining.contains(&k) && remaining.contains(&l);
            if takes_part && self.falls(minus(triangle[l], triangle[k]))? {
                falling.push((k, l));
            }
        }
        Ok(falling)
    }

    /// The normal, a level axis's component 0, unless its sizes add to more than the reach.
    fn normal(&self, [m0, m1, m2]: Triangle, remaining: &[usize]) -> Result<Point, Stop> {
        let sum = plus(plus(cross(m0, m1), cross(m1, m2)), cross(m2, m0));
        let n = [0, 1, 2].map(|axis| if remaining.contains(&axis) { sum[axis] } else { 0 });
        if n.iter().map(|part| part.abs()).sum::<i64>() > self.reach {
            return Err(Stop { number: 10, place: self.apex });
        }
        Ok(n)
    }

    pub fn falls(&mut self, u: Point) -> Result<bool, Stop> {
        for index in 0..self.powers.len() {
            if self.look(self.laid_at_apex(self.powers[index], u))? {
                return Ok(true);
            }
        }
        Ok(false)
    }

    fn laid_at_apex(&self, power: i64, u: Point) -> Point {
        plus(self.apex, times(power, lay(self.signs, u)))
    }

    /// q less the axis's unit vector, laid in.
    pub fn corner(&self, axis: usize) -> Point {
        self.laid_at_apex(1, times(-1, UNITS[axis]))
    }

    pub fn look(&mut self, point: Point) -> Result<bool, Stop> {
        if !self.solid.inside(point) {
            return Err(Stop { number: 8, place: point });
        }
        self.looks += 1;
        Ok(self.solid.filled(point))
    }
}

/// The first falling pair whose sphere has no other falling candidate strictly inside.
fn choice(triangle: &Triangle, falling: &[(usize, usize)]) -> (usize, usize) {
    let candidate = |(k, l): (usize, usize)| minus(triangle[l], triangle[k]);
    let emptied = |pair: &&(usize, usize)| {
        falling
            .iter()
            .filter(|other| other != pair)
            .all(|&other| !strictly_inside(triangle, candidate(**pair), candidate(other)))
    };
    *falling.iter().find(emptied).expect("some sphere is empty")
}

/// Is y strictly inside the sphere through the triangle and x? (Points counted from the apex.)
fn strictly_inside(triangle: &Triangle, x: Point, y: Point) -> bool {
    let [v0, v1, v2] = triangle.map(|m| times(-1, m));
    let row = |point| {
        let d = minus(point, v0);
        [d[0], d[1], d[2], dot(d, d)].map(i128::from)
    };
    determinant(&[row(v1), row(v2), row(x), row(y)]) < 0
}

/// By the first column: sign by turns, each entry times its minor.
fn determinant(rows: &[[i128; 4]; 4]) -> i128 {
    let minor = |leave_out: usize| {
        let kept: Vec<[i128; 4]> = (0..4).filter(|&i| i != leave_out).map(|i| rows[i]).collect();
        let [_, a, b, c] = kept[0];
        let [_, d, e, f] = kept[1];
        let [_, g, h, i] = kept[2];
        a * (e * i - f * h) - b * (d * i - f * g) + c * (d * h - e * g)
    };
    rows[0][0] * minor(0) - rows[1][0] * minor(1) + rows[2][0] * minor(2) - rows[3][0] * minor(3)
}
