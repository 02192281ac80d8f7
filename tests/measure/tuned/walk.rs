//! The walk. Vectors are laid in from the first to the last; a point is inside by one unsigned
//! comparison a side; powers go by doubling. Whether a voxel is filled goes by its rank, which is a
//! product with one vector: n·v of a wedge, the bit's place of a stack. So along a way only the
//! ranks of q and of the way are computed, and doubled. The choice is the least m_l·(m_l - m_k).

use crate::answers::{Check, Pick, Point, Ready, Touch};

pub type Vector = [i32; 3];

pub trait Solid {
    fn sides(&self) -> [u32; 3];
    /// A voxel's rank is its product with this.
    fn ranks(&self) -> Vector;
    /// Of a voxel in the box, by its rank.
    fn filled(&self, rank: i32) -> bool;
}

pub struct Wedge {
    abc: Vector,
    h: i32,
}

impl Solid for Wedge {
    #[inline]
    fn sides(&self) -> [u32; 3] {
        [1024; 3]
    }

    #[inline]
    fn ranks(&self) -> Vector {
        self.abc
    }

    #[inline]
    fn filled(&self, rank: i32) -> bool {
        rank < self.h
    }
}

pub struct Stack<'a> {
    sizes: Vector,
    bytes: &'a [u8],
}

impl Solid for Stack<'_> {
    #[inline]
    fn sides(&self) -> [u32; 3] {
        self.sizes.map(|size| size as u32)
    }

    #[inline]
    fn ranks(&self) -> Vector {
        let row = 8 * row_bytes(self.sizes[0]) as i32;
        [1, row, row * self.sizes[1]]
    }

    #[inline]
    fn filled(&self, rank: i32) -> bool {
        // Safe: the stack is permitted and the voxel is in the box, so its byte is lent.
        let byte = unsafe { *self.bytes.get_unchecked(rank as usize >> 3) };
        byte & (0x80 >> (rank & 7)) != 0
    }
}

#[inline]
pub fn plus(a: Vector, b: Vector) -> Vector {
    [a[0] + b[0], a[1] + b[1], a[2] + b[2]]
}

#[inline]
pub fn minus(a: Vector, b: Vector) -> Vector {
    [a[0] - b[0], a[1] - b[1], a[2] - b[2]]
}

#[inline]
pub fn dot(a: Vector, b: Vector) -> i32 {
    a[0] * b[0] + a[1] * b[1] + a[2] * b[2]
}

fn cross(a: Vector, b: Vector) -> Vector {
    [a[1] * b[2] - a[2] * b[1], a[2] * b[0] - a[0] * b[2], a[0] * b[1] - a[1] * b[0]]
}

pub fn point([x, y, z]: Vector) -> Point {
    Point { x, y, z }
}

#[inline]
pub fn vector(Point { x, y, z }: Point) -> Vector {
    [x, y, z]
}

#[inline]
fn inside(sides: [u32; 3], [x, y, z]: Vector) -> bool {
    ((x as u32) < sides[0]) & ((y as u32) < sides[1]) & ((z as u32) < sides[2])
}

/// What a walk is made for: a pick, a touch, a check, a walk from a ready start or a firm footing.
/// Each is compiled for itself.
const PICK: u8 = 0;
const TOUCH: u8 = 1;
const CHECK: u8 = 2;
const FROM: u8 = 3;
pub const FIRM: u8 = 4;

pub struct Walk<'a, S, const CALL: u8> {
    solid: &'a S,
    sides: [u32; 3],
    pub ranks: Vector,
    apex: Vector,
    /// The apex's rank.
    here: i32,
    signs: Vector,
    pub reach: i32,
    steps: u32,
    pub looks: u32,
}

/// A refusal's number and place.
pub struct Stop(pub u32, pub Vector);

pub const PAIRS: [(usize, usize); 6] = [(0, 1), (0, 2), (1, 0), (1, 2), (2, 0), (2, 1)];

impl<S: Solid, const CALL: u8> Walk<'_, S, CALL> {
    #[inline]
    pub fn look(&mut self, point: Vector, rank: i32) -> Result<bool, Stop> {
        if !inside(self.sides, point) {
            return Err(Stop(8, point));
        }
        self.looks += 1;
        Ok(self.solid.filled(rank))
    }

    /// Of a vector that is laid in. The next point is as far from this one as this from the apex.
    #[inline]
    fn falls(&mut self, mut way: Vector) -> Result<bool, Stop> {
        let mut along = dot(self.ranks, way);
        let mut at = plus(self.apex, way);
        let mut rank = self.here + along;
        let mut power = 1;
        loop {
            if self.look(at, rank)? {
                return Ok(true);
            }
            if CALL == TOUCH || power >= self.reach {
                return Ok(false);
            }
            power *= 2;
            at = plus(at, way);
            rank += along;
            way = plus(way, way);
            along += along;
        }
    }

    /// The unit vectors, laid in.
    #[inline]
    pub fn units(&self) -> [Vector; 3] {
        [[self.signs[0], 0, 0], [0, self.signs[1], 0], [0, 0, self.signs[2]]]
    }

    /// The start is filled and the apex is not.
    #[inline]
    pub fn face(&mut self, start: Vector) -> Result<(), Stop> {
        if !self.look(start, dot(self.ranks, start))? {
            return Err(Stop(5, start));
        }
        if self.look(self.apex, self.here)? {
            return Err(Stop(6, self.apex));
        }
        Ok(())
    }

    /// Which axes are level.
    fn begin(&mut self, start: Vector) -> Result<[bool; 3], Stop> {
        self.face(start)?;
        if CALL == TOUCH {
            self.corners()
        } else {
            self.axes()
        }
    }

    fn axes(&mut self) -> Result<[bool; 3], Stop> {
        let mut level = [false; 3];
        for (level, unit) in level.iter_mut().zip(self.units()) {
            if !self.falls(minus([0; 3], unit))? {
                if self.falls(unit)? {
                    return Err(Stop(7, minus(self.apex, unit)));
                }
                *level = true;
            }
        }
        if level == [true; 3] {
            return Err(Stop(7, minus(self.apex, self.units()[0])));
        }
        Ok(level)
    }

    /// A touch asks no axis.
    fn corners(&mut self) -> Result<[bool; 3], Stop> {
        for unit in self.units() {
            let corner = minus(self.apex, unit);
            if !self.look(corner, dot(self.ranks, corner))? {
                return Err(Stop(11, corner));
            }
        }
        Ok([false; 3])
    }

    /// Rounds over the pairs that take part, with so many steps (none if below zero). As in the
    /// library, the choice is the first falling pair of least m_l·(m_l - m_k).
    fn rounds<const N: usize>(
        &mut self,
        pairs: [(usize, usize); N],
        allowed: i32,
    ) -> Result<[Vector; 3], Stop> {
        let mut m = self.units();
        loop {
            let mut best = None;
            for (k, l) in pairs {
                let way = minus(m[l], m[k]);
                if self.falls(way)? {
                    let weight = dot(m[l], way);
                    if best.map_or(true, |(_, least)| weight < least) {
                        best = Some(((k, l), weight));
                    }
                }
            }
            let Some(((k, l), _)) = best else { return Ok(m) };
            if self.steps as i32 >= allowed {
                return Err(Stop(9, self.apex));
            }
            m[k] = minus(m[k], m[l]);
            self.steps += 1;
        }
    }

    /// The rounds of the axes that are not level; one axis alone has no pair.
    fn walk(&mut self, level: [bool; 3]) -> Result<[Vector; 3], Stop> {
        let reach = self.reach;
        match level {
            [false, false, false] => self.rounds(PAIRS, reach - 3),
            [true, false, false] => self.rounds([(1, 2), (2, 1)], reach - 2),
            [false, true, false] => self.rounds([(0, 2), (2, 0)], reach - 2),
            [false, false, true] => self.rounds([(0, 1), (1, 0)], reach - 2),
            _ => Ok(self.units()),
        }
    }

    /// The rounds and the end.
    fn end(&mut self, level: [bool; 3]) -> Result<Pick, Stop> {
        let m = self.walk(level)?;
        // A product of vectors that are laid in turns with the frame's signs.
        let turn = self.signs[0] * self.signs[1] * self.signs[2];
        let sum = plus(plus(cross(m[0], m[1]), cross(m[1], m[2])), cross(m[2], m[0]));
        let n = [0, 1, 2].map(|axis| if level[axis] { 0 } else { turn * sum[axis] });
        if n.iter().map(|part| part.abs()).sum::<i32>() > self.reach {
            return Err(Stop(10, self.apex));
        }
        Ok(Pick {
            number: 0,
            place: point([0; 3]),
            steps: self.steps,
            looks: self.looks,
            normal: point(n),
            m0: point(m[0]),
            m1: point(m[1]),
            m2: point(m[2]),
            apex: point(self.apex),
        })
    }
}

fn refused(number: u32, place: Vector, steps: u32, looks: u32) -> Pick {
    Pick { number, place: point(place), steps, looks, ..Default::default() }
}

#[inline]
pub fn signs(frame: i32) -> Vector {
    [1 - 2 * (frame & 1), 1 - (frame & 2), 1 - (frame >> 1 & 2)]
}

/// The walk of a solid, unless 1 to 4 refuse it. The apex goes by the signs.
#[inline]
pub fn placed<S: Solid, const CALL: u8>(
    (solid, permitted): &(S, bool),
    start: Vector,
    apex: impl FnOnce(Vector) -> Vector,
    frame: i32,
    reach: i32,
) -> Result<Walk<'_, S, CALL>, Stop> {
    if !(1..=256).contains(&reach) {
        return Err(Stop(1, [0; 3]));
    }
    if !(0..=7).contains(&frame) {
        return Err(Stop(2, [0; 3]));
    }
    if !permitted {
        return Err(Stop(3, [0; 3]));
    }
    let sides = solid.sides();
    if !inside(sides, start) {
        return Err(Stop(4, start));
    }
    let signs = signs(frame);
    let apex = apex(signs);
    if !inside(sides, apex) {
        return Err(Stop(4, apex));
    }
    let ranks = solid.ranks();
    let here = dot(ranks, apex);
    Ok(Walk { solid, sides, ranks, apex, here, signs, reach, steps: 0, looks: 0 })
}

/// All of an answer but a touch's mark.
#[inline]
fn walked<S: Solid, const CALL: u8>(
    solid: &(S, bool),
    start: Vector,
    frame: i32,
    reach: i32,
) -> Pick {
    match placed::<S, CALL>(solid, start, |signs| plus(start, signs), frame, reach) {
        Ok(mut walk) => {
            let end = walk.begin(start).and_then(|level| walk.end(level));
            end.unwrap_or_else(|Stop(number, place)| refused(number, place, walk.steps, walk.looks))
        }
        Err(Stop(number, place)) => refused(number, place, 0, 0),
    }
}

#[inline]
fn checked<S: Solid>(solid: &(S, bool), start: Vector, frame: i32, reach: i32) -> Check {
    let refused = |Stop(number, place), looks| Check {
        number,
        place: point(place),
        looks,
        ..Default::default()
    };
    match placed::<S, CHECK>(solid, start, |signs| plus(start, signs), frame, reach) {
        Ok(mut walk) => match walk.begin(start) {
            Ok(level) => {
                let level = (0..3).map(|axis| u32::from(level[axis]) << axis).sum();
                let (start, apex, looks) = (point(start), point(walk.apex), walk.looks);
                let ready = Ready { start, apex, level, looks };
                Check { looks, ready, ..Default::default() }
            }
            Err(stop) => refused(stop, walk.looks),
        },
        Err(stop) => refused(stop, 0),
    }
}

#[inline]
fn walked_from<S: Solid>(solid: &(S, bool), ready: Ready, frame: i32, reach: i32) -> Pick {
    let [start, apex] = [ready.start, ready.apex].map(vector);
    match placed::<S, FROM>(solid, start, |_| apex, frame, reach) {
        Ok(mut walk) => {
            let level = [0, 1, 2].map(|axis| ready.level >> axis & 1 == 1);
            let powers = 1 + (reach as u32).next_power_of_two().trailing_zeros();
            if ready.looks > 2 + 6 * powers || level == [true; 3] {
                return refused(13, [0; 3], 0, 0);
            }
            walk.looks = ready.looks;
            let end = walk.end(level);
            end.unwrap_or_else(|Stop(number, place)| refused(number, place, walk.steps, walk.looks))
        }
        Err(Stop(number, place)) => refused(number, place, 0, 0),
    }
}

/// A wedge and whether it is permitted.
#[inline]
pub fn wedge([a, b, c, h]: [i32; 4]) -> (Wedge, bool) {
    let permitted = [a, b, c].iter().all(|part| (-1000..=1000).contains(part))
        && (-4_000_000..=4_000_000).contains(&h);
    (Wedge { abc: [a, b, c], h }, permitted)
}

#[inline]
fn on_wedge<const CALL: u8>([a, b, c, h, x, y, z, frame, reach]: [i32; 9]) -> Pick {
    walked::<_, CALL>(&wedge([a, b, c, h]), [x, y, z], frame, reach)
}

fn guess(rest: Pick) -> Touch {
    Touch::of(u32::from(rest.number == 0), rest)
}

#[inline(never)]
pub fn pick_wedge(line: [i32; 9]) -> Pick {
    on_wedge::<PICK>(line)
}

#[inline(never)]
pub fn touch_wedge(line: [i32; 9]) -> Touch {
    guess(on_wedge::<TOUCH>(line))
}

#[inline(never)]
pub fn check_wedge([a, b, c, h, x, y, z, frame, reach]: [i32; 9]) -> Check {
    checked(&wedge([a, b, c, h]), [x, y, z], frame, reach)
}

#[inline(never)]
pub fn walk_wedge(slope: [i32; 4], ready: Ready, frame: i32, reach: i32) -> Pick {
    walked_from(&wedge(slope), ready, frame, reach)
}

pub fn row_bytes(width: i32) -> usize {
    (width as usize + 7) >> 3
}

pub fn sizes_permitted(sizes: Vector, len: usize) -> bool {
    sizes.iter().all(|size| (1..=256).contains(size))
        && row_bytes(sizes[0]) * sizes[1] as usize * sizes[2] as usize <= len
}

/// A stack and whether it is permitted.
#[inline]
pub fn stack(sizes: Vector, bytes: &[u8]) -> (Stack<'_>, bool) {
    (Stack { sizes, bytes }, sizes_permitted(sizes, bytes.len()))
}

#[inline]
fn on_stack<const CALL: u8>(
    sizes: [i32; 3],
    bytes: &[u8],
    start: [i32; 3],
    frame: i32,
    reach: i32,
) -> Pick {
    walked::<_, CALL>(&stack(sizes, bytes), start, frame, reach)
}

#[inline(never)]
pub fn pick_stack(sizes: [i32; 3], bytes: &[u8], start: [i32; 3], frame: i32, reach: i32) -> Pick {
    on_stack::<PICK>(sizes, bytes, start, frame, reach)
}

#[inline(never)]
pub fn touch_stack(
    sizes: [i32; 3],
    bytes: &[u8],
    start: [i32; 3],
    frame: i32,
    reach: i32,
) -> Touch {
    guess(on_stack::<TOUCH>(sizes, bytes, start, frame, reach))
}

#[inline(never)]
pub fn check_stack(
    sizes: [i32; 3],
    bytes: &[u8],
    start: [i32; 3],
    frame: i32,
    reach: i32,
) -> Check {
    checked(&stack(sizes, bytes), start, frame, reach)
}

#[inline(never)]
pub fn walk_stack(sizes: [i32; 3], bytes: &[u8], ready: Ready, frame: i32, reach: i32) -> Pick {
    walked_from(&stack(sizes, bytes), ready, frame, reach)
}
