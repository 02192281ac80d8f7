//! The known lean and the firm footing. A footing's ways go from the start as a walk's do from the
//! apex, with the rank of each computed once.

use super::walk::{
    dot, minus, placed, plus, point, signs, stack, vector, wedge, Solid, Stop, Vector, Walk, FIRM,
    PAIRS,
};
use crate::answers::{Firm, Lean, Pick};

/// What is asked of an accepted answer.
struct Measured {
    normal: Vector,
    m: [Vector; 3],
}

#[inline]
fn within(most: u32, vector: Vector) -> bool {
    vector.iter().fold(true, |within, part| within & (part.unsigned_abs() <= most))
}

/// None is 35.
#[inline]
fn measured(pick: &Pick) -> Option<Measured> {
    let normal = vector(pick.normal);
    let m = [vector(pick.m0), vector(pick.m1), vector(pick.m2)];
    let small = within(256, normal) & within(2046, m[0]) & within(2046, m[1]) & within(2046, m[2]);
    (pick.number == 0 && small && normal != [0; 3]).then(|| Measured { normal, m })
}

impl Measured {
    #[inline]
    fn level(&self) -> [bool; 3] {
        self.normal.map(|part| part == 0)
    }

    #[inline]
    fn side(&self, (k, l): (usize, usize)) -> Vector {
        minus(self.m[l], self.m[k])
    }

    /// 3S.
    #[inline]
    fn part(&self) -> u64 {
        let level = self.level();
        let squared = |k: usize, l: usize| {
            let side = self.side((k, l));
            if level[k] | level[l] {
                0
            } else {
                dot(side, side)
            }
        };
        let levels: i32 = level.iter().map(|&level| i32::from(level)).sum();
        let longest = squared(0, 1).max(squared(0, 2)).max(squared(1, 2));
        3 * (longest + levels) as u64
    }

    #[inline]
    fn whole(&self, power: u32) -> u64 {
        let power = u64::from(power);
        power * power * dot(self.normal, self.normal) as u64
    }
}

#[inline(never)]
pub fn known_lean(pick: &Pick, reach: i32) -> Lean {
    match measured(pick) {
        Some(answer) if (1..=256).contains(&reach) => {
            let last = (reach as u32).next_power_of_two();
            Lean { number: 0, part: answer.part(), whole: answer.whole(last) }
        }
        _ => Lean { number: 35, ..Default::default() },
    }
}

impl<S: Solid> Walk<'_, S, FIRM> {
    /// The last power at which every way from the start is filled, none outside the box. Powers
    /// are bits.
    #[inline]
    fn firm_to<const N: usize>(&mut self, start: Vector, ways: [Vector; N]) -> u32 {
        let here = dot(self.ranks, start);
        let ways = ways.map(|way| (way, dot(self.ranks, way)));
        let mut bit = 0;
        loop {
            for (way, along) in ways {
                let at = plus(start, way.map(|part| part << bit));
                if !matches!(self.look(at, here + (along << bit)), Ok(true)) {
                    return 1 << bit >> 1;
                }
            }
            if 1 << bit >= self.reach {
                return 1 << bit;
            }
            bit += 1;
        }
    }

    /// The sides between corners that are not level and the level axes, all of them both ways.
    #[inline]
    fn footing(&mut self, start: Vector, answer: &Measured) -> u32 {
        let [x, y, z] = self.units();
        let side = |k, l| answer.side((k, l));
        let (one, other) = match answer.level() {
            [false, false, false] => {
                return self.firm_to(start, PAIRS.map(|pair| answer.side(pair)));
            }
            [true, false, false] => (side(1, 2), x),
            [false, true, false] => (side(0, 2), y),
            [false, false, true] => (side(0, 1), z),
            [true, true, _] => (x, y),
            [true, _, true] => (x, z),
            [_, true, true] => (y, z),
        };
        self.firm_to(start, [one, minus([0; 3], one), other, minus([0; 3], other)])
    }
}

fn refused(Stop(number, place): Stop, looks: u32) -> Firm {
    Firm { number, place: point(place), looks, ..Default::default() }
}

/// 35 is judged before 4.
#[inline]
fn firm<S: Solid>(solid: &(S, bool), pick: &Pick, frame: i32, reach: i32) -> Firm {
    let (apex, signs) = (vector(pick.apex), signs(frame));
    let start = [0, 1, 2].map(|axis| apex[axis].saturating_sub(signs[axis]));
    match (placed(solid, start, |_| apex, frame, reach), measured(pick)) {
        (Err(stop @ Stop(1..=3, _)), _) => refused(stop, 0),
        (_, None) => refused(Stop(35, [0; 3]), 0),
        (Err(stop), _) => refused(stop, 0),
        (Ok(mut walk), Some(answer)) => match walk.face(start) {
            Ok(()) => {
                let power = walk.footing(start, &answer);
                let (part, whole) = (answer.part(), answer.whole(power));
                Firm { power, looks: walk.looks, part, whole, ..Default::default() }
            }
            Err(stop) => refused(stop, walk.looks),
        },
    }
}

#[inline(never)]
pub fn firm_wedge(slope: [i32; 4], pick: &Pick, frame: i32, reach: i32) -> Firm {
    firm(&wedge(slope), pick, frame, reach)
}

#[inline(never)]
pub fn firm_stack(sizes: [i32; 3], bytes: &[u8], pick: &Pick, frame: i32, reach: i32) -> Firm {
    firm(&stack(sizes, bytes), pick, frame, reach)
}
