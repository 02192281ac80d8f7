//! Picks on stacks, and what else is asked of the same numbers.

use crate::call::{Call, OnStack, Walk};
use crate::chance::Chance;
use crate::wedge_lines::{frame, height, normal_in_frame, reach};
use second::point::{dot, lay, minus, plus, signs, times, Point, UNITS};
use second::solid::{Sizes, Solid};
use std::cell::{Cell, RefCell};
use std::collections::HashMap;

fn side(chance: &mut Chance, most: i64) -> i64 {
    match chance.below(8) {
        0 => chance.between(1, 3.min(most)),
        1 => most,
        2 => (most / 8 * 8).max(1),
        _ => chance.between((most / 2).max(1), most),
    }
}

fn sides(chance: &mut Chance) -> Point {
    let most = match chance.below(400) {
        0 => 256,
        1..=3 => 130,
        4..=39 => 70,
        40..=199 => 36,
        _ => 20,
    };
    [0, 1, 2].map(|_| side(chance, most))
}

/// A stack under construction: what is filled, with noise in the padding bits.
struct Block {
    sizes: Sizes,
    bytes: Vec<u8>,
}

impl Block {
    fn of(
        chance: &mut Chance,
        [width, height, depth]: Point,
        filled: impl Fn(Point) -> bool,
    ) -> Block {
        let sizes = Sizes { width, height, depth };
        let mut bytes = chance.bytes(sizes.stack_bytes());
        for z in 0..depth {
            for y in 0..height {
                for first in (0..width).step_by(8) {
                    // The voxels of a byte, which follow the first one's bit.
                    let (byte, bit) = sizes.bit_place([first, y, z]);
                    let voxels = (first..width.min(first + 8)).map(|x| (bit >> (x - first), x));
                    let (ours, ones) = voxels.fold((0, 0), |(ours, ones), (bit, x)| {
                        (ours | bit, ones | if filled([x, y, z]) { bit } else { 0 })
                    });
                    bytes[byte] = bytes[byte] & !ours | ones;
                }
            }
        }
        Block { sizes, bytes }
    }

    fn contains(&self, [x, y, z]: Point) -> bool {
        let Sizes { width, height, depth } = self.sizes;
        (0..width).contains(&x) && (0..height).contains(&y) && (0..depth).contains(&z)
    }

    fn set(&mut self, point: Point, filled: bool) {
        if self.contains(point) {
            set(&mut self.bytes, self.sizes, point, filled);
        }
    }
}

/// The bytes of a stack with this filled.
pub fn block_of(chance: &mut Chance, sides: Point, filled: impl Fn(Point) -> bool) -> Vec<u8> {
    Block::of(chance, sides, filled).bytes
}

fn set(bytes: &mut [u8], sizes: Sizes, point: Point, filled: bool) {
    let (byte, bit) = sizes.bit_place(point);
    bytes[byte] = if filled { bytes[byte] | bit } else { bytes[byte] & !bit };
}

/// The middle, near it, or anywhere.
fn start(chance: &mut Chance, sides: Point) -> Point {
    let kind = chance.below(4);
    sides.map(|side| match kind {
        0 => chance.between(0, side - 1),
        1 => side / 2,
        _ => (side / 2 + chance.between(-3, 3)).clamp(0, side - 1),
    })
}

/// A slope with q at some height, then perhaps some voxels turned over.
fn slope(chance: &mut Chance, sides: Point, start: Point, signs: Point, reach: i64) -> Block {
    let parts = normal_in_frame(chance, reach);
    let normal = lay(signs, parts);
    let h = dot(normal, plus(start, signs)) - height(chance, parts.iter().sum());
    let mut block = Block::of(chance, sides, |point| dot(normal, point) < h);
    if chance.percent(30) {
        let most = chance.one_of(&[1, 5, 50]);
        for _ in 0..chance.between(1, most) {
            let near = plus(start, [0, 1, 2].map(|_| chance.between(-6, 6)));
            block.set(near, chance.percent(50));
        }
    }
    block
}

/// Empty but for p, voxels beside q on the axes, below it or opposite, and a few near it.
fn few(chance: &mut Chance, sides: Point, start: Point, signs: Point) -> Block {
    let apex = plus(start, signs);
    let mut block = Block::of(chance, sides, |_| false);
    block.set(start, true);
    for unit in UNITS {
        let beside = lay(signs, unit);
        match chance.below(40) {
            0 => block.set(plus(apex, beside), true),
            1..=7 => {}
            _ => block.set(minus(apex, beside), true),
        }
    }
    let room = chance.one_of(&[1, 2, 2, 3, 5]);
    for _ in 0..chance.between(0, 12) {
        block.set(plus(apex, [0, 1, 2].map(|_| chance.between(-room, room))), true);
    }
    block.set(apex, chance.percent(2));
    block
}

/// Axes that are to be level: often none, never all.
fn level_axes(chance: &mut Chance) -> [bool; 3] {
    let mut level = [false; 3];
    for _ in 0..chance.one_of(&[0, 0, 0, 1, 1, 2]) {
        level[chance.below(3) as usize] = true;
    }
    level
}

/// Noise that is the same all along each level axis.
fn noise(chance: &mut Chance, sides: Point, start: Point, signs: Point) -> Block {
    let density = chance.one_of(&[5, 20, 50, 80, 95]);
    let level = level_axes(chance);
    let across = |point: Point| [0, 1, 2].map(|axis| if level[axis] { 0 } else { point[axis] });
    let good_start = chance.percent(80);
    let (below, above) = (across(start), across(plus(start, signs)));
    let seed = chance.bits();
    Block::of(chance, sides, |point| {
        let [x, y, z] = across(point);
        let is = |place: Point| x == place[0] && y == place[1] && z == place[2];
        if good_start && is(below) {
            true
        } else if good_start && is(above) {
            false
        } else {
            Chance::of(seed, "noise", (x + 256 * (y + 256 * z)) as u64).percent(density)
        }
    })
}

fn block(chance: &mut Chance, sides: Point, start: Point, signs: Point, reach: i64) -> Block {
    match chance.below(12) {
        0 => Block::of(chance, sides, |_| true),
        1 => Block::of(chance, sides, |_| false),
        2 | 3 => noise(chance, sides, start, signs),
        4..=6 => few(chance, sides, start, signs),
        _ => slope(chance, sides, start, signs, reach),
    }
}

const ENDS: [i32; 12] =
    [i32::MIN, i32::MIN + 1, -1, 0, 1, 255, 256, 257, 1 << 16, 1 << 24, i32::MAX - 1, i32::MAX];

/// One number of the call made extreme, or the bytes cut.
fn damage(chance: &mut Chance, asked: &mut OnStack) {
    let axis = chance.below(3) as usize;
    match chance.below(6) {
        0 | 1 => asked.sizes[axis] = chance.one_of(&ENDS),
        2 => asked.start[axis] = chance.one_of(&ENDS),
        3 => asked.sizes[axis] += chance.one_of(&[-1, 1]),
        _ => {
            let keep = asked.bytes.len() as u64;
            let fewer = [keep.saturating_sub(1), 0, chance.below(keep + 1)];
            asked.bytes.truncate(chance.one_of(&fewer) as usize);
        }
    }
}

/// Now and then the call is another than the one before it: damaged, in another frame or reach.
pub fn disturb(chance: &mut Chance, asked: &mut OnStack) {
    match chance.below(20) {
        0 => damage(chance, asked),
        1 => asked.frame = frame(chance) as i32,
        2 => asked.reach = reach(chance) as i32,
        _ => {}
    }
}

pub fn any(walk: Walk, chance: &mut Chance, _: u64) -> Vec<Call> {
    vec![Call::Stack(walk, asked(chance))]
}

pub fn asked(chance: &mut Chance) -> OnStack {
    let sides = sides(chance);
    let start = start(chance, sides);
    let (frame, reach) = (frame(chance), reach(chance));
    let reach = if chance.percent(60) { chance.between(1, 7) } else { reach };
    let Block { mut bytes, .. } = block(chance, sides, start, signs(frame & 7), reach);
    if chance.percent(50) {
        let behind = chance.len_to(40);
        bytes.extend(chance.bytes(behind));
    }
    let mut asked = on_stack(sides, bytes, start, frame, reach);
    if chance.percent(8) {
        damage(chance, &mut asked);
    }
    asked
}

pub fn on_stack(sides: Point, bytes: Vec<u8>, start: Point, frame: i64, reach: i64) -> OnStack {
    OnStack {
        sizes: sides.map(|side| side as i32),
        bytes,
        start: start.map(|part| part as i32),
        frame: frame as i32,
        reach: reach as i32,
    }
}

/// A solid whose voxels are decided by chance only when the second program looks at them, so that
/// its walk goes on for long and meets every kind of round.
pub struct Unforeseen {
    sides: Point,
    pub start: Point,
    pub apex: Point,
    level: [bool; 3],
    chance: RefCell<Chance>,
    /// How many in a hundred are filled, from now on.
    pub density: Cell<u64>,
    decided: RefCell<HashMap<Point, bool>>,
}

impl Unforeseen {
    /// How many in a hundred are filled here: along a level axis from q hardly any, so that it
    /// mostly stays level; along another so many that it mostly falls.
    fn density_at(&self, point: Point) -> u64 {
        let from_apex = minus(point, self.apex);
        let along = |axis: usize| from_apex == times(from_apex[axis], UNITS[axis]);
        match (0..3).find(|&axis| along(axis)) {
            Some(axis) if self.level[axis] => 1,
            Some(_) => 90,
            None => self.density.get(),
        }
    }
}

impl Solid for Unforeseen {
    fn permitted(&self) -> bool {
        true
    }

    fn inside(&self, point: Point) -> bool {
        (0..3).all(|axis| (0..self.sides[axis]).contains(&point[axis]))
    }

    fn filled(&self, point: Point) -> bool {
        let mut decided = self.decided.borrow_mut();
        // p is filled, q is empty.
        *decided.entry(point).or_insert_with(|| {
            let by_chance = || self.chance.borrow_mut().percent(self.density_at(point));
            point == self.start || point != self.apex && by_chance()
        })
    }
}

pub fn unforeseen(walk: Walk, chance: &mut Chance, _: u64) -> Vec<Call> {
    decided_by(chance, |_, _, _, _| walk)
}

/// A stack decided as the second program's walk goes on, and that walk on it; which one may go by
/// q, or by what else was asked of the solid before, in this frame and reach.
pub fn decided_by(
    chance: &mut Chance,
    walk: impl FnOnce(&mut Chance, &Unforeseen, i64, i64) -> Walk,
) -> Vec<Call> {
    let large = if chance.percent(15) { 256 } else { 100 };
    let side = chance.one_of(&[24, 48, 64, large]);
    let sides = [0, 1, 2].map(|_| side - chance.between(0, 7));
    let start = sides.map(|side| side / 2 + chance.between(-2, 2));
    let (frame, most) = (chance.between(0, 7), chance.one_of(&[6, 8, 16, 32, 64, 128]));
    let reach = chance.between(1, most);
    let apex = plus(start, signs(frame));
    let solid = Unforeseen {
        sides,
        start,
        apex,
        level: level_axes(chance),
        chance: RefCell::new(Chance::of(chance.bits(), "decided", 0)),
        density: Cell::new(chance.one_of(&[5, 15, 30, 50, 70, 90])),
        decided: RefCell::default(),
    };
    let walk = walk(chance, &solid, frame, reach);
    walk.second(&solid, start, frame, reach);
    let [width, height, depth] = sides;
    let sizes = Sizes { width, height, depth };
    let mut bytes = vec![0; sizes.stack_bytes()];
    for (&point, &filled) in solid.decided.borrow().iter() {
        set(&mut bytes, sizes, point, filled);
    }
    vec![Call::Stack(walk, on_stack(sides, bytes, start, frame, reach))]
}
