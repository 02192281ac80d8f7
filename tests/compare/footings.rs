//! Known leans and firm footings: of a pick's own answer, of nearly that, and of anything at all.

use crate::answers::{Pick, Point};
use crate::call::{Call, OnStack, Walk};
use crate::chance::Chance;
use crate::flat;
use crate::stacks::{asked, block_of, decided_by, disturb, on_stack};
use crate::wedge_lines::{line, reach};
use second::parts::convex;
use second::pick::pick;
use second::session::pick_of;
use second::solid::Solid;

const NORMAL_ENDS: [i32; 12] =
    [i32::MIN, -258, -257, -256, -255, -1, 0, 1, 255, 256, 257, i32::MAX];
const VECTOR_ENDS: [i32; 12] =
    [i32::MIN, -2048, -2047, -2046, -2045, -1, 0, 1, 2045, 2046, 2047, i32::MAX];
const APEX_ENDS: [i32; 12] =
    [i32::MIN, i32::MIN + 1, -1, 0, 1, 255, 256, 1022, 1023, 1024, i32::MAX - 1, i32::MAX];

/// One part moved by one, turned about, at an end, or anything.
fn change(chance: &mut Chance, Point { x, y, z }: &mut Point, ends: &[i32]) {
    let [part, ..] = match chance.below(3) {
        0 => [x, y, z],
        1 => [y, z, x],
        _ => [z, x, y],
    };
    *part = match chance.below(8) {
        0 => chance.bits() as i32,
        1 | 2 => part.saturating_add(chance.one_of(&[-1, 1])),
        3 => part.saturating_neg(),
        _ => chance.one_of(ends),
    };
}

/// All three parts at ends that are often within what is measured.
fn at_ends(chance: &mut Chance, ends: &[i32]) -> Point {
    let outermost = chance.percent(15);
    let most = ends.len() as u64;
    let (low, high) = if outermost { (0, most - 1) } else { (3, most - 3) };
    let mut part = || ends[chance.between(low as i64, high as i64) as usize];
    Point { x: part(), y: part(), z: part() }
}

fn vector<'a>(chance: &mut Chance, answer: &'a mut Pick) -> &'a mut Point {
    let Pick { m0, m1, m2, .. } = answer;
    match chance.below(3) {
        0 => m0,
        1 => m1,
        _ => m2,
    }
}

fn changed(chance: &mut Chance, mut answer: Pick) -> Pick {
    match chance.below(10) {
        0 => answer.number = chance.one_of(&[1, 8, 10, 35, 1 << 31, u32::MAX]),
        1 | 2 => change(chance, &mut answer.normal, &NORMAL_ENDS),
        3 => answer.normal = at_ends(chance, &NORMAL_ENDS),
        4 | 5 => {
            let vector = vector(chance, &mut answer);
            change(chance, vector, &VECTOR_ENDS);
        }
        6 => *vector(chance, &mut answer) = at_ends(chance, &VECTOR_ENDS),
        7 => change(chance, &mut answer.apex, &APEX_ENDS),
        8 => std::mem::swap(&mut answer.m0, &mut answer.m2),
        // Nothing is asked of these.
        _ => {
            change(chance, &mut answer.place, &APEX_ENDS);
            (answer.steps, answer.looks) = (chance.bits() as u32, chance.bits() as u32);
        }
    }
    answer
}

/// An accepted answer that no walk gave, about this start.
fn made_up(chance: &mut Chance, start: [i32; 3]) -> Pick {
    let mut near = |most: i64| {
        let [x, y, z] = [0; 3].map(|_| chance.between(-most, most) as i32);
        Point { x, y, z }
    };
    let (normal, m0, m1, m2, step) = (near(3), near(2), near(2), near(2), near(1));
    let [x, y, z] = start;
    let apex = Point {
        x: x.saturating_add(step.x),
        y: y.saturating_add(step.y),
        z: z.saturating_add(step.z),
    };
    Pick { normal, m0, m1, m2, apex, ..Default::default() }
}

/// A pick's answer as a host may hand it back: mostly as it was, one that no walk gave where it was
/// refused, changed in a number or more.
fn handed(chance: &mut Chance, answer: Pick, start: [i32; 3]) -> Pick {
    let refused = answer.number != 0;
    let mut answer = match refused && chance.percent(80) {
        true => made_up(chance, start),
        false => answer,
    };
    let changes = if chance.percent(60) { 0 } else { chance.between(1, 3) };
    for _ in 0..changes {
        answer = changed(chance, answer);
    }
    answer
}

fn handed_of(chance: &mut Chance, line: [i32; 9]) -> Pick {
    let answer = flat::pick(pick_of(line.map(i64::from)));
    handed(chance, answer, [line[4], line[5], line[6]])
}

pub fn lean(chance: &mut Chance, _: u64) -> Vec<Call> {
    let line = line(chance);
    let answer = handed_of(chance, line);
    let other = reach(chance) as i32;
    vec![Call::Lean(answer, chance.one_of(&[line[8], line[8], other]))]
}

/// The wedge, the frame or the reach may be another line's.
pub fn wedge(chance: &mut Chance, _: u64) -> Vec<Call> {
    let mut asked = line(chance);
    let answer = handed_of(chance, asked);
    if chance.percent(25) {
        let place = chance.one_of(&[0, 1, 2, 3, 7, 8]);
        asked[place] = line(chance)[place];
    }
    vec![Call::Wedge(Walk::Firm(answer), asked)]
}

/// The call may be another than the pick's.
pub fn stack(chance: &mut Chance, _: u64) -> Vec<Call> {
    let mut asked = asked(chance);
    let picked = asked.asked_by(pick);
    let answer = handed(chance, flat::pick(picked), asked.start);
    disturb(chance, &mut asked);
    vec![Call::Stack(Walk::Firm(answer), asked)]
}

/// What the pick did not look at is mostly filled.
pub fn unforeseen(chance: &mut Chance, _: u64) -> Vec<Call> {
    decided_by(chance, |chance, solid, frame, reach| {
        let answer = pick(solid, solid.start, frame, reach);
        solid.density.set(chance.one_of(&[50, 90, 97, 100]));
        Walk::Firm(flat::pick(answer))
    })
}

/// A convex part, touched where its faces are and near its edges.
pub fn part(chance: &mut Chance, index: u64) -> Vec<Call> {
    let small = chance.one_of(&[48, 64, 72, 96]);
    let side = if index % 50 == 0 { 256 } else { small };
    let part = convex(chance, side);
    let bytes = block_of(chance, [side; 3], |point| part.filled(point));
    let mut calls = Vec::new();
    for _ in 0..16 {
        if let Some(spot) = part.touched(chance) {
            let most = chance.one_of(&[3, 8, side / 4]);
            let reach = chance.between(1, most);
            let on = on_stack([side; 3], bytes.clone(), spot.start, spot.frame, reach);
            calls.push(Call::Stack(Walk::Firm(own(&on)), on));
        }
    }
    calls
}

fn own(on: &OnStack) -> Pick {
    flat::pick(on.asked_by(pick))
}
