//! Walks from ready starts: what a check handed back, nearly that, and anything at all.

use crate::call::{Call, Walk};
use crate::chance::Chance;
use crate::stacks::{asked, decided_by, disturb};
use crate::wedge_lines::line;
use second::pick::powers;
use second::point::{plus, signs, Point};
use second::ready::{check, Check, Handed};
use second::session::{asked_by, check_of};

/// What the check handed back; where it is refused, what one might have.
fn checked(check: Check, apex: Point) -> Handed {
    check.map_or(Handed { apex, level: 0, looks: 5 }, |ready| ready.handed)
}

/// Often about the most that are allowed.
fn looks(chance: &mut Chance, reach: i64) -> u32 {
    let most = 2 + 6 * powers(reach).len() as i64;
    match chance.below(8) {
        0 => chance.bits() as u32,
        1 => chance.one_of(&[0, 57, 256, 1 << 16, 1 << 31, u32::MAX]),
        2 => chance.between(0, 60) as u32,
        3 => most as u32 + 1,
        _ => (most - chance.between(0, 1) * chance.between(0, 7)) as u32,
    }
}

/// Often two axes or one, now and then all three, or bits above them.
fn level(chance: &mut Chance) -> u32 {
    let above = chance.bits() as u32 & !7;
    let axes = chance.one_of(&[0, 0, 0, 1, 1, 2, 2, 3, 4, 4, 5, 6, 7]);
    axes | chance.one_of(&[0, 0, 0, 8, above])
}

/// Near where it was, one part at an end of 32 bits or about a wall, or anything.
fn apex(chance: &mut Chance, mut apex: Point) -> Point {
    const ENDS: [i64; 10] =
        [i32::MIN as i64, -1, 0, 1, 255, 256, 1022, 1023, 1024, i32::MAX as i64];
    match chance.below(8) {
        0 => apex.map(|_| i64::from(chance.bits() as i32)),
        1 => {
            apex[chance.below(3) as usize] = chance.one_of(&ENDS);
            apex
        }
        _ => apex.map(|part| part + chance.between(-3, 3)),
    }
}

/// As it is, with one part of it changed, or all; within 32 bits.
fn changed(chance: &mut Chance, handed: Handed, reach: i64) -> Handed {
    let changed = match chance.below(8) {
        0 | 1 => handed,
        2 => Handed { looks: looks(chance, reach), ..handed },
        3 => Handed { level: level(chance), ..handed },
        4 => Handed { apex: apex(chance, handed.apex), ..handed },
        _ => Handed {
            apex: apex(chance, handed.apex),
            level: level(chance),
            looks: looks(chance, reach),
        },
    };
    let apex = changed.apex.map(|part| part.clamp(i32::MIN.into(), i32::MAX.into()));
    Handed { apex, ..changed }
}

/// The handed start, the frame or the reach may be another line's.
pub fn wedge(chance: &mut Chance, _: u64) -> Vec<Call> {
    let mut asked = line(chance);
    let nine = asked.map(i64::from);
    let apex = asked_by(nine, |_, start, frame, _| plus(start, signs(frame)));
    let handed = changed(chance, checked(check_of(nine), apex), nine[8]);
    if chance.percent(15) {
        let place = chance.between(4, 8) as usize;
        asked[place] = line(chance)[place];
    }
    vec![Call::Wedge(Walk::From(handed), asked)]
}

/// The call may be damaged after the check.
pub fn stack(chance: &mut Chance, _: u64) -> Vec<Call> {
    let mut asked = asked(chance);
    let apex = asked.asked_by(|_, start, frame, _| plus(start, signs(frame)));
    let handed = changed(chance, checked(asked.asked_by(check), apex), asked.reach.into());
    disturb(chance, &mut asked);
    vec![Call::Stack(Walk::From(handed), asked)]
}

/// With looks that every reach allows, so that it walks.
pub fn unforeseen(chance: &mut Chance, _: u64) -> Vec<Call> {
    decided_by(chance, |chance, solid, _, _| {
        let apex = plus(solid.apex, [0, 1, 2].map(|_| chance.between(-3, 3)));
        Walk::From(Handed { apex, level: level(chance), looks: chance.between(0, 8) as u32 })
    })
}
