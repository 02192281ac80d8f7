//! What the bounds of a known lean and of a firm footing mean, held against every accepted answer on
//! planes and convex parts made by chance, in whole numbers. Each check panics where a bound fails.

use crate::chance::Chance;
use crate::firm::{firm, ways};
use crate::lean::{known_lean, last_power};
use crate::listed::stack_where;
use crate::parts::{convex, plane_between, Part, Plane, Spot, MOST};
use crate::pick::pick;
use crate::point::{cross, dot, plus, signs, times, Point};
use crate::ready::{walk_from, Handed, Ready};
use crate::solid::{Solid, Stack, Wedge};
use crate::walk::Record;

pub fn all() {
    planes();
    planes_of_stacks();
    convex_parts();
    unchecked_walks();
    slopes_with_room();
}

/// 1 to 64, often small.
fn reach(chance: &mut Chance) -> i64 {
    let most = chance.one_of(&[3, 8, 16, 32, 64]);
    chance.between(1, most)
}

/// Any plane with these parts at most in size. Some lean hardly at all along an axis, with the frame
/// or against it.
fn plane(chance: &mut Chance, spot: Spot) -> Plane {
    let mut parts = [0, 1, 2].map(|_| chance.between(1, MOST));
    if chance.percent(30) {
        parts[chance.below(3) as usize] = chance.between(-3, 30);
    }
    let w: i64 = parts.iter().sum();
    plane_between(chance, spot.start, spot.frame, if w > 0 { parts } else { [1; 3] })
}

/// Of every plane: whole·|ν×n|² < part·(ν·ν)(n·n) and 0 < ν·n; and before q's height e above it is
/// rounded up, L²·|ν×n|² ≤ S·e².
fn held_on_plane(plane: &Plane, accepted: Record, reach: i64) {
    let bound = known_lean(Ok(accepted), reach).expect("an accepted pick is measurable");
    let n = accepted.normal;
    assert!(plane.within(n, bound), "{plane:?} {accepted:?} {bound:?}");
    assert!(0 < dot(plane.normal, n), "{plane:?} {accepted:?}");
    let across = cross(plane.normal, n).map(|part| i128::from(part * last_power(reach)));
    let height = i128::from(dot(plane.normal, accepted.apex) - plane.t);
    let close = 3 * across.iter().map(|part| part * part).sum::<i128>();
    assert!(close <= i128::from(bound.part) * height * height, "{plane:?} {accepted:?}");
}

/// Of every plane that the solid is below all over and the apex is not:
/// power²·|ν×n|² < 3S·(ν·ν).
fn held_under<S: Solid>(solid: &S, planes: &[&Plane], accepted: Record, spot: Spot, reach: i64) {
    let footing = firm(solid, Ok(accepted), spot.frame, reach).expect("p and q are as they were");
    for plane in planes {
        assert!(plane.within(accepted.normal, footing.bound), "{plane:?} {accepted:?} {footing:?}");
    }
}

/// Whether the pick is accepted; if so, this holds of it.
fn accepted<S: Solid>(solid: &S, spot: Spot, reach: i64, held: impl FnOnce(Record)) -> bool {
    pick(solid, spot.start, spot.frame, reach).map(held).is_ok()
}

fn plane_holds<S: Solid>(solid: &S, plane: &Plane, spot: Spot, reach: i64) -> bool {
    accepted(solid, spot, reach, |record| {
        held_on_plane(plane, record, reach);
        held_under(solid, &[plane], record, spot, reach);
    })
}

/// How many of so many cases, each with its own chance, hold; too few would show nothing.
fn count(name: &str, cases: u64, least: usize, holds: impl Fn(&mut Chance) -> bool) {
    let held = (0..cases).filter(|&index| holds(&mut Chance::of(1, name, index))).count();
    assert!(held >= least, "{name}: {held} accepted");
}

#[cfg_attr(test, test)]
pub fn planes() {
    count("planes of wedges", 40_000, 12_000, |chance| {
        let spot = Spot { start: [511; 3], frame: chance.between(0, 7) };
        let plane = plane(chance, spot);
        plane_holds(&Wedge { abc: plane.normal, h: plane.t }, &plane, spot, reach(chance))
    });
}

#[cfg_attr(test, test)]
pub fn planes_of_stacks() {
    count("planes of stacks", 400, 100, |chance| {
        let spot = Spot { start: [20; 3], frame: chance.between(0, 7) };
        let plane = plane(chance, spot);
        let (sizes, bytes) = stack_where(42, |point| plane.below(point));
        let reach = chance.between(1, 8);
        plane_holds(&Stack { sizes, bytes: &bytes }, &plane, spot, reach)
    });
}

/// A convex part, where it is touched, and a reach.
fn touched_part(chance: &mut Chance) -> Option<(Part, Spot, i64)> {
    let part = convex(chance, 256);
    let spot = part.touched(chance)?;
    Some((part, spot, reach(chance)))
}

fn held_on_part(part: &Part, accepted: Record, spot: Spot, reach: i64) {
    let under: Vec<&Plane> = part.under(accepted.apex).collect();
    assert!(!under.is_empty(), "{part:?} {accepted:?}");
    held_under(part, &under, accepted, spot, reach);
}

/// Convex parts: the pick's own triangle need not be a face's. Also 0 < ν·n.
#[cfg_attr(test, test)]
pub fn convex_parts() {
    let holds = |(part, spot, reach): (Part, Spot, i64)| {
        accepted(&part, spot, reach, |record| {
            held_on_part(&part, record, spot, reach);
            let mut under = part.under(record.apex);
            assert!(under.all(|plane| 0 < dot(plane.normal, record.normal)), "{part:?} {record:?}");
        })
    };
    count("convex parts", 40_000, 10_000, |chance| touched_part(chance).map_or(false, holds));
}

/// The firm footing looks for itself: the walk may begin with axes that nobody found level.
#[cfg_attr(test, test)]
pub fn unchecked_walks() {
    count("unchecked walks", 20_000, 5000, |chance| {
        let level = chance.between(0, 6) as u32;
        touched_part(chance).map_or(false, |(part, spot, reach)| {
            let apex = plus(spot.start, signs(spot.frame));
            let ready = Ready { start: spot.start, handed: Handed { apex, level, looks: 0 } };
            let walked = walk_from(&part, ready, spot.frame, reach);
            let faced = part.under(apex).next().is_some();
            faced && walked.map(|record| held_on_part(&part, record, spot, reach)).is_ok()
        })
    });
}

/// On a slope within the reach a pick with room about p is firm to the last power.
#[cfg_attr(test, test)]
pub fn slopes_with_room() {
    count("slopes with room", 10_000, 4000, |chance| {
        let most = chance.one_of(&[2, 4, 9]);
        let parts = [0, 1, 2].map(|_| chance.between(0, most));
        let w: i64 = parts.iter().sum();
        let start = [0, 1, 2].map(|_| chance.between(0, 255));
        let frame = chance.between(0, 7);
        w > 0 && firm_with_room(chance, Spot { start, frame }, parts, w)
    });
}

fn firm_with_room(chance: &mut Chance, spot: Spot, parts: Point, w: i64) -> bool {
    let Spot { start, frame } = spot;
    let slope = Part { planes: vec![plane_between(chance, start, frame, parts)], side: 256 };
    let reach = w + chance.between(0, 9);
    let last = last_power(reach);
    let mut roomy = false;
    accepted(&slope, spot, reach, |record| {
        let ways = ways(&record, signs(frame));
        roomy = ways.iter().all(|&way| slope.inside(plus(start, times(last, way))));
        let footing = firm(&slope, Ok(record), frame, reach).expect("p and q are as they were");
        assert_eq!(footing.power == last, roomy, "{slope:?} {record:?} {footing:?}");
    });
    roomy
}
