//! The second program's answers in the header's structs.

use crate::answers;
use second::firm::{Firm, Footing};
use second::lean::{Bound, Lean};
use second::pick::Pick;
use second::point::Point;
use second::ready::{Check, Handed, Ready};
use second::solid::Sizes;
use second::touch::{Guess, Touch};
use second::walk::{at_once, Record, Refusal};
use second::{display, p4};

fn point(place: Point) -> answers::Point {
    let [x, y, z] = place.map(|part| i32::try_from(part).expect("places are within 32 bits"));
    answers::Point { x, y, z }
}

pub fn pick(answer: Pick) -> answers::Pick {
    match answer {
        Ok(Record { normal, vectors, apex, steps, looks }) => answers::Pick {
            steps,
            looks,
            normal: point(normal),
            m0: point(vectors[0]),
            m1: point(vectors[1]),
            m2: point(vectors[2]),
            apex: point(apex),
            ..Default::default()
        },
        Err(Refusal { number, place, steps, looks }) => {
            answers::Pick { number, place: point(place), steps, looks, ..Default::default() }
        }
    }
}

/// A struct that a host hands back, of which nothing but the number is asked once it is refused.
pub fn handed(answer: answers::Pick) -> Pick {
    let answers::Pick { number, place, steps, looks, normal, m0, m1, m2, apex } = answer;
    let point = |answers::Point { x, y, z }| [x, y, z].map(i64::from);
    if number != 0 {
        return Err(at_once(number, point(place)));
    }
    let vectors = [m0, m1, m2].map(point);
    Ok(Record { normal: point(normal), vectors, apex: point(apex), steps, looks })
}

pub fn touch(answer: Touch) -> answers::Touch {
    let guess = u32::from(answer.is_ok());
    answers::Touch::of(guess, pick(answer.map(|Guess(record)| record)))
}

pub fn check(answer: Check) -> answers::Check {
    match answer {
        Ok(Ready { start, handed: Handed { apex, level, looks } }) => {
            let (start, apex) = (point(start), point(apex));
            let ready = answers::Ready { start, apex, level, looks };
            answers::Check { looks, ready, ..Default::default() }
        }
        // No step is made before the rounds.
        Err(Refusal { number, place, looks, .. }) => {
            answers::Check { number, place: point(place), looks, ..Default::default() }
        }
    }
}

pub fn lean(answer: Lean) -> answers::Lean {
    match answer {
        Ok(Bound { part, whole }) => answers::Lean { number: 0, part, whole },
        Err(number) => answers::Lean { number, ..Default::default() },
    }
}

pub fn firm(answer: Firm) -> answers::Firm {
    match answer {
        Ok(Footing { power, looks, bound: Bound { part, whole } }) => {
            answers::Firm { power: power as u32, looks, part, whole, ..Default::default() }
        }
        Err(Refusal { number, place, looks, .. }) => {
            answers::Firm { number, place: point(place), looks, ..Default::default() }
        }
    }
}

pub fn read(answer: Result<Sizes, p4::Refusal>) -> answers::Read {
    match answer {
        Ok(Sizes { width, height, depth }) => answers::Read {
            width: width as u32,
            height: height as u32,
            depth: depth as u32,
            ..Default::default()
        },
        Err(p4::Refusal { number, value }) => answers::Read { number, value, ..Default::default() },
    }
}

pub fn written(answer: Result<u64, p4::Refusal>) -> answers::Written {
    match answer {
        Ok(value) => answers::Written { number: 0, value },
        Err(p4::Refusal { number, value }) => answers::Written { number, value },
    }
}

pub fn lit(normal: Point) -> answers::Lit {
    match display::display(normal) {
        Ok([x, y, z]) => answers::Lit { number: 0, x, y, z },
        Err(number) => answers::Lit { number, ..Default::default() },
    }
}
