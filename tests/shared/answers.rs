//! The structs of include/ulgenzhir.h.

#[repr(C)]
#[derive(Clone, Copy, Debug, Default, PartialEq, Eq)]
pub struct Point {
    pub x: i32,
    pub y: i32,
    pub z: i32,
}

#[repr(C)]
#[derive(Clone, Copy, Debug, Default, PartialEq, Eq)]
pub struct Pick {
    pub number: u32,
    pub place: Point,
    pub steps: u32,
    pub looks: u32,
    pub normal: Point,
    pub m0: Point,
    pub m1: Point,
    pub m2: Point,
    pub apex: Point,
}

#[repr(C)]
#[derive(Clone, Copy, Debug, Default, PartialEq, Eq)]
pub struct Touch {
    pub number: u32,
    pub guess: u32,
    pub place: Point,
    pub steps: u32,
    pub looks: u32,
    pub normal: Point,
    pub m0: Point,
    pub m1: Point,
    pub m2: Point,
    pub apex: Point,
}

impl Touch {
    /// The mark, and all else as a pick's.
    pub fn of(guess: u32, rest: Pick) -> Touch {
        let Pick { number, place, steps, looks, normal, m0, m1, m2, apex } = rest;
        Touch { number, guess, place, steps, looks, normal, m0, m1, m2, apex }
    }
}

#[repr(C)]
#[derive(Clone, Copy, Debug, Default, PartialEq, Eq)]
pub struct Ready {
    pub start: Point,
    pub apex: Point,
    pub level: u32,
    pub looks: u32,
}

#[repr(C)]
#[derive(Clone, Copy, Debug, Default, PartialEq, Eq)]
pub struct Check {
    pub number: u32,
    pub place: Point,
    pub looks: u32,
    pub ready: Ready,
}

#[repr(C)]
#[derive(Clone, Copy, Debug, Default, PartialEq, Eq)]
pub struct Lean {
    pub number: u32,
    pub part: u64,
    pub whole: u64,
}

#[repr(C)]
#[derive(Clone, Copy, Debug, Default, PartialEq, Eq)]
pub struct Firm {
    pub number: u32,
    pub place: Point,
    pub power: u32,
    pub looks: u32,
    pub part: u64,
    pub whole: u64,
}

#[repr(C)]
#[derive(Clone, Copy, Debug, Default, PartialEq, Eq)]
pub struct Read {
    pub number: u32,
    pub value: u64,
    pub width: u32,
    pub height: u32,
    pub depth: u32,
}

#[repr(C)]
#[derive(Clone, Copy, Debug, Default, PartialEq, Eq)]
pub struct Written {
    pub number: u32,
    pub value: u64,
}

#[repr(C)]
#[derive(Clone, Copy, Debug, Default, PartialEq)]
pub struct Lit {
    pub number: u32,
    pub x: f32,
    pub y: f32,
    pub z: f32,
}
