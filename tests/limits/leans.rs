//! How far the normals of accepted picks lean, on planes of any slope and on convex parts, and what
//! the bounds of the known lean and of the firm footing say of it. Each bound is held in whole
//! numbers before it is counted.

use second::chance::Chance;
use second::firm::{firm, Footing};
use second::lean::{known_lean, level, Bound};
use second::listed::stack_where;
use second::parts::{convex, plane_between, Part, Plane, Spot, MOST};
use second::pick::{pick, powers};
use second::point::{dot, Point};
use second::solid::{Solid, Stack, Wedge, WEDGE_SIDE};

const REACHES: [i64; 5] = [4, 8, 16, 32, 64];
const STACK_SIDE: i64 = 256;
/// How many planes, and how many touches of parts, for each reach and each box.
const TRIED: u64 = 100_000;
/// A full stack is dear to fill: so many are, of planes and of parts, and touched so often.
const FILLED: u64 = 4;
const TOUCHED: u64 = 200;

pub fn print() {
    check_filled();
    print_planes("Planes on a wedge, box 1024 a side", WEDGE_SIDE);
    print_planes("Planes on a stack, 256 a side", STACK_SIDE);
    print_footings("How firm, convex parts on a stack, 256 a side", on_part);
    print_footings("How firm, planes on a wedge, box 1024 a side", on_wedge);
}

/// The greatest of what was found, as squared sines.
#[derive(Clone, Copy, Default)]
struct Greatest {
    picks: u64,
    lean: f64,
    bound: f64,
    /// Of the bound, the share that a lean takes.
    share: f64,
}

impl Greatest {
    /// A pick's normal, the planes that it leans from, and the bound, which holds of each.
    fn note(&mut self, planes: &[Plane], normal: Point, bound: Bound) {
        self.picks += 1;
        for plane in planes {
            assert!(plane.within(normal, bound) && 0 < dot(plane.normal, normal), "{plane:?}");
            let [part, whole] = plane.lean(normal);
            let lean = part as f64 / whole as f64;
            let bound = bound.part as f64 / bound.whole as f64;
            self.lean = self.lean.max(lean);
            self.bound = self.bound.max(bound);
            self.share = self.share.max(lean / bound);
        }
    }

    /// How often, the lean and the bound. One of 1 or more says nothing.
    fn told(&self) -> [String; 3] {
        let bound = if self.bound < 1.0 { degrees(self.bound) } else { "none".into() };
        [self.picks.to_string(), degrees(self.lean), bound]
    }

    /// How many times the metal a wall reads with the greatest lean.
    fn reads(&self) -> String {
        format!("{:.3}", 1.0 / (1.0 - self.lean).sqrt())
    }
}

fn degrees(sine_squared: f64) -> String {
    format!("{:.1}°", sine_squared.sqrt().asin().to_degrees())
}

fn any_plane(chance: &mut Chance, Spot { start, frame }: Spot) -> Plane {
    let parts = [0, 1, 2].map(|_| chance.between(1, MOST));
    plane_between(chance, start, frame, parts)
}

/// A plane that passes by the middle of such a box, and where it is touched.
fn by_middle(index: u64, side: i64) -> (Plane, Spot) {
    let mut chance = Chance::of(1, "a plane", index);
    let spot = Spot { start: [side / 2 - 1; 3], frame: chance.between(0, 7) };
    (any_plane(&mut chance, spot), spot)
}

fn wedge_of(plane: &Plane) -> Wedge {
    Wedge { abc: plane.normal, h: plane.t }
}

fn stack_of(plane: &Plane) -> Part {
    Part { planes: vec![*plane], side: STACK_SIDE }
}

/// A stack of bytes gives what a part gives that is asked by its planes.
fn check_filled() {
    for index in 0..FILLED {
        let (plane, spot) = by_middle(index, STACK_SIDE);
        same_filled(&stack_of(&plane), &[spot]);
        let mut chance = Chance::of(1, "a part", index);
        let part = convex(&mut chance, STACK_SIDE);
        let spots: Vec<Spot> = (0..TOUCHED).filter_map(|_| part.touched(&mut chance)).collect();
        same_filled(&part, &spots);
    }
}

fn same_filled(part: &Part, spots: &[Spot]) {
    let (sizes, bytes) = stack_where(part.side, |point| part.filled(point));
    let stack = Stack { sizes, bytes: &bytes };
    for (&spot, reach) in spots.iter().flat_map(|spot| REACHES.map(|reach| (spot, reach))) {
        let found = pick(part, spot.start, spot.frame, reach);
        assert_eq!(pick(&stack, spot.start, spot.frame, reach), found, "{part:?} {spot:?}");
        let footing = firm(part, found, spot.frame, reach);
        assert_eq!(firm(&stack, found, spot.frame, reach), footing, "{part:?} {spot:?}");
    }
}

/// Of all normals, and of those with no level axis.
fn leans(side: i64, reach: i64) -> [Greatest; 2] {
    let [mut all, mut slanted] = [Greatest::default(); 2];
    for (plane, Spot { start, frame }) in (0..TRIED).map(|index| by_middle(index, side)) {
        let answer = match side {
            WEDGE_SIDE => pick(&wedge_of(&plane), start, frame, reach),
            _ => pick(&stack_of(&plane), start, frame, reach),
        };
        if let Ok(record) = answer {
            let bound = known_lean(answer, reach).expect("an accepted pick is measurable");
            all.note(&[plane], record.normal, bound);
            if !(0..3).any(|axis| level(&record, axis)) {
                slanted.note(&[plane], record.normal, bound);
            }
        }
    }
    [all, slanted]
}

fn print_planes(name: &str, side: i64) {
    println!("**{name}**\n");
    println!(
        "| reach | accepted | greatest lean | greatest bound | nearest to its bound | a wall reads \
         | with no level axis | greatest lean | greatest bound | a wall reads |"
    );
    println!("|---|---|---|---|---|---|---|---|---|---|");
    for reach in REACHES {
        let [all, slanted] = leans(side, reach);
        let [found, others] = [&all, &slanted].map(|greatest| greatest.told().join(" | "));
        let (reads, slanted) = (all.reads(), slanted.reads());
        println!("| {reach} | {found} | {:.2} | {reads} | {others} | {slanted} |", all.share);
    }
    println!();
}

/// An accepted pick's normal, its footing, and the planes that its apex is not below.
struct Footed {
    normal: Point,
    footing: Footing,
    under: Vec<Plane>,
}

fn footed<S: Solid>(solid: &S, planes: &[Plane], spot: Spot, reach: i64) -> Option<Footed> {
    let record = pick(solid, spot.start, spot.frame, reach).ok()?;
    let footing = firm(solid, Ok(record), spot.frame, reach).expect("p and q are as they were");
    let under = planes.iter().filter(|plane| !plane.below(record.apex)).copied().collect();
    Some(Footed { normal: record.normal, footing, under })
}

type Touch = fn(&mut Chance, i64) -> Option<Footed>;

fn on_part(chance: &mut Chance, reach: i64) -> Option<Footed> {
    let part = convex(chance, STACK_SIDE);
    footed(&part, &part.planes, part.touched(chance)?, reach)
}

/// Anywhere in the box, so that the face may end at a wall.
fn on_wedge(chance: &mut Chance, reach: i64) -> Option<Footed> {
    let start = [0, 1, 2].map(|_| chance.between(0, WEDGE_SIDE - 1));
    let spot = Spot { start, frame: chance.between(0, 7) };
    let plane = any_plane(chance, spot);
    footed(&wedge_of(&plane), &[plane], spot, reach)
}

/// Of the picks that are firm to 0 or 1, to 2, to 4 and so on, and of all that have a bound.
struct Footings {
    by_power: Vec<Greatest>,
    bounded: Greatest,
}

fn footings(touch: Touch, reach: i64) -> Footings {
    let mut by_power = vec![Greatest::default(); powers(reach).len()];
    let mut bounded = Greatest::default();
    for index in 0..TRIED {
        if let Some(found) = touch(&mut Chance::of(1, "a touch", index), reach) {
            let Footing { power, bound, .. } = found.footing;
            let row = (power.max(1) as u64).trailing_zeros() as usize;
            by_power[row].note(&found.under, found.normal, bound);
            if bound.part < bound.whole {
                bounded.note(&found.under, found.normal, bound);
            }
        }
    }
    Footings { by_power, bounded }
}

fn print_footings(name: &str, touch: Touch) {
    let found = REACHES.map(|reach| footings(touch, reach));
    println!("**{name}**\n");
    println!("| firm to |{}", REACHES.map(|reach| format!(" reach {reach} |")).concat());
    println!("|---|{}", "---|".repeat(REACHES.len()));
    for (row, power) in powers(REACHES[REACHES.len() - 1]).iter().enumerate() {
        let name = if row == 0 { "0 or 1".into() } else { power.to_string() };
        print_row(&name, &found, |footings| footings.by_power.get(row));
    }
    print_row("any, with a bound", &found, |footings| Some(&footings.bounded));
    println!();
}

fn print_row(name: &str, found: &[Footings], of: impl Fn(&Footings) -> Option<&Greatest>) {
    let cell = |footings: &Footings| match of(footings) {
        Some(Greatest { picks: 0, .. }) => " 0 |".into(),
        Some(greatest) => {
            let [picks, lean, bound] = greatest.told();
            format!(" {picks}: {lean}, {bound} |")
        }
        None => " |".into(),
    };
    println!("| {name} |{}", found.iter().map(cell).collect::<String>());
}
