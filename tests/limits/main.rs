//! Prints the tables of docs/LIMITS.md, measured with the second program: how far accepted normals
//! lean (`leans.rs`), and how the reach and the box decide refusal 8 ("edge"), that is, how many
//! normals can be accepted anywhere.
//!
//! All normals have no part below 0 and no common divisor (frame 0; the other frames are its
//! mirror images). They are counted by how many axes are level. Only height 0 of q above the plane
//! is walked: from there each vector that falls does so at power 1, and every other is looked at
//! at all powers whatever the height, so any other height looks at those points and more. For the
//! small reaches that is checked by walking every height.

mod leans;
#[path = "../shared/roomy.rs"]
mod roomy;

use roomy::Roomy;
use second::pick::{pick, Pick};
use second::point::{dot, plus, Point};
use second::solid::{Solid, Stack, Wedge, WEDGE_SIDE};

const REACHES: [i64; 6] = [8, 16, 32, 64, 128, 256];
const STACK_SIDE: i64 = 256;
/// A stack offers reach 8 to 64.
const STACK_OFFERS: usize = 4;
/// Up to here every height is walked too.
const EVERY_HEIGHT_TO: i64 = 32;

fn main() {
    leans::print();
    let [wedge, stack] = [WEDGE_SIDE, STACK_SIDE]
        .map(|side| [0, 1, 2].map(|level| REACHES.map(|reach| measured(reach, side, level))));
    print_accepted("Wedge, box 1024 a side", &wedge[0]);
    print_accepted("Stack, 256 a side", &stack[0]);
    print_by_sum(&wedge[0], &stack[0][..STACK_OFFERS]);
    print_level("Wedge, box 1024 a side, one level axis", &wedge[1], &wedge[2]);
    print_level("Stack, 256 a side, one level axis", &stack[1], &stack[2]);
}

/// For one reach, one box and one number of level axes: how many normals there are and how many
/// are accepted somewhere, by their sum w.
struct Measured {
    reach: i64,
    normals: Vec<u64>,
    accepted: Vec<u64>,
}

impl Measured {
    fn up_to(counts: &[u64], w: i64) -> u64 {
        counts[..=w as usize].iter().sum()
    }

    /// The largest w such that every normal of at most that sum is accepted somewhere.
    fn all_accepted_to(&self) -> usize {
        let missed = (1..self.normals.len()).find(|&w| self.accepted[w] < self.normals[w]);
        missed.unwrap_or(self.normals.len()) - 1
    }

    /// As a row of a table.
    fn told(&self) -> String {
        let all: u64 = self.normals.iter().sum();
        let accepted: u64 = self.accepted.iter().sum();
        let share = 100.0 * accepted as f64 / all as f64;
        let to = if accepted == 0 { "none".into() } else { self.all_accepted_to().to_string() };
        format!("| {} | {all} | {accepted} | {share:.2}% | {to} |", self.reach)
    }
}

fn measured(reach: i64, side: i64, level_axes: usize) -> Measured {
    let mut normals = vec![0; reach as usize + 1];
    let mut accepted = normals.clone();
    for_each_normal(reach, level_axes, |normal| {
        let w: i64 = normal.iter().sum();
        normals[w as usize] += 1;
        accepted[w as usize] += u64::from(somewhere(normal, reach, side));
    });
    Measured { reach, normals, accepted }
}

fn divisor(a: i64, b: i64) -> i64 {
    if b == 0 {
        a
    } else {
        divisor(b, a % b)
    }
}

fn for_each_normal(most: i64, level_axes: usize, mut each: impl FnMut(Point)) {
    for a in 0..=most {
        for b in 0..=most - a {
            let common = divisor(a, b);
            for c in (0..=most - a - b).filter(|&c| divisor(common, c) == 1) {
                let zeros = [a, b, c].iter().filter(|&&part| part == 0).count();
                if zeros == level_axes {
                    each([a, b, c]);
                }
            }
        }
    }
}

const START: Point = [-1, -1, -1];

/// The walk of a slope whose q is the origin, this height above the plane.
fn walk(normal: Point, height: i64, reach: i64, side: i64) -> (Pick, Point) {
    let solid = Roomy::new(side, START, |point| dot(normal, point) + height < 0);
    let answer = pick(&solid, START, 0, reach);
    (answer, solid.shift())
}

fn somewhere(normal: Point, reach: i64, side: i64) -> bool {
    let (answer, shift) = walk(normal, 0, reach, side);
    if reach <= EVERY_HEIGHT_TO {
        let w = normal.iter().sum();
        let other = (1..w).any(|height| walk(normal, height, reach, side).0.is_ok());
        assert!(answer.is_ok() || !other, "{normal:?} is accepted at another height alone");
    }
    match answer {
        Ok(record) => {
            assert_eq!(record.normal, normal);
            check_in_true_box(normal, reach, side, shift);
            true
        }
        Err(refusal) => {
            assert_eq!(refusal.number, 8, "{normal:?}");
            false
        }
    }
}

/// The pick really is accepted where the box was laid.
fn check_in_true_box(normal: Point, reach: i64, side: i64, shift: Point) {
    let start = plus(START, shift);
    let h = dot(normal, shift);
    let accepted = |answer: Pick| answer.map_or(false, |record| record.normal == normal);
    if side == WEDGE_SIDE {
        assert!(accepted(pick(&Wedge { abc: normal, h }, start, 0, reach)), "{normal:?}");
    } else if dot(normal, [31, 7, 1]) % 97 == 0 {
        // A full stack is dear to fill: about one in a hundred.
        let (sizes, bytes) =
            second::listed::slope_stack(side, [normal[0], normal[1], normal[2], h]);
        let stack = Stack { sizes, bytes: &bytes };
        assert!(stack.permitted() && accepted(pick(&stack, start, 0, reach)), "{normal:?}");
    }
}

const HEAD: &str =
    "| reach | normals of w up to the reach | accepted somewhere | share | all accepted up to w |";

fn print_accepted(name: &str, rows: &[Measured]) {
    println!("**{name}**\n\n{HEAD}\n|---|---|---|---|---|");
    rows.iter().for_each(|row| println!("{}", row.told()));
    println!();
}

fn print_level(name: &str, one: &[Measured], two: &[Measured]) {
    println!("**{name}**\n\n{HEAD} of the three with two |\n|---|---|---|---|---|---|");
    for (row, with_two) in one.iter().zip(two) {
        println!("{} {} |", row.told(), with_two.accepted.iter().sum::<u64>());
    }
    println!();
}

/// What a larger reach costs the small normals.
fn print_by_sum(wedge: &[Measured], stack: &[Measured]) {
    let reaches = |rows: &[Measured]| rows.iter().map(|row| format!(" {} |", row.reach)).collect();
    let [wedges, stacks]: [String; 2] = [reaches(wedge), reaches(stack)];
    println!("| w up to | normals | wedge, reach{wedges} stack, reach{stacks}");
    println!("|---|---|{}", "---|".repeat(wedge.len() + stack.len()));
    for sum in REACHES {
        let all = wedge.iter().find(|row| row.reach == sum).expect("a reach of this size");
        print!("| {sum} | {} |", Measured::up_to(&all.normals, sum));
        for row in wedge.iter().chain(stack) {
            match row.reach >= sum {
                true => print!(" {} |", Measured::up_to(&row.accepted, sum)),
                false => print!(" |"),
            }
        }
        println!();
    }
    println!();
}
