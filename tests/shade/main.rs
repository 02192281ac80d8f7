//! The second program's own picture of a stack, by the rule in the head of examples/shade_stack.c:
//!
//!   shade FILE REACH > PICTURE
//!
//! It goes from the pixel to the voxel, the example from the voxel to its pixels.

use second::display::display;
use second::p4;
use second::point::Point;
use second::solid::{Sizes, Solid, Stack};
use second::touch::{touch, Guess};
use std::io::{stdout, Write};

const MOST_ROWS: usize = 256 * 256 * 32;
const FACING_THE_VIEWER: i64 = 0;

type Colour = [u8; 3];

const WHITE: Colour = [255; 3];

fn main() -> std::io::Result<()> {
    let arguments: Vec<String> = std::env::args().collect();
    let input = std::fs::read(&arguments[1])?;
    let reach = arguments[2].parse().expect("a reach");
    let mut bytes = vec![0; MOST_ROWS];
    let sizes = p4::read(&input, &mut bytes).expect("a stack");
    stdout().lock().write_all(&picture(&Stack { sizes, bytes: &bytes }, reach))
}

/// The P6 file.
fn picture(stack: &Stack, reach: i64) -> Vec<u8> {
    let Sizes { width, height, depth } = stack.sizes;
    let columns = 2 * (width + height - 1);
    let rows = 2 * depth + width + height - 2;
    let mut file = format!("P6\n{columns} {rows}\n255\n").into_bytes();
    for row in 0..rows {
        for column in 0..columns {
            let seen = line_at(stack.sizes, column, row).find(|&p| seen_at(stack, p));
            file.extend(seen.map_or(WHITE, |p| colour(stack, p, reach)));
        }
    }
    file
}

fn seen_at(stack: &Stack, point: Point) -> bool {
    stack.inside(point) && stack.filled(point)
}

/// The voxels of the line whose spot has this pixel, from the viewer on; points outside the box
/// are among them.
fn line_at(sizes: Sizes, column: i64, row: i64) -> impl Iterator<Item = Point> {
    let x_less_y = column / 2 + 1 - sizes.height;
    // The top row of a spot is 2(depth - 1 - z) + x + y, which is even where x - y is.
    let top = if (row - x_less_y) % 2 == 0 { row } else { row - 1 };
    (0..sizes.depth).rev().map(move |z| {
        let x_and_y = top - 2 * (sizes.depth - 1 - z);
        [(x_and_y + x_less_y) / 2, (x_and_y - x_less_y) / 2, z]
    })
}

fn colour(stack: &Stack, point: Point, reach: i64) -> Colour {
    match touch(stack, point, FACING_THE_VIEWER, reach) {
        Ok(Guess(record)) => shaded(record.normal),
        Err(refusal) => refused(refusal.number),
    }
}

fn shaded(normal: Point) -> Colour {
    let lit = display(normal).expect("a guess has a display normal");
    let [x, y, z] = lit.map(|part| (part * 32768.0) as i64);
    let level = 85 * (49152 + 2 * y + 2 * z - x) / 49152;
    [level, level, 15 * level / 16].map(|part| part as u8)
}

fn refused(number: u32) -> Colour {
    match number {
        1 => [148, 103, 189],
        2 => [140, 86, 75],
        3 => [188, 189, 34],
        4 => [86, 180, 233],
        5 => [0, 0, 0],
        6 => [0, 114, 178],
        7 => [204, 121, 167],
        8 => [0, 158, 115],
        9 => [213, 94, 0],
        10 => [240, 228, 66],
        11 => [52, 66, 90],
        _ => unreachable!("no refusal {number}"),
    }
}
