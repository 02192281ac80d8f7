//! The same from Rust, in one call: reads a stack of P4 images, picks at a voxel, and prints the
//! face's normal, how far the face may lean from it, and its unit vector:
//!
//!   pick_stack FILE X Y Z FRAME REACH

#[repr(C)]
#[derive(Clone, Copy)]
struct Point {
    x: i32,
    y: i32,
    z: i32,
}

#[repr(C)]
#[derive(Clone, Copy)]
struct Pick {
    number: u32,
    place: Point,
    steps: u32,
    looks: u32,
    normal: Point,
    vectors: [Point; 3],
    apex: Point,
}

#[repr(C)]
struct Firm {
    number: u32,
    place: Point,
    power: u32,
    looks: u32,
    part: u64,
    whole: u64,
}

#[repr(C)]
struct Read {
    number: u32,
    value: u64,
    width: u32,
    height: u32,
    depth: u32,
}

#[repr(C)]
struct Lit {
    number: u32,
    x: f32,
    y: f32,
    z: f32,
}

extern "C" {
    fn ulgenzhir_pick_stack(
        width: i32,
        height: i32,
        depth: i32,
        bytes: *const u8,
        len: usize,
        px: i32,
        py: i32,
        pz: i32,
        frame: i32,
        reach: i32,
    ) -> Pick;
    fn ulgenzhir_firm_stack(
        width: i32,
        height: i32,
        depth: i32,
        bytes: *const u8,
        len: usize,
        pick: Pick,
        frame: i32,
        reach: i32,
    ) -> Firm;
    fn ulgenzhir_read_p4(input: *const u8, len: usize, rows: *mut u8, rows_len: usize) -> Read;
    fn ulgenzhir_display(nx: i32, ny: i32, nz: i32) -> Lit;
}

/// Bytes of a full stack, 256 a side.
const MOST_ROWS: usize = 256 * 256 * 32;

/// A slice's pointer is never null, and `rows` is lent by no one else: what the header asks.
fn read_p4(input: &[u8], rows: &mut [u8]) -> Read {
    unsafe { ulgenzhir_read_p4(input.as_ptr(), input.len(), rows.as_mut_ptr(), rows.len()) }
}

/// The pick, and how firm it is.
fn pick_stack(read: &Read, rows: &[u8], [x, y, z, frame, reach]: [i32; 5]) -> (Pick, Firm) {
    let [width, height, depth] = [read.width, read.height, read.depth].map(|size| size as i32);
    let (bytes, len) = (rows.as_ptr(), rows.len());
    unsafe {
        let pick = ulgenzhir_pick_stack(width, height, depth, bytes, len, x, y, z, frame, reach);
        (pick, ulgenzhir_firm_stack(width, height, depth, bytes, len, pick, frame, reach))
    }
}

/// A gauge draws no figure without a bound. In tenths of a degree, rounded up.
fn print_footing(Firm { power, part, whole, .. }: Firm) {
    if part < whole {
        let degrees = (part as f64 / whole as f64).sqrt().asin().to_degrees();
        println!("lean below {:.1} degrees, firm to {power}", (degrees * 10.0).ceil() / 10.0);
    } else {
        println!("not flat here, firm to {power}");
    }
}

fn print_pick((pick, firm): (Pick, Firm)) -> i32 {
    let Pick { number, place, steps, looks, normal, .. } = pick;
    if number != 0 {
        println!("refused {number} at {} {} {}", place.x, place.y, place.z);
        return 1;
    }
    let Point { x, y, z } = normal;
    let lit = unsafe { ulgenzhir_display(x, y, z) };
    println!("normal {x} {y} {z} after {steps} steps and {looks} looks");
    print_footing(firm);
    println!("display {:.15} {:.15} {:.15}", lit.x, lit.y, lit.z);
    0
}

fn main() {
    let words: Vec<String> = std::env::args().collect();
    if words.len() != 7 {
        eprintln!("usage: pick_stack FILE X Y Z FRAME REACH");
        std::process::exit(2);
    }
    let file = std::fs::read(&words[1]).expect("FILE can be read");
    let mut rows = vec![0; MOST_ROWS];
    let read = read_p4(&file, &mut rows);
    if read.number != 0 {
        println!("not a stack: {}, {}", read.number, read.value);
        std::process::exit(1);
    }
    println!("stack {} {} {}", read.width, read.height, read.depth);
    let number = |at: usize| words[at].parse().expect("X Y Z FRAME REACH are numbers");
    let asked = [number(2), number(3), number(4), number(5), number(6)];
    std::process::exit(print_pick(pick_stack(&read, &rows, asked)));
}
