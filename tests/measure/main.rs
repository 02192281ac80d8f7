//! A benchmark, not a test: the library beside tuned Rust in one run, as a Markdown table.
//! The script `here` builds and runs it.

#![allow(dead_code)]

#[path = "../shared/answers.rs"]
mod answers;
mod growth;
#[cfg(target_arch = "x86_64")]
mod library;
#[cfg(not(target_arch = "x86_64"))]
#[path = "lowered.rs"]
mod library;
#[path = "../shared/roomy.rs"]
mod roomy;
mod tuned;
#[path = "../shared/wedge_lines.rs"]
mod wedge_lines;
mod worst;

use answers::Pick;
use second::chance::{self, Chance};
use second::listed::slope_stack;
use second::point::{dot, plus, signs};
use second::session::{pick_of, touch_of};
use second::solid::WEDGE_SIDE;
use second::walk::Record;
use std::fmt::Debug;
use std::time::Instant;

const REDRAW_SECONDS: f64 = 0.033;
const ROUNDS: usize = 51;
/// The best of 600 climbs over slopes and of 96 over any solids.
const BEST_SLOPE: u64 = 73;
const BEST_STACK: u64 = 83;

/// Medians in seconds for one call, and the median of the rounds' ratios.
struct Timed {
    name: String,
    library: f64,
    tuned: f64,
    ratio: f64,
}

fn median(mut values: Vec<f64>) -> f64 {
    values.sort_by(f64::total_cmp);
    values[values.len() / 2]
}

/// Read as if by someone else, so that the call is made.
fn opaque<A>(answer: A) {
    unsafe { std::ptr::read_volatile(&std::mem::ManuallyDrop::new(answer)) };
}

/// Seconds for one call when it is made so many times.
fn seconds<I, A>(inputs: &[I], times: usize, call: &mut impl FnMut(&I) -> A) -> f64 {
    let begin = Instant::now();
    for _ in 0..times {
        for input in inputs {
            opaque(call(input));
        }
    }
    begin.elapsed().as_secs_f64() / (times * inputs.len()) as f64
}

/// Both on the same inputs by turns; a round takes about a millisecond at least.
fn timed<I, A: PartialEq + Debug>(
    name: &str,
    inputs: &[I],
    mut library: impl FnMut(&I) -> A,
    mut tuned: impl FnMut(&I) -> A,
) -> Timed {
    for input in inputs {
        assert_eq!(library(input), tuned(input), "{name}: tuned Rust differs");
    }
    let once = seconds(inputs, 1, &mut library).max(1e-9) * inputs.len() as f64;
    let times = (0.002 / once).ceil() as usize;
    let (mut ours, mut theirs) = (Vec::new(), Vec::new());
    for round in 0..ROUNDS {
        if round % 2 == 0 {
            ours.push(seconds(inputs, times, &mut library));
            theirs.push(seconds(inputs, times, &mut tuned));
        } else {
            theirs.push(seconds(inputs, times, &mut tuned));
            ours.push(seconds(inputs, times, &mut library));
        }
    }
    let ratio = median(ours.iter().zip(&theirs).map(|(a, b)| a / b).collect());
    Timed { name: name.into(), library: median(ours), tuned: median(theirs), ratio }
}

/// Accepted picks of seeded slopes with this reach and so many level axes. (Two leave no step.)
fn typical_lines(reach: i64, level_axes: usize, count: usize) -> Vec<[i32; 9]> {
    let mut chance = Chance::of(1, "typical", reach as u64);
    let mut lines = Vec::new();
    while lines.len() < count {
        let mut line = wedge_lines::line(&mut chance);
        line[8] = reach as i32;
        let typical = |record: Record| {
            let zeros = record.normal.iter().filter(|&&part| part == 0).count();
            zeros == level_axes && (record.steps > 0 || zeros == 2)
        };
        if pick_of(line.map(i64::from)).map_or(false, typical) {
            lines.push(line);
        }
    }
    lines
}

/// The slopes of typical picks with q on the plane's first empty level, where touches are accepted.
fn touched_lines(reach: i64, count: usize) -> Vec<[i32; 9]> {
    let picked = typical_lines(reach, 0, count).into_iter().map(|line| line.map(i64::from));
    let touched = picked.map(|[a, b, c, _, x, y, z, frame, reach]| {
        let h = dot([a, b, c], plus([x, y, z], signs(frame)));
        [a, b, c, h, x, y, z, frame, reach]
    });
    let accepted = touched.filter(|&line| touch_of(line).is_ok());
    accepted.map(|line| line.map(|number| number as i32)).collect()
}

fn timed_wedges<A: PartialEq + Debug>(
    name: &str,
    lines: &[[i32; 9]],
    library: impl Fn([i32; 9]) -> A,
    tuned: impl Fn([i32; 9]) -> A,
) -> Timed {
    timed(name, lines, |&line| library(line), |&line| tuned(line))
}

/// One pick, touch or check on a stack.
struct Asked<'a> {
    side: i32,
    bytes: &'a [u8],
    start: [i32; 3],
    reach: i32,
}

fn timed_stacks<A: PartialEq + Debug>(
    name: &str,
    asked: &[Asked],
    library: impl Fn([i32; 3], &[u8], [i32; 3], i32, i32) -> A,
    tuned: impl Fn([i32; 3], &[u8], [i32; 3], i32, i32) -> A,
) -> Timed {
    timed(
        name,
        asked,
        |a| library([a.side; 3], a.bytes, a.start, 0, a.reach),
        |a| tuned([a.side; 3], a.bytes, a.start, 0, a.reach),
    )
}

/// Slopes in full stacks, q in their middle and so high above the plane.
fn typical_stacks(height: i64) -> Vec<Vec<u8>> {
    let normals = [[1, 2, 5], [3, 4, 5], [5, 6, 1], [2, 7, 3], [1, 1, 9], [7, 4, 4]];
    let slope = |[a, b, c]: [i64; 3]| [a, b, c, dot([a, b, c], [128; 3]) - height];
    normals.iter().map(|&normal| slope_stack(256, slope(normal)).1).collect()
}

fn asked_in_the_middle(stacks: &[Vec<u8>], reach: i32) -> Vec<Asked<'_>> {
    stacks.iter().map(|bytes| Asked { side: 256, bytes, start: [127; 3], reach }).collect()
}

/// By the number of level axes.
const FACES: [&str; 3] = ["", ", one level axis", ", two level axes"];

fn picks(rows: &mut Vec<Timed>) -> Vec<String> {
    let mut notes = Vec::new();
    for (reach, level_axes) in [(8, 0), (16, 0), (32, 0), (16, 1), (16, 2)] {
        let lines = typical_lines(reach, level_axes, 400);
        let name = format!("typical picks, wedge, reach {reach}{}", FACES[level_axes]);
        rows.push(timed_wedges(&name, &lines, library::pick_wedge, tuned::pick_wedge));
    }
    let (line, looks) = worst::worst_slope(WEDGE_SIDE, BEST_SLOPE, 4000);
    let told = line.map(|number| number.to_string()).join(" ");
    notes.push(format!("The worst wedge found is `{told}`, {looks} looks."));
    let name = format!("worst pick found, wedge, {looks} looks");
    rows.push(timed_wedges(&name, &[line], library::pick_wedge, tuned::pick_wedge));
    let stacks = typical_stacks(2);
    let asked = asked_in_the_middle(&stacks, 16);
    let (ours, theirs) = (library::pick_stack, tuned::pick_stack);
    rows.push(timed_stacks("typical picks, stack 256, reach 16", &asked, ours, theirs));
    let worst = worst::worst_stack(256, BEST_STACK, 12_000);
    notes
        .push(format!("The worst stack found takes {} looks, reach {}.", worst.looks, worst.reach));
    let asked = Asked { side: 256, bytes: &worst.bytes, start: worst.start, reach: worst.reach };
    let name = format!("worst pick found, stack 256, {} looks", worst.looks);
    rows.push(timed_stacks(&name, &[asked], ours, theirs));
    notes
}

/// The typical picks once more, as a check and as the walk from what it hands back.
fn two_calls(rows: &mut Vec<Timed>) {
    for (level_axes, faces) in FACES.iter().enumerate() {
        let lines = typical_lines(16, level_axes, 400);
        let name = format!("typical checks, wedge, reach 16{faces}");
        rows.push(timed_wedges(&name, &lines, library::check_wedge, tuned::check_wedge));
        let checked: Vec<_> =
            lines.iter().map(|&line| (line, tuned::check_wedge(line).ready)).collect();
        rows.push(timed(
            &format!("typical walks from a ready start, wedge, reach 16{faces}"),
            &checked,
            |&([a, b, c, h, .., frame, reach], ready)| {
                library::walk_wedge([a, b, c, h], ready, frame, reach)
            },
            |&([a, b, c, h, .., frame, reach], ready)| {
                tuned::walk_wedge([a, b, c, h], ready, frame, reach)
            },
        ));
    }
    let stacks = typical_stacks(2);
    let asked = asked_in_the_middle(&stacks, 16);
    let (ours, theirs) = (library::check_stack, tuned::check_stack);
    rows.push(timed_stacks("typical checks, stack 256, reach 16", &asked, ours, theirs));
    let checked: Vec<_> = stacks
        .iter()
        .map(|bytes| (bytes, theirs([256; 3], bytes, [127; 3], 0, 16).ready))
        .collect();
    rows.push(timed(
        "typical walks from a ready start, stack 256, reach 16",
        &checked,
        |&(bytes, ready)| library::walk_stack([256; 3], bytes, ready, 0, 16),
        |&(bytes, ready)| tuned::walk_stack([256; 3], bytes, ready, 0, 16),
    ));
}

/// Slope, frame and answer of the typical picks.
fn answered(level_axes: usize) -> Vec<([i32; 4], i32, Pick)> {
    let lines = typical_lines(16, level_axes, 400).into_iter();
    lines
        .map(|line @ [a, b, c, h, .., frame, _]| ([a, b, c, h], frame, tuned::pick_wedge(line)))
        .collect()
}

/// How far the typical picks' answers may lean.
fn bounds(rows: &mut Vec<Timed>) {
    rows.push(timed(
        "typical known leans, reach 16",
        &answered(0),
        |(.., pick)| library::known_lean(pick, 16),
        |(.., pick)| tuned::known_lean(pick, 16),
    ));
    for (level_axes, faces) in FACES.iter().enumerate() {
        rows.push(timed(
            &format!("typical firm footings, wedge, reach 16{faces}"),
            &answered(level_axes),
            |(slope, frame, pick)| library::firm_wedge(*slope, pick, *frame, 16),
            |(slope, frame, pick)| tuned::firm_wedge(*slope, pick, *frame, 16),
        ));
    }
    let stacks = typical_stacks(2);
    let answered: Vec<_> = stacks
        .iter()
        .map(|bytes| (bytes, tuned::pick_stack([256; 3], bytes, [127; 3], 0, 16)))
        .collect();
    rows.push(timed(
        "typical firm footings, stack 256, reach 16",
        &answered,
        |(bytes, pick)| library::firm_stack([256; 3], bytes, pick, 0, 16),
        |(bytes, pick)| tuned::firm_stack([256; 3], bytes, pick, 0, 16),
    ));
}

/// (1,1,254) takes as many steps as are ever allowed, 253, and on a wedge 5 + 6·254 looks: the
/// most that a touch can. A stack ends it in the last round.
fn touches(rows: &mut Vec<Timed>) {
    let (ours, theirs) = (library::touch_wedge, tuned::touch_wedge);
    let lines = touched_lines(16, 400);
    rows.push(timed_wedges("typical touches, wedge, reach 16", &lines, ours, theirs));
    let line = [1, 1, 254, 131_072, 511, 511, 511, 0, 256];
    let name = format!("worst touch, wedge, {} looks", theirs(line).looks);
    rows.push(timed_wedges(&name, &[line], ours, theirs));
    let (ours, theirs) = (library::touch_stack, tuned::touch_stack);
    let stacks = typical_stacks(0);
    let asked = asked_in_the_middle(&stacks, 16);
    rows.push(timed_stacks("typical touches, stack 256, reach 16", &asked, ours, theirs));
    let (_, bytes) = slope_stack(256, [1, 1, 254, 128 * 256]);
    let looks = theirs([256; 3], &bytes, [127; 3], 0, 256).looks;
    let name = format!("worst touch found, stack 256, {looks} looks");
    rows.push(timed_stacks(&name, &asked_in_the_middle(&[bytes], 256), ours, theirs));
}

/// A full stack and one whose rows are padded.
fn stacks(rows: &mut Vec<Timed>) {
    for width in [256, 255] {
        let sizes = [width, 256, 256];
        let bytes = Chance::of(1, "stack", 0).bytes(1 << 21);
        let mut file = vec![0; (1 << 21) + 256 * 11];
        let mut again = file.clone();
        let written = tuned::write_p4(sizes, &bytes, &mut file);
        file.truncate(written.value as usize);
        let (mut ours, mut theirs) = (vec![0; 1 << 21], vec![0; 1 << 21]);
        rows.push(timed(
            &format!("read {width}×256×256, 2 MiB"),
            &[()],
            |()| library::read_p4(&file, &mut ours),
            |()| tuned::read_p4(&file, &mut theirs),
        ));
        assert!(ours == theirs, "rows differ");
        let mut out = again.clone();
        rows.push(timed(
            &format!("write {width}×256×256, 2 MiB"),
            &[()],
            |()| library::write_p4(sizes, &bytes, &mut out),
            |()| tuned::write_p4(sizes, &bytes, &mut again),
        ));
        assert!(out == again, "files differ");
    }
}

fn displays(rows: &mut Vec<Timed>) {
    let mut chance = Chance::of(1, "display", 0);
    let normals: Vec<[i32; 3]> =
        (0..1000).map(|_| [0, 1, 2].map(|_| chance.between(-1023, 1023) as i32)).collect();
    rows.push(timed(
        "display normal",
        &normals,
        |&normal| library::display(normal),
        |&normal| tuned::display(normal),
    ));
}

/// Reach 8 to 256, the accepted ones of as many slopes each.
fn print_growth() {
    println!("\n| reach | accepted of {} | steps | looks | library | tuned Rust |", growth::TRIED);
    println!("|---|---|---|---|---|---|");
    for reach in [8, 16, 32, 64, 128, 256] {
        let grown = growth::grown(reach);
        let (count, steps, looks) = (grown.accepted.len(), grown.steps, grown.looks);
        if count == 0 {
            println!("| {reach} | 0 | | | | |");
            continue;
        }
        let row = timed_wedges("growth", &grown.accepted, library::pick_wedge, tuned::pick_wedge);
        let (ours, theirs) = (told(row.library), told(row.tuned));
        println!("| {} | {count} | {steps:.1} | {looks:.0} | {ours} | {theirs} |", grown.reach);
    }
}

fn machine() -> String {
    let told = std::process::Command::new("lscpu").output();
    let text = told.map_or(String::new(), |told| String::from_utf8_lossy(&told.stdout).into());
    let model = text.lines().find_map(|line| line.strip_prefix("Model name:"));
    format!("{} ({})", model.unwrap_or("unknown processor").trim(), std::env::consts::ARCH)
}

fn told(seconds: f64) -> String {
    match seconds {
        s if s < 1e-6 => format!("{:.1} ns", s * 1e9),
        s if s < 1e-3 => format!("{:.2} µs", s * 1e6),
        s => format!("{:.3} ms", s * 1e3),
    }
}

fn print_slowest(worst: &str, walks: &str, rows: &[Timed]) {
    let named = rows.iter().filter(|row| row.name.starts_with(worst)).map(|row| row.library);
    let longest = named.fold(0.0, f64::max);
    let share = REDRAW_SECONDS / longest;
    println!(
        "The slowest of these {walks} takes {}: {share:.0} of them fit in a redraw of 33 ms.",
        told(longest)
    );
}

fn main() {
    let mut rows = Vec::new();
    let notes = picks(&mut rows);
    two_calls(&mut rows);
    bounds(&mut rows);
    touches(&mut rows);
    stacks(&mut rows);
    displays(&mut rows);
    println!("Machine: {}. Medians of {ROUNDS} rounds, both by turns.\n", machine());
    println!("| | library | tuned Rust | ratio |\n|---|---|---|---|");
    for row in &rows {
        println!(
            "| {} | {} | {} | {:.2} |",
            row.name,
            told(row.library),
            told(row.tuned),
            row.ratio
        );
    }
    println!();
    for note in notes {
        println!("{note}");
    }
    print_slowest("worst pick", "picks", &rows);
    print_slowest("worst touch", "touches", &rows);
    print_growth();
}
