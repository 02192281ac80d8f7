//! Holds the panel's library to the second program: every entry point, every listed case, and
//! seeded random, damaged and extreme inputs, with the lent buffers compared whole.
//!
//!   compare [SEED [KIND..]]            all kinds, or those named
//!   compare --repeat KIND SEED INDEX   one case again
//!
//! The library's calls are made by the program that ULGENZHIR_BRIDGE names (target/tests/bridge),
//! sessions by the one that ULGENZHIR_WEDGE names (crates/wedge/out/wedge), both under the emulator
//! ULGENZHIR_RUN if there is one. It runs at the top of the repository.

#[path = "../shared/answers.rs"]
mod answers;
mod bridge;
mod call;
mod displays;
mod flat;
mod footings;
mod listed;
mod reads;
#[path = "../shared/session_texts.rs"]
mod session_texts;
mod sessions;
mod stacks;
mod tally;
mod walks;
#[path = "../shared/wedge_lines.rs"]
mod wedge_lines;
mod wedges;
mod writes;

use bridge::Bridge;
use call::{Answer, Batch, Call, Reply, Walk};
use second::chance::{self, Chance};
use std::process::ExitCode;
use tally::Tally;
use wedges::SMALL_NORMALS;

/// How a case is made from its own chance and its index.
enum Make {
    Calls(fn(&mut Chance, u64) -> Vec<Call>),
    /// The same numbers, with this walk asked for.
    Walks(Walk, fn(Walk, &mut Chance, u64) -> Vec<Call>),
    Session(fn(&mut Chance, u64) -> Vec<u8>),
}

use Make::{Calls, Session, Walks};
use Walk::{InARow, Pick, Touch};

struct Kind {
    name: &'static str,
    cases: u64,
    make: Make,
    /// Answers that must come up, so that the kind shows what it is meant to show.
    meets: &'static str,
}

const fn kind(name: &'static str, cases: u64, make: Make, meets: &'static str) -> Kind {
    Kind { name, cases, make, meets }
}

const KINDS: &[Kind] = &[
    kind(
        "listed",
        1,
        Calls(listed::calls),
        "0 guess 1 2 3 4 5 6 7 8 9 10 11 13 21 22 23 24 25 27 30 35 bound unbound loose partly",
    ),
    kind("wedge_heights", SMALL_NORMALS, Walks(Pick, wedges::heights), "0 4 8 level1 level2"),
    kind("wedge", 600_000, Walks(Pick, wedges::any), "0 1 2 3 4 5 6 7 8 9 10 level1 level2"),
    kind("stack", 80_000, Walks(Pick, stacks::any), "0 1 2 3 4 5 6 7 8 9 10 level1 level2"),
    kind("stack_unforeseen", 100_000, Walks(Pick, stacks::unforeseen), "0 7 8 9 10 level1 level2"),
    kind("touch_heights", SMALL_NORMALS, Walks(Touch, wedges::heights), "guess 4 8 11x 11y 11z"),
    kind("touch_wedge", 300_000, Walks(Touch, wedges::any), "guess 1 2 3 4 5 6 8 9 10 11x 11y 11z"),
    kind("touch_stack", 20_000, Walks(Touch, stacks::any), "guess 1 2 3 4 5 6 8 9 10 11x 11y 11z"),
    kind("touch_unforeseen", 30_000, Walks(Touch, stacks::unforeseen), "guess 8 9 10 11x 11y 11z"),
    kind("row_heights", SMALL_NORMALS, Walks(InARow, wedges::heights), "0 4 8 ready1 ready2"),
    kind("row_wedge", 100_000, Walks(InARow, wedges::any), "0 1 2 3 4 5 6 7 8 9 10 ready1 ready2"),
    kind("row_stack", 8_000, Walks(InARow, stacks::any), "0 1 2 3 4 5 6 7 8 9 10 ready1 ready2"),
    kind("row_unforeseen", 10_000, Walks(InARow, stacks::unforeseen), "0 7 8 9 10 ready1 ready2"),
    kind("walk_wedge", 150_000, Calls(walks::wedge), "0 1 2 3 4 8 9 10 13 level1 level2"),
    kind("walk_stack", 8_000, Calls(walks::stack), "0 1 2 3 4 8 9 10 13 level1 level2"),
    kind("walk_unforeseen", 15_000, Calls(walks::unforeseen), "0 8 9 10 13 level1 level2"),
    kind("lean", 200_000, Calls(footings::lean), "0 35 bound unbound"),
    kind(
        "firm_wedge",
        150_000,
        Calls(footings::wedge),
        "0 1 2 3 4 5 6 35 bound unbound loose partly",
    ),
    kind(
        "firm_stack",
        12_000,
        Calls(footings::stack),
        "0 1 2 3 4 5 6 35 bound unbound loose partly",
    ),
    kind("firm_unforeseen", 15_000, Calls(footings::unforeseen), "0 35 bound unbound loose partly"),
    kind("firm_part", 150, Calls(footings::part), "0 35 bound unbound loose partly"),
    kind("read", 300_000, Calls(reads::any), "0 21 22 23 24 25 27 touching"),
    kind("read_header", 200, Calls(reads::headers), "0 21 22 23 24 25 27 touching"),
    kind("read_many", 600, Calls(reads::many), "0 21 24 26 27"),
    kind("write", 100_000, Calls(writes::any), "0 3 27"),
    kind("display_small", 31, Calls(displays::small), "0 30"),
    kind("display", 300_000, Calls(displays::any), "0 30"),
    kind("session_listed", sessions::LISTED, Session(sessions::listed), "N R B cut"),
    kind("session", 200, Session(sessions::any), "N R B cut"),
];

const DEFAULT_SEED: u64 = 7;

fn main() -> ExitCode {
    second::checks::all();
    let words: Vec<String> = std::env::args().skip(1).collect();
    let compared = match words.first().map(String::as_str) {
        Some("--repeat") => repeat(&words[1..]),
        _ => compare(&words),
    };
    match compared {
        Ok(0) => {
            println!("NOTHING was compared");
            ExitCode::FAILURE
        }
        Ok(calls) => {
            println!("compared {calls}");
            ExitCode::SUCCESS
        }
        Err(difference) => {
            println!("{difference}");
            ExitCode::FAILURE
        }
    }
}

/// Gives how many calls were compared.
fn compare(words: &[String]) -> Result<u64, String> {
    let seed = words.first().map_or(Ok(DEFAULT_SEED), number)?;
    let named: Result<Vec<&Kind>, String> = words.iter().skip(1).map(kind_named).collect();
    let mut kinds = named?;
    if kinds.is_empty() {
        kinds.extend(KINDS);
    }
    println!("seed {seed}");
    let mut bridge = Bridge::start();
    let mut calls = 0;
    for kind in kinds {
        calls += all_cases(kind, seed, &mut bridge).map_err(|told| different(kind, &told))?.calls;
    }
    Ok(calls)
}

fn repeat(words: &[String]) -> Result<u64, String> {
    let (name, seed, index) = match words {
        [name, seed, index] => (name, number(seed)?, number(index)?),
        _ => return Err("--repeat KIND SEED INDEX".into()),
    };
    let kind = kind_named(name)?;
    if index >= kind.cases {
        return Err(format!("{name} has the cases 0 to {}", kind.cases - 1));
    }
    let mut tally = Tally::default();
    some_cases(kind, seed, index..index + 1, &mut Bridge::start(), &mut tally)
        .map_err(|told| different(kind, &told))?;
    println!("no difference: {tally}");
    Ok(tally.calls)
}

fn number(word: &String) -> Result<u64, String> {
    word.parse().map_err(|_| format!("{word} is not a number"))
}

fn kind_named(name: &String) -> Result<&'static Kind, String> {
    let names: Vec<&str> = KINDS.iter().map(|kind| kind.name).collect();
    let found = KINDS.iter().find(|kind| kind.name == name);
    found.ok_or_else(|| format!("no kind is named {name}; the kinds are {}", names.join(" ")))
}

fn different(kind: &Kind, told: &str) -> String {
    format!("DIFFERENCE in {}: {told}", kind.name)
}

fn all_cases(kind: &Kind, seed: u64, bridge: &mut Bridge) -> Result<Tally, String> {
    let mut tally = Tally::default();
    let mut index = 0;
    while index < kind.cases {
        index = some_cases(kind, seed, index..kind.cases, bridge, &mut tally)?;
    }
    println!("{:17} {:7} calls: {tally}", kind.name, tally.calls);
    match kind.meets.split(' ').find(|label| !tally.met(label)) {
        Some(label) => Err(format!("{label} never came up with seed {seed}")),
        None => Ok(tally),
    }
}

/// A case's calls; a session has none.
fn calls_of(kind: &Kind, seed: u64, index: u64) -> Vec<Call> {
    let mut chance = Chance::of(seed, kind.name, index);
    match kind.make {
        Calls(make) => make(&mut chance, index),
        Walks(walk, make) => make(walk, &mut chance, index),
        Session(_) => Vec::new(),
    }
}

/// As many cases from the front as make a batch; gives the next index.
fn some_cases(
    kind: &Kind,
    seed: u64,
    cases: std::ops::Range<u64>,
    bridge: &mut Bridge,
    tally: &mut Tally,
) -> Result<u64, String> {
    let again = |index: u64| format!("again: compare --repeat {} {seed} {index}", kind.name);
    match kind.make {
        Session(make) => {
            let mut chance = Chance::of(seed, kind.name, cases.start);
            let input = make(&mut chance, cases.start);
            sessions::compare(&mut chance, &input, tally)
                .map_err(|difference| format!("{difference}\n{}", again(cases.start)))?;
            Ok(cases.start + 1)
        }
        Calls(_) | Walks(..) => {
            let mut batch = Vec::new();
            let mut bytes = 0;
            let mut index = cases.start;
            while index < cases.end && bytes < BATCH_BYTES {
                for call in calls_of(kind, seed, index) {
                    bytes += call.size();
                    batch.push((index, call));
                }
                index += 1;
            }
            compare_batch(&batch, bridge, tally)
                .map_err(|(index, difference)| format!("{difference}\n{}", again(index)))?;
            Ok(index)
        }
    }
}

const BATCH_BYTES: usize = 1 << 20;

/// Which call of a batch the library did not survive: each alone, in a new bridge.
fn culprit(batch: &[(u64, Call)], error: String) -> (u64, String) {
    let fails = |call: &Call| {
        let mut alone = Batch::default();
        call.send(&mut alone);
        let mut bridge = Bridge::start();
        bridge.send(&alone.text).and_then(|()| bridge.receive()).is_err()
    };
    match batch.iter().find(|(_, call)| fails(call)) {
        Some((index, call)) => (*index, format!("{}\n{error}", call.told())),
        None => (batch[0].0, format!("a batch from here on\n{error}")),
    }
}

/// The second program answers while the library does.
fn compare_batch(
    batch: &[(u64, Call)],
    bridge: &mut Bridge,
    tally: &mut Tally,
) -> Result<(), (u64, String)> {
    let mut sent = Batch::default();
    batch.iter().for_each(|(_, call)| call.send(&mut sent));
    bridge.send(&sent.text).map_err(|error| culprit(batch, error))?;
    let answers: Vec<Answer> = batch.iter().map(|(_, call)| call.second()).collect();
    let text = bridge.receive().map_err(|error| culprit(batch, error))?;
    let mut reply = Reply { text, at: 0 };
    for ((index, call), second) in batch.iter().zip(&answers) {
        let library = call.receive(&mut reply);
        tally.call(call, second);
        if *second != library {
            let (ours, theirs) = (second.told(&library), library.told(second));
            let told = format!("{}\nsecond  {ours}\nlibrary {theirs}", call.told());
            return Err((*index, told));
        }
    }
    Ok(())
}
