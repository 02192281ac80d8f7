//! The program `wedge`, fed through a pipe in pieces or from a file.

use crate::bridge::program;
use crate::chance::Chance;
use crate::session_texts::{overlong, text, THROUGH_FIRST_DIGIT};
use crate::tally::Tally;
use second::listed::SESSIONS;
use second::session::{session, MOST_BYTES};
use std::fs::File;
use std::io::{ErrorKind, Read, Seek, Write};
use std::process::{Child, ChildStdin, Command, Stdio};

fn wedge() -> Command {
    program("ULGENZHIR_WEDGE", "crates/wedge/out/wedge")
}

fn started(command: &mut Command) -> Result<Child, String> {
    command.stdout(Stdio::piped()).spawn().map_err(|error| format!("{command:?}: {error}"))
}

/// All that the program prints, once it has ended well.
fn ended(mut child: Child) -> Result<Vec<u8>, String> {
    let mut output = Vec::new();
    let read = child.stdout.take().expect("piped").read_to_end(&mut output);
    let status = child.wait().map_err(|error| error.to_string())?;
    match read {
        Ok(_) if status.success() => Ok(output),
        other => Err(format!("wedge ended with {status}, read {other:?}")),
    }
}

/// Short reads are not the end of input: pieces of any length, with pauses.
fn feed(mut pipe: ChildStdin, input: &[u8], piece: usize) -> std::io::Result<()> {
    for (count, part) in input.chunks(piece).enumerate() {
        match pipe.write_all(part) {
            // The program has read all that it reads.
            Err(error) if error.kind() == ErrorKind::BrokenPipe => return Ok(()),
            other => other?,
        }
        if count < 5 {
            std::thread::sleep(std::time::Duration::from_millis(1));
        }
    }
    Ok(())
}

fn through_pipe(input: &[u8], piece: usize) -> Result<Vec<u8>, String> {
    let mut child = started(wedge().stdin(Stdio::piped()))?;
    let pipe = child.stdin.take().expect("piped");
    std::thread::scope(|scope| {
        let fed = scope.spawn(move || feed(pipe, input, piece));
        let output = ended(child)?;
        fed.join().expect("the feeder ends").map_err(|error| error.to_string())?;
        Ok(output)
    })
}

/// From a file: what follows byte 65,536 is left for a program that follows.
fn from_file(input: &[u8]) -> Result<Vec<u8>, String> {
    let path = std::env::temp_dir().join(format!("ulgenzhir-session-{}", std::process::id()));
    let told = |error: std::io::Error| format!("{}: {error}", path.display());
    std::fs::write(&path, input).map_err(told)?;
    let mut file = File::open(&path).map_err(told)?;
    let child = started(wedge().stdin(file.try_clone().map_err(told)?))?;
    let output = ended(child)?;
    let read = file.stream_position().map_err(told)?;
    std::fs::remove_file(&path).map_err(told)?;
    let expected = input.len().min(MOST_BYTES) as u64;
    if read != expected {
        return Err(format!("wedge read {read} bytes of its input in place of {expected}"));
    }
    Ok(output)
}

fn printed(chance: &mut Chance, input: &[u8]) -> Result<Vec<u8>, String> {
    match chance.below(3) {
        0 => from_file(input),
        1 => {
            let piece = chance.one_of(&[7, 100, 4096, 65_535, 65_536]);
            through_pipe(input, piece)
        }
        _ => through_pipe(input, usize::MAX),
    }
}

pub fn compare(chance: &mut Chance, input: &[u8], tally: &mut Tally) -> Result<(), String> {
    let second = session(input);
    let library = printed(chance, input)?;
    tally.calls += 1;
    for line in second.split(|&byte| byte == b'\n').filter(|line| !line.is_empty()) {
        tally.note(&line[..1].escape_ascii().to_string(), 1);
    }
    tally.note("cut", u64::from(input.len() > MOST_BYTES));
    if second == library {
        return Ok(());
    }
    Err(first_difference(input, &second, &library))
}

fn first_difference(input: &[u8], second: &[u8], library: &[u8]) -> String {
    let lines = |text: &[u8]| -> Vec<String> {
        text.split(|&byte| byte == b'\n').map(|line| line.escape_ascii().to_string()).collect()
    };
    let (input, second, library) = (lines(input), lines(second), lines(library));
    let at = second.iter().zip(&library).position(|(a, b)| a != b);
    let at = at.unwrap_or(second.len().min(library.len()));
    let line = |list: &[String]| list.get(at).cloned().unwrap_or("nothing".into());
    let (input, second, library) = (line(&input), line(&second), line(&library));
    format!("session line {at}: {input}\nsecond  {second}\nlibrary {library}")
}

/// The listed sessions, then the committed ones.
pub fn listed(_: &mut Chance, index: u64) -> Vec<u8> {
    let file = |name: &str| std::fs::read(format!("tests/sessions/{name}")).expect("a session");
    match index.checked_sub(SESSIONS.len() as u64) {
        None => SESSIONS[index as usize].0.to_vec(),
        Some(0) => file("stdin"),
        Some(_) => file("overlong.stdin"),
    }
}

pub const LISTED: u64 = SESSIONS.len() as u64 + 2;

pub fn any(chance: &mut Chance, index: u64) -> Vec<u8> {
    let lines = chance.below(600);
    match index % 15 {
        0 => {
            let anywhere = chance.len_to(60);
            let after = chance.one_of(&[THROUGH_FIRST_DIGIT, anywhere]);
            overlong(chance, after)
        }
        1 => {
            let len = chance.len_to(66_000);
            (0..len).map(|_| chance.one_of(b"11 2-0\n 8\r\0")).collect()
        }
        2 => text(chance, lines % 4),
        _ => text(chance, lines),
    }
}
