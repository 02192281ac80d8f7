//! The library at the other end of a pipe: tests/bridge/bridge.c makes the calls.

use std::io::{Read, Write};
use std::process::{Child, ChildStdin, ChildStdout, Command, Stdio};

/// A program for x86-64: ULGENZHIR_RUN is the emulator, where this machine is none.
pub fn program(variable: &str, usual: &str) -> Command {
    let path = std::env::var(variable).unwrap_or(usual.into());
    match std::env::var("ULGENZHIR_RUN") {
        Ok(emulator) => {
            let mut command = Command::new(emulator);
            command.arg(path);
            command
        }
        Err(_) => Command::new(path),
    }
}

pub struct Bridge {
    child: Child,
    to: ChildStdin,
    from: ChildStdout,
}

impl Bridge {
    pub fn start() -> Bridge {
        let mut command = program("ULGENZHIR_BRIDGE", "target/tests/bridge");
        let started = command.stdin(Stdio::piped()).stdout(Stdio::piped()).spawn();
        let mut child = started.unwrap_or_else(|error| panic!("{command:?}: {error}"));
        let to = child.stdin.take().expect("piped");
        let from = child.stdout.take().expect("piped");
        Bridge { child, to, from }
    }

    /// The bridge reads the whole batch before it answers, so both may go on meanwhile.
    pub fn send(&mut self, batch: &[u8]) -> Result<(), String> {
        let sent = self.to.write_all(&(batch.len() as u32).to_le_bytes());
        let sent = sent.and_then(|()| self.to.write_all(batch)).and_then(|()| self.to.flush());
        sent.map_err(|error| self.ended(error))
    }

    pub fn receive(&mut self) -> Result<Vec<u8>, String> {
        let mut len = [0; 4];
        let mut reply = Vec::new();
        let received = self.from.read_exact(&mut len).and_then(|()| {
            reply.resize(u32::from_le_bytes(len) as usize, 0);
            self.from.read_exact(&mut reply)
        });
        received.map(|()| reply).map_err(|error| self.ended(error))
    }

    fn ended(&mut self, error: std::io::Error) -> String {
        format!("the bridge fails ({error}), its status: {:?}", self.child.wait())
    }
}
