//! One process of the hub program.

use std::io::{Read, Write};
use std::path::Path;
use std::process::{Child, Command, Stdio};
use std::sync::mpsc;
use std::time::Duration;

use crate::difference::{Bytes, Difference};

const PATIENCE: Duration = Duration::from_secs(20);

/// What a process wrote, or that it did not end by itself.
#[derive(PartialEq, Eq)]
pub struct Said {
    pub out: Vec<u8>,
    pub err: Vec<u8>,
    pub ended: bool,
}

pub fn command(program: &Path, stdin: Stdio) -> Command {
    let mut command = Command::new(program);
    command.stdin(stdin).stdout(Stdio::piped()).stderr(Stdio::piped());
    command
}

/// Waits for the program to end, but not for ever.
pub fn wait(mut child: Child) -> Said {
    let (mut stdout, mut stderr) = (child.stdout.take().expect("piped"), child.stderr.take().expect("piped"));
    let (sender, receiver) = mpsc::channel();
    std::thread::spawn(move || {
        let (mut out, mut err) = (vec![], vec![]);
        let read = stdout.read_to_end(&mut out).and_then(|_| stderr.read_to_end(&mut err));
        sender.send(read.map(|_| (out, err)))
    });
    let (out, err) = receiver.recv_timeout(PATIENCE).ok().and_then(|read| read.ok()).unwrap_or_default();
    let _ = child.kill(); // does nothing to one that has ended
    let ended = child.wait().is_ok_and(|status| status.code().is_some());
    Said { out, err, ended }
}

/// Writes as the program takes it; one that stops reading closes the pipe, which is its right.
pub fn feed(child: &mut Child, parts: &mut dyn Iterator<Item = Vec<u8>>, pause: Duration) {
    let mut stdin = child.stdin.take().expect("piped");
    for part in parts {
        if stdin.write_all(&part).is_err() {
            return;
        }
        if !pause.is_zero() {
            std::thread::sleep(pause);
        }
    }
}

pub fn start(mut command: Command) -> Result<Child, Difference> {
    command.spawn().map_err(|e| Difference(format!("{:?} did not start: {e}", command.get_program())))
}

/// The program on this input, given whole.
pub fn answer(program: &Path, input: &[u8]) -> Result<Said, Difference> {
    let mut child = start(command(program, Stdio::piped()))?;
    feed(&mut child, &mut std::iter::once(input.to_vec()), Duration::ZERO);
    Ok(wait(child))
}

/// What it said is what it must say, and nothing else.
pub fn demand(what: &str, input: &[u8], expected: &[u8], said: &Said) -> Result<(), Difference> {
    if said.out == expected && said.err.is_empty() && said.ended {
        return Ok(());
    }
    let Said { out, err, ended } = said;
    Err(Difference(format!(
        "hub: {what}\ninput: {}\nexpected: {}\nours:     {}\nstandard error: {}\nended by itself: {ended}",
        Bytes(input),
        Bytes(expected),
        Bytes(out),
        String::from_utf8_lossy(err),
    )))
}
