//! A proved program, `replay` or `play`, fed and read by pipes.

use crate::turn::Turn;
use std::io::{self, BufReader, Write};
use std::path::Path;
use std::process::{Child, ChildStdout, Command, Output, Stdio};
use std::thread;
use std::time::Duration;

/// The bytes that a read of the pipe may bring at once.
const ROOM: usize = 1 << 18;

/// Between two pieces of an input: longer than a program takes to start and to read the first.
const PAUSE: Duration = Duration::from_millis(5);

/// The turns with a dump after each.
pub fn encode<'a>(turns: impl Iterator<Item = &'a Turn>) -> Vec<u8> {
    let mut input = Vec::new();
    for turn in turns {
        turn.encode(&mut input);
        input.push(b'D');
    }
    input
}

fn spawn(program: &Path, errors: Stdio) -> io::Result<Child> {
    Command::new(program)
        .stdin(Stdio::piped())
        .stdout(Stdio::piped())
        .stderr(errors)
        .spawn()
}

/// Hands the program's output to `look` while the input goes in; a look that finds something stops the program early.
pub fn watch<T>(
    program: &Path,
    input: &[u8],
    look: impl FnOnce(&mut BufReader<ChildStdout>) -> io::Result<Option<T>>,
) -> io::Result<Option<T>> {
    let mut child = spawn(program, Stdio::inherit())?;
    let mut stdin = child.stdin.take().expect("a pipe");
    let stdout = child.stdout.take().expect("a pipe");
    let seen = thread::scope(|scope| {
        // An early end of the program is seen as a cut output.
        scope.spawn(move || stdin.write_all(input));
        let mut reader = BufReader::with_capacity(ROOM, stdout);
        let seen = look(&mut reader);
        drop(reader);
        seen
    })?;
    let status = child.wait()?;
    if seen.is_none() && !status.success() {
        return Err(io::Error::other(format!("the front ends with {status}")));
    }
    Ok(seen)
}

/// Writes the pieces with a pause between them; a program that stops reading early ends it, which is no failure.
fn write_pieces(mut stdin: impl Write, pieces: &[&[u8]]) -> io::Result<()> {
    for (n, piece) in pieces.iter().enumerate() {
        if n > 0 {
            thread::sleep(PAUSE);
        }
        stdin.write_all(piece)?;
    }
    Ok(())
}

/// What the program writes to standard output and to standard error, and its status, with an input that comes in these pieces.
pub fn feed(program: &Path, pieces: &[&[u8]]) -> io::Result<Output> {
    let mut child = spawn(program, Stdio::piped())?;
    let stdin = child.stdin.take().expect("a pipe");
    thread::scope(|scope| {
        scope.spawn(move || write_pieces(stdin, pieces));
        child.wait_with_output()
    })
}

/// What the program writes to standard output and to standard error.
pub fn run(program: &Path, input: &[u8]) -> io::Result<(Vec<u8>, String)> {
    let output = feed(program, &[input])?;
    let errors = String::from_utf8_lossy(&output.stderr).into_owned();
    Ok((output.stdout, errors))
}

/// What the program says on standard error with these as input and output; the bytes go into an input that is a pipe.
pub fn complaint(program: &Path, input: Stdio, output: Stdio, bytes: &[u8]) -> io::Result<String> {
    let mut child = Command::new(program)
        .stdin(input)
        .stdout(output)
        .stderr(Stdio::piped())
        .spawn()?;
    if let Some(mut stdin) = child.stdin.take() {
        stdin.write_all(bytes)?;
    }
    let said = child.wait_with_output()?.stderr;
    Ok(String::from_utf8_lossy(&said).into_owned())
}
