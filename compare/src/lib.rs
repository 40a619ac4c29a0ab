//! Seeded lists of calls, played through the proved front (the program `replay`) and the yardstick and compared.
//!
//! After each call outcome, record and both FIFOs, whole, and the waiting book are compared. The list of number n depends on the seed
//! and n alone. `captures` compares the program `play` in the same way.
#![forbid(unsafe_code)]

pub mod capture;
pub mod captures;
mod coverage;
mod examine;
mod faults;
mod follow;
mod front;
mod offsets;
mod random;
mod records;
mod scene;
mod scenes;
mod shrink;
mod state;
mod turn;

use coverage::{Before, Coverage};
use follow::Follower;
use random::Random;
use state::State;
use std::fs;
use std::io::{self, BufRead};
use std::path::{Path, PathBuf};
use std::time::{Duration, Instant};
use turn::Turn;

/// The calls that one run of the front plays at least.
const BATCH: usize = 20_000;

/// From how many calls on all that must be reached has to be.
const ENOUGH: u64 = 1_000_000;

/// How often a long run says how far it is.
const PROGRESS: Duration = Duration::from_secs(5);

/// What is to be compared.
pub struct Task {
    /// `replay`, as it was proved and built.
    pub program: PathBuf,
    pub seed: u64,
    /// How many calls at least.
    pub calls: u64,
    /// Where the shortest failing list found is kept.
    pub folder: PathBuf,
}

/// The list of this number.
fn list(seed: u64, number: u64) -> Vec<Turn> {
    scenes::list(&Random::numbered(seed, number), number)
}

/// Whether the next bytes are these.
fn same(reader: &mut impl BufRead, mut expected: &[u8]) -> io::Result<bool> {
    while !expected.is_empty() {
        let bytes = reader.fill_buf()?;
        let n = bytes.len().min(expected.len());
        if n == 0 || bytes[..n] != expected[..n] {
            return Ok(false);
        }
        reader.consume(n);
        expected = &expected[n..];
    }
    Ok(true)
}

/// Plays a list beside the front's output; false at the first difference.
fn follow(reader: &mut impl BufRead, calls: &[Turn], coverage: &mut Coverage) -> io::Result<bool> {
    let mut follower = Follower::new();
    let mut expected = Vec::new();
    for call in calls {
        expected.clear();
        let before = Before::of(&follower.state);
        let refusal = follower.play(call, &mut expected);
        if !same(reader, &expected)? {
            return Ok(false);
        }
        // The front's record was just found to be the yardstick's.
        let (active, waiting) = (follower.state.device.active, follower.state.device.waiting);
        if follower.enter(call, refusal, active, &waiting).is_err() {
            return Ok(false);
        }
        coverage.count(&before, call, refusal, &follower.state, &expected);
        coverage.count_wait(follower.served());
    }
    Ok(true)
}

/// Plays the lists in one run of the front; gives the place of one that failed.
fn compare(
    program: &Path,
    lists: &[Vec<Turn>],
    coverage: &mut Coverage,
) -> io::Result<Option<usize>> {
    let input = front::encode(lists.iter().flatten());
    front::watch(program, &input, |reader| {
        for (n, calls) in lists.iter().enumerate() {
            if !follow(reader, calls, coverage)? {
                return Ok(Some(n));
            }
        }
        match reader.fill_buf()? {
            [] => Ok(None),
            _ => Err(io::Error::other("the front writes more than was asked")),
        }
    })
}

/// The last call alone, on the record and the FIFOs that it found.
fn last_call(calls: &[Turn]) -> Vec<Turn> {
    let mut state = State::start();
    let Some((last, before)) = calls.split_last() else {
        return Vec::new();
    };
    for call in before {
        state.play(call, &mut Vec::new());
    }
    let state = Box::new(state);
    vec![Turn::Load { state, note: None }, last.clone()]
}

/// Shows the shortest failing list found and keeps it.
fn report(task: &Task, number: u64, calls: &[Turn]) -> io::Result<()> {
    println!(
        "list {number} of seed {} fails; looking for a shorter one",
        task.seed
    );
    let fails = |calls: &[Turn]| {
        let found = examine::examine(&task.program, calls).ok()?;
        found.map(|difference| difference.at())
    };
    let shortest = shrink::shrink_calls(calls, fails);
    match examine::examine(&task.program, &shortest)? {
        Some(difference) => print!("{difference}"),
        None => println!("played by itself it does not fail"),
    }
    let place = task.folder.join("failing");
    fs::write(&place, front::encode(shortest.iter()))?;
    println!(
        "{} has the list of {} calls",
        place.display(),
        shortest.len()
    );
    let last = last_call(&shortest);
    if shortest.len() > 2 && fails(&last).is_some() {
        println!("its last call alone, on the record that it found:");
        if let Some(difference) =
            examine::examine(&task.program, &shrink::shrink_calls(&last, fails))?
        {
            print!("{difference}");
        }
    }
    Ok(())
}

/// Whether the front begins as the form says, before any call or load.
fn starts(program: &Path) -> io::Result<bool> {
    let mut expected = Vec::new();
    State::start().dump(&mut expected);
    let (output, errors) = front::run(program, b"D")?;
    Ok(output == expected && errors.is_empty())
}

/// Compares, saying how far it is. Whether all agreed and nothing was missing.
pub fn run(task: &Task) -> io::Result<bool> {
    println!("seed {}, {} calls", task.seed, task.calls);
    if !starts(&task.program)? {
        println!("the front does not begin with a fresh record and FIFOs of no byte");
        return Ok(false);
    }
    match faults::check(&task.program)? {
        Ok(count) => println!("{count} streams with a fault, or with an input or output that fails: each named by its line"),
        Err(text) => {
            println!("a fault is not named as it must be: {text}");
            return Ok(false);
        }
    }
    let began = Instant::now();
    let mut coverage = Coverage::default();
    let mut number = 0;
    let mut shown = Instant::now();
    while coverage.calls() < task.calls {
        let first = number;
        let mut lists = Vec::new();
        while lists.iter().map(Vec::len).sum::<usize>() < BATCH {
            lists.push(list(task.seed, number));
            number += 1;
        }
        if let Some(n) = compare(&task.program, &lists, &mut coverage)? {
            report(task, first + n as u64, &lists[n])?;
            return Ok(false);
        }
        if shown.elapsed() >= PROGRESS {
            shown = Instant::now();
            let percent = coverage.calls() * 100 / task.calls.max(1);
            println!(
                "{} calls, {percent} %, {:.0} s",
                coverage.calls(),
                began.elapsed().as_secs_f64()
            );
        }
    }
    coverage.print();
    let missing = coverage.missing();
    for name in &missing {
        println!("never seen: {name}");
    }
    let seconds = began.elapsed().as_secs_f64();
    println!(
        "seed {}: {} calls in {number} lists agree, {seconds:.1} s",
        task.seed,
        coverage.calls()
    );
    Ok(missing.is_empty() || task.calls < ENOUGH)
}
