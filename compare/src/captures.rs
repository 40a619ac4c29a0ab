//! Seeded captures, sound and damaged, played by the program `play` and by the second reading of W1 and compared.
//!
//! Standard output is compared byte for byte; standard error is empty and the exit status 0. The capture of number n depends on the seed
//! and n alone.

mod coverage;
mod damage;
mod parts;
mod record;
mod report;
mod scenes;
mod seeded;
mod shrink;

use crate::capture::{self, edges};
use crate::{front, PROGRESS};
use coverage::Coverage;
use report::Difference;
use seeded::Made;
use std::path::{Path, PathBuf};
use std::sync::atomic::{AtomicU64, Ordering};
use std::sync::Mutex;
use std::time::Instant;
use std::{fs, io, thread};

/// Captures compared at once: some wait for a program to start or to end.
const WORKERS: usize = 4;

/// From how many captures on all that must be reached has to be.
const ENOUGH: u64 = 20_000;

/// What is to be compared.
pub struct Task {
    /// `play`, as it was proved and built.
    pub program: PathBuf,
    pub seed: u64,
    pub captures: u64,
    /// Where the shortest failing capture found is kept.
    pub folder: PathBuf,
}

/// What the workers share.
struct Seen {
    coverage: Coverage,
    /// The least number of a capture that fails.
    failing: Option<u64>,
    began: Instant,
    shown: Instant,
}

/// What the program does that it should not.
fn difference(program: &Path, made: &Made, expected: String) -> io::Result<Option<Difference>> {
    let output = front::feed(program, &made.pieces())?;
    let agrees = output.stdout == expected.as_bytes()
        && output.stderr.is_empty()
        && output.status.code() == Some(0);
    Ok((!agrees).then(|| Difference {
        capture: made.capture.clone(),
        output,
        expected,
    }))
}

/// The difference from the second reading.
fn second_reading(program: &Path, made: &Made) -> io::Result<Option<Difference>> {
    difference(program, made, capture::play(&made.capture).to_string())
}

/// Plays the edges by the program; whether each prints what was written down.
fn edges_agree(task: &Task) -> io::Result<bool> {
    let edges = edges::all();
    let count = edges.len();
    for edge in edges {
        let (capture, cut) = (edge.capture, None);
        let made = Made { capture, cut };
        if difference(&task.program, &made, edge.printed)?.is_some() {
            report(task, &format!("edge '{}'", edge.name), made)?;
            return Ok(false);
        }
    }
    println!("{count} captures at the edges of W1 print what was written down");
    Ok(true)
}

/// Compares one capture; whether it agrees.
fn compare(task: &Task, number: u64, seen: &Mutex<Seen>) -> io::Result<bool> {
    let made = seeded::made(task.seed, number);
    let printed = capture::play(&made.capture);
    let agrees = difference(&task.program, &made, printed.to_string())?.is_none();
    let mut seen = seen.lock().expect("no worker panics");
    seen.coverage.count(&made, &printed);
    if !agrees {
        seen.failing = Some(seen.failing.map_or(number, |least| least.min(number)));
    }
    if seen.shown.elapsed() >= PROGRESS {
        seen.shown = Instant::now();
        let seconds = seen.began.elapsed().as_secs_f64();
        println!("{} captures, {seconds:.0} s", seen.coverage.captures());
    }
    Ok(agrees)
}

/// Takes one number after the other, until there are no more or a capture fails.
fn work(task: &Task, next: &AtomicU64, seen: &Mutex<Seen>) -> io::Result<()> {
    loop {
        let number = next.fetch_add(1, Ordering::Relaxed);
        if number >= task.captures {
            return Ok(());
        }
        let agrees = compare(task, number, seen);
        if !matches!(agrees, Ok(true)) {
            // The others end what they have begun, so that all lower numbers are compared.
            next.store(task.captures, Ordering::Relaxed);
            return agrees.map(|_| ());
        }
    }
}

/// Shows the shortest failing capture found and keeps it.
fn report(task: &Task, name: &str, made: Made) -> io::Result<()> {
    println!("{name} fails; looking for a shorter one");
    let Made { capture, cut } = made;
    let alone = |capture: Vec<u8>, cut| second_reading(&task.program, &Made { capture, cut });
    // In pieces only if it takes them.
    let cut = match alone(capture.clone(), None)? {
        Some(_) => None,
        None => cut,
    };
    let fails = |bytes: &[u8]| matches!(alone(bytes.to_vec(), cut), Ok(Some(_)));
    let shortest = shrink::shrink(&capture, fails);
    if let Some(first) = cut {
        println!("it comes in two pieces, the first of at most {first} bytes");
    }
    match alone(shortest.clone(), cut)? {
        Some(difference) => print!("{difference}"),
        None => println!("played by itself it does not fail"),
    }
    let place = task.folder.join("failing");
    fs::write(&place, &shortest)?;
    println!("{} has the capture", place.display());
    Ok(())
}

/// Compares all captures; what they reached and the one that failed.
fn compare_all(task: &Task) -> io::Result<Seen> {
    let began = Instant::now();
    let seen = Mutex::new(Seen {
        coverage: Coverage::default(),
        failing: None,
        began,
        shown: began,
    });
    let next = AtomicU64::new(0);
    thread::scope(|scope| {
        let workers: Vec<_> = (0..WORKERS)
            .map(|_| scope.spawn(|| work(task, &next, &seen)))
            .collect();
        let ends = workers
            .into_iter()
            .map(|worker| worker.join().expect("no worker panics"));
        ends.collect::<io::Result<()>>()
    })?;
    Ok(seen.into_inner().expect("no worker panics"))
}

/// Compares, saying how far it is. Whether all agreed and nothing was missing.
pub fn run(task: &Task) -> io::Result<bool> {
    println!("seed {}, {} captures", task.seed, task.captures);
    if !edges_agree(task)? {
        return Ok(false);
    }
    let seen = compare_all(task)?;
    if let Some(number) = seen.failing {
        let made = seeded::made(task.seed, number);
        report(task, &format!("capture {number}"), made)?;
        return Ok(false);
    }
    seen.coverage.print();
    let missing = seen.coverage.missing();
    for name in &missing {
        println!("never seen: {name}");
    }
    println!(
        "seed {}: {} captures with {} records played agree, {:.1} s",
        task.seed,
        seen.coverage.captures(),
        seen.coverage.records(),
        seen.began.elapsed().as_secs_f64()
    );
    Ok(missing.is_empty() || task.captures < ENOUGH)
}
