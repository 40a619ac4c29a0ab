//! Compares the program `play` with the second reading of W1, capture by capture: `tools/compare-captures` proves `play` and runs this.
//!
//! PLAY, SEED, CAPTURES and ROOM say which program, where the captures start, how many, and the folder for a failing capture.
//! It has no harness, so that progress and what was reached are seen.
#![forbid(unsafe_code)]

mod common;

use common::{given, number, stop};
use compare::captures::{self, Task};
use std::path::Path;
use std::{fs, process};

fn main() {
    let root = Path::new(env!("CARGO_MANIFEST_DIR")).join("..");
    let task = Task {
        program: given("PLAY").map_or(root.join("crates/play/out/play"), Into::into),
        seed: number("SEED", 12),
        captures: number("CAPTURES", 20_000),
        folder: given("ROOM").map_or(root.join("target/compare-captures"), Into::into),
    };
    if task.captures == 0 {
        stop(2, "CAPTURES is a number from 1 up");
    }
    if !task.program.is_file() {
        stop(
            2,
            "there is no program to play; `tools/built play` builds it",
        );
    }
    match fs::create_dir_all(&task.folder).and_then(|()| captures::run(&task)) {
        Ok(true) => {}
        Ok(false) => process::exit(1),
        Err(error) => stop(1, &error.to_string()),
    }
}
