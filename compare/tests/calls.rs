//! Compares the proved front with the yardstick, call by call: `tools/compare-calls` has `replay` proved and runs this.
//!
//! REPLAY, SEED, CALLS and ROOM say which program, where the lists start, how many calls, and the folder for a failing list.
//! It has no harness, so that progress and what was reached are seen.
#![forbid(unsafe_code)]

mod common;

use common::{given, number, stop};
use compare::Task;
use std::path::Path;
use std::{fs, process};

fn main() {
    let root = Path::new(env!("CARGO_MANIFEST_DIR")).join("..");
    let task = Task {
        program: given("REPLAY").map_or(root.join("crates/replay/out/replay"), Into::into),
        seed: number("SEED", 12),
        calls: number("CALLS", 1_000_000),
        folder: given("ROOM").map_or(root.join("target/compare-calls"), Into::into),
    };
    if task.calls == 0 {
        stop(2, "CALLS is a number from 1 up");
    }
    if !task.program.is_file() {
        stop(
            2,
            "there is no program to play; `tools/built replay` builds it",
        );
    }
    match fs::create_dir_all(&task.folder).and_then(|()| compare::run(&task)) {
        Ok(true) => {}
        Ok(false) => process::exit(1),
        Err(error) => stop(1, &error.to_string()),
    }
}
