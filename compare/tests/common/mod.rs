//! What the comparisons take from the environment, and how they stop.

use std::{env, process};

pub fn given(name: &str) -> Option<String> {
    env::var(name).ok().filter(|text| !text.is_empty())
}

/// The number that a variable names.
pub fn number(name: &str, otherwise: u64) -> u64 {
    let Some(text) = given(name) else {
        return otherwise;
    };
    text.parse()
        .unwrap_or_else(|_| stop(2, &format!("{name} is no number: {text}")))
}

pub fn stop(status: i32, text: &str) -> ! {
    eprintln!("{}: {text}", env!("CARGO_CRATE_NAME"));
    process::exit(status)
}
