//! A capture that fails as text: its bytes, and line by line what was printed and what should have been.

use super::parts::Parts;
use crate::capture::{self, Record};
use crate::turn::Turn;
use std::fmt;
use std::process::Output;

/// The groups of records that are shown of each end, and the rows on each side of the first difference.
const SHOWN: usize = 12;

/// What the program did with a capture and what it should have printed.
pub struct Difference {
    pub capture: Vec<u8>,
    pub output: Output,
    pub expected: String,
}

fn hex(bytes: &[u8]) -> String {
    bytes.iter().map(|byte| format!("{byte:02X}")).collect()
}

/// Something, and how often it stands there if more than once.
fn repeated(text: &str, times: usize) -> String {
    match times {
        1 => text.to_string(),
        n => format!("{text}, {n} times"),
    }
}

/// The head, the records with equal neighbours as one, and the bytes over; only both ends where they are many.
fn show_capture(capture: &[u8]) -> String {
    let parts = Parts::of(capture);
    let groups = parts.records.chunk_by(|a, b| a == b);
    let mut shown = vec![hex(&parts.head)];
    shown.extend(groups.map(|group| repeated(&hex(&group[0]), group.len())));
    shown.push(hex(&parts.tail));
    let left_out = shown.len().saturating_sub(2 * SHOWN);
    if left_out > 1 {
        shown.splice(SHOWN..SHOWN + left_out, [format!("({left_out} more)")]);
    }
    shown.retain(|text| !text.is_empty());
    shown.join("; ")
}

fn show_record(record: &Record) -> String {
    match capture::call(*record) {
        Some(call) => Turn::Made(call).to_string(),
        None => "bad kind".to_string(),
    }
}

/// A line of both texts, with its record.
#[derive(PartialEq)]
struct Row {
    record: String,
    printed: String,
    expected: String,
}

impl Row {
    fn show(&self, number: usize, times: usize) -> String {
        let record = repeated(&self.record, times);
        match self.printed == self.expected {
            true => format!("  {number:>6}  {record:<52}  {}", self.printed),
            false => format!(
                "  {number:>6}  {record:<52}  {}, not {}",
                self.printed, self.expected
            ),
        }
    }
}

impl Difference {
    fn rows(&self) -> Vec<Row> {
        let parts = Parts::of(&self.capture);
        let output = String::from_utf8_lossy(&self.output.stdout);
        let printed: Vec<&str> = output.split_inclusive('\n').collect();
        let expected: Vec<&str> = self.expected.split_inclusive('\n').collect();
        let shown = |lines: &[&str], n: usize| {
            let line = lines.get(n);
            line.map_or("nothing".to_string(), |line| format!("{line:?}"))
        };
        let row = |n: usize| Row {
            record: parts.records.get(n).map(show_record).unwrap_or_default(),
            printed: shown(&printed, n),
            expected: shown(&expected, n),
        };
        (0..printed.len().max(expected.len())).map(row).collect()
    }
}

impl fmt::Display for Difference {
    fn fmt(&self, f: &mut fmt::Formatter<'_>) -> fmt::Result {
        let count = self.capture.len();
        writeln!(f, "{count} bytes: {}", show_capture(&self.capture))?;
        let rows = self.rows();
        let groups: Vec<&[Row]> = rows.chunk_by(|a, b| a == b).collect();
        let differs = |group: &&[Row]| group[0].printed != group[0].expected;
        let first = groups.iter().position(differs).unwrap_or(groups.len());
        let shown = first.saturating_sub(SHOWN)..groups.len().min(first + SHOWN);
        let mut number = 1 + groups[..shown.start]
            .iter()
            .map(|group| group.len())
            .sum::<usize>();
        for group in &groups[shown] {
            writeln!(f, "{}", group[0].show(number, group.len()))?;
            number += group.len();
        }
        let errors = String::from_utf8_lossy(&self.output.stderr);
        writeln!(f, "  {}, standard error {errors:?}", self.output.status)
    }
}
