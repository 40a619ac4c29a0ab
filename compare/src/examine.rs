//! One list looked at closely: the first call after which the front, the yardstick and the waiting book do not agree.

use crate::follow::Follower;
use crate::front;
use crate::state::{BANK, IMAGE, PARTS};
use crate::turn::{hex, Turn};
use std::fmt;
use std::io;
use std::path::Path;
use yardstick::call::Call;

/// A call with what the front and the yardstick gave.
#[derive(PartialEq)]
struct Row {
    call: String,
    front: String,
    yardstick: String,
}

/// The rows up to the difference, and what it is.
pub struct Difference {
    rows: Vec<Row>,
    what: Vec<String>,
}

impl Difference {
    /// The place of the call at which it shows.
    pub fn at(&self) -> usize {
        self.rows.len() - 1
    }
}

impl fmt::Display for Difference {
    fn fmt(&self, f: &mut fmt::Formatter<'_>) -> fmt::Result {
        let mut first = 0;
        for group in self.rows.chunk_by(|a, b| a == b) {
            let Row {
                call,
                front,
                yardstick,
            } = &group[0];
            let times = match group.len() {
                1 => String::new(),
                n => format!(", {n} times"),
            };
            let call = format!("{call}{times}");
            let outcomes = match call.starts_with("load") {
                true => String::new(),
                false => format!("front {front}, yardstick {yardstick}"),
            };
            writeln!(f, "{:>4}  {call:<40}  {outcomes}", first + 1)?;
            first += group.len();
        }
        for line in &self.what {
            writeln!(f, "      {line}")?;
        }
        Ok(())
    }
}

/// The front's output, a call's outcome and a dump at a time.
struct Output<'a>(&'a [u8]);

impl<'a> Output<'a> {
    fn take(&mut self, n: usize) -> Option<&'a [u8]> {
        let (front, rest) = self.0.split_at_checked(n)?;
        self.0 = rest;
        Some(front)
    }

    fn length(&self, at: usize) -> Option<usize> {
        let bytes = self.0.get(at..at + 2)?;
        Some(usize::from(u16::from_le_bytes([bytes[0], bytes[1]])))
    }

    fn outcome(&mut self, turn: &Turn) -> Option<&'a [u8]> {
        let size = match turn {
            Turn::Load { .. } => 0,
            Turn::Made(Call::Read { .. } | Call::MayReset { .. } | Call::MayExtend { .. }) => 2,
            Turn::Made(Call::PcrValue { .. }) => 21,
            Turn::Made(Call::Window) => 3 + self.length(1)?,
            Turn::Made(_) => 1,
        };
        self.take(size)
    }

    fn dump(&mut self) -> Option<&'a [u8]> {
        let size = IMAGE + 4 + self.length(IMAGE)? + self.length(IMAGE + 2)?;
        self.take(size)
    }
}

fn show(turn: &Turn, outcome: &[u8]) -> String {
    let Turn::Made(call) = turn else {
        return String::new();
    };
    match (call, outcome) {
        (Call::Read { .. }, [refusal, byte]) => format!("{refusal} byte {byte:02x}"),
        (Call::InterruptLine, [line]) => format!("line {line}"),
        (Call::Window, [refusal, _, _, part @ ..]) => format!("{refusal} bytes {}", hex(part)),
        (_, [refusal]) => format!("{refusal}"),
        (_, [refusal, rest @ ..]) => format!("{refusal} {}", hex(rest)),
        (_, []) => "nothing".to_string(),
    }
}

/// A number in decimal, anything else as bytes.
fn show_part(name: &str, bytes: &[u8]) -> String {
    let number = name.ends_with("count") || name.ends_with("number") || name == "hash bytes";
    if number {
        let value = bytes
            .iter()
            .rev()
            .fold(0, |sum, byte| sum << 8 | u64::from(*byte));
        return value.to_string();
    }
    hex(bytes)
}

/// One line where a part differs, from the first byte that does where it is long.
fn difference(name: &str, front: &[u8], yardstick: &[u8]) -> Option<String> {
    let place = front.iter().zip(yardstick).position(|(a, b)| a != b);
    let place = place.or((front.len() != yardstick.len()).then_some(0))?;
    let (from, at) = match front.len() {
        0..=24 => (0, String::new()),
        _ => (place, format!(" from byte {place}")),
    };
    let (front, yardstick) = (&front[from..], &yardstick[from..]);
    Some(format!(
        "{name}{at}: front {}, yardstick {}",
        show_part(name, front),
        show_part(name, yardstick)
    ))
}

/// The parts of a dump by name.
fn parts(dump: &[u8]) -> Vec<(String, &[u8])> {
    let (bank, rest) = dump[BANK..].split_at(IMAGE - BANK);
    let write = usize::from(u16::from_le_bytes([rest[0], rest[1]]));
    let mut parts: Vec<(String, &[u8])> = PARTS
        .iter()
        .map(|(name, from, to)| (name.to_string(), &dump[*from..*to]))
        .collect();
    let pcrs = bank.chunks(20).enumerate();
    parts.extend(pcrs.map(|(n, value)| (format!("PCR {n}"), value)));
    parts.push(("FIFO lengths".to_string(), &rest[..4]));
    parts.push(("WriteFIFO".to_string(), &rest[4..4 + write]));
    parts.push(("ReadFIFO".to_string(), &rest[4 + write..]));
    parts
}

/// The parts of two dumps that differ.
fn differences(front: &[u8], yardstick: &[u8]) -> Vec<String> {
    parts(front)
        .iter()
        .zip(parts(yardstick))
        .filter_map(|((name, a), (_, b))| difference(name, a, b))
        .collect()
}

/// The active locality and the waiting flags of an image.
fn holding(image: &[u8]) -> (Option<u8>, [bool; 5]) {
    let waiting = std::array::from_fn(|x| image[1 + x] == 1);
    ((image[0] == 1).then_some(image[20]), waiting)
}

/// Plays a list and gives its first difference.
pub fn examine(program: &Path, turns: &[Turn]) -> io::Result<Option<Difference>> {
    let (output, errors) = front::run(program, &front::encode(turns.iter()))?;
    let mut output = Output(&output);
    let mut follower = Follower::new();
    let mut rows = Vec::new();
    for turn in turns {
        let mut expected = Vec::new();
        follower.state.play(turn, &mut expected);
        let mut dump = Vec::new();
        follower.state.dump(&mut dump);
        let got = output.outcome(turn).zip(output.dump());
        rows.push(Row {
            call: turn.to_string(),
            front: got.map_or("stopped".to_string(), |(outcome, _)| show(turn, outcome)),
            yardstick: show(turn, &expected),
        });
        let Some((outcome, image)) = got else {
            let what = vec![format!("the front stopped: {}", errors.trim())];
            return Ok(Some(Difference { rows, what }));
        };
        let (active, waiting) = holding(image);
        let refusal = match turn {
            Turn::Made(Call::InterruptLine) | Turn::Load { .. } => 0,
            _ => outcome[0],
        };
        let mut what = Vec::new();
        if outcome != expected {
            what.push("the outcomes differ".to_string());
        }
        what.extend(differences(image, &dump));
        if let Err(law) = follower.enter(turn, refusal, active, &waiting) {
            what.push(law);
        }
        if !what.is_empty() {
            return Ok(Some(Difference { rows, what }));
        }
    }
    Ok(None)
}
