//! The second reading of request W1 of document 02: from the bytes of a capture to what `play` prints.

pub mod edges;

use crate::state::State;
use crate::turn::Turn;
use std::fmt;
use yardstick::call::Call;

/// The mark LOC and the version 1, high byte first.
pub const HEAD: [u8; 5] = [0x4c, 0x4f, 0x43, 0x00, 0x01];

/// Kind, offset high, offset low, byte.
pub type Record = [u8; 4];

/// The cycles after which it stops at the latest.
pub const MOST_CYCLES: usize = 10_000;

/// The length of each FIFO.
const C: usize = 1024;

/// What the engine answers.
const ANSWER: [u8; 10] = [0x00, 0xc4, 0x00, 0x00, 0x00, 0x0a, 0x00, 0x00, 0x00, 0x00];

/// The byte that is printed unless the record is a read.
const NO_READ: u8 = 0xff;

/// Why it stopped, where it was not the end of a sound capture.
#[derive(Clone, Copy, Debug, PartialEq, Eq)]
pub enum Word {
    Budget,
    BadKind,
    BadTail,
    BadHead,
}

impl fmt::Display for Word {
    fn fmt(&self, f: &mut fmt::Formatter<'_>) -> fmt::Result {
        f.write_str(match self {
            Word::Budget => "budget",
            Word::BadKind => "bad kind",
            Word::BadTail => "bad tail",
            Word::BadHead => "bad head",
        })
    }
}

/// What is printed; it is shown as the bytes of standard output.
#[derive(Clone, Debug, PartialEq, Eq)]
pub struct Printed {
    /// The refusal number and the byte of each record played.
    pub cycles: Vec<(u8, u8)>,
    pub word: Option<Word>,
}

impl fmt::Display for Printed {
    fn fmt(&self, f: &mut fmt::Formatter<'_>) -> fmt::Result {
        for (refusal, byte) in &self.cycles {
            writeln!(f, "{refusal} {byte:02X}")?;
        }
        if let Some(word) = self.word {
            writeln!(f, "{word}")?;
        }
        // A bad head is printed alone.
        match self.word {
            Some(Word::BadHead) => Ok(()),
            _ => writeln!(f, "cycles {}", self.cycles.len()),
        }
    }
}

/// The call that a record makes, its other fields not counting; none for a kind above 3.
pub fn call([kind, high, low, byte]: Record) -> Option<Call> {
    let field = u16::from_be_bytes([high, low]);
    match kind {
        0 => Some(Call::Read {
            offset: field.into(),
        }),
        1 => Some(Call::Write {
            offset: field.into(),
            byte,
        }),
        2 => Some(Call::Reset),
        3 => Some(Call::Respond {
            run: field.into(),
            answer: ANSWER.to_vec(),
        }),
        _ => None,
    }
}

/// The device that every capture is played on, just powered on.
pub fn device() -> State {
    let mut state = State::fresh(C, 0);
    let power_on = Call::PowerOn {
        established: false,
        identity: [0; 5],
    };
    state.play(&Turn::Made(power_on), &mut Vec::new());
    state
}

/// The refusal number, and the byte that a read gives.
fn cycle(device: &mut State, call: Call) -> (u8, u8) {
    let is_read = matches!(call, Call::Read { .. });
    let mut outcome = Vec::with_capacity(2);
    let refusal = device.play(&Turn::Made(call), &mut outcome);
    (refusal, if is_read { outcome[1] } else { NO_READ })
}

/// What is printed for the bytes behind a sound head, with at most `limit` cycles.
fn play_records(bytes: &[u8], limit: usize) -> Printed {
    let mut device = device();
    let mut cycles = Vec::new();
    let mut rest = bytes;
    let word = loop {
        match rest {
            [] => break None,
            // In place of the other two words, whatever the bytes left are.
            _ if cycles.len() == limit => break Some(Word::Budget),
            // Whatever they hold, so a kind above 3 among them is none.
            [_] | [_, _] | [_, _, _] => break Some(Word::BadTail),
            [kind, high, low, byte, behind @ ..] => match call([*kind, *high, *low, *byte]) {
                Some(call) => {
                    cycles.push(cycle(&mut device, call));
                    rest = behind;
                }
                None => break Some(Word::BadKind),
            },
        }
    };
    Printed { cycles, word }
}

/// What is printed for a capture.
pub fn play(capture: &[u8]) -> Printed {
    match capture.strip_prefix(&HEAD) {
        Some(records) => play_records(records, MOST_CYCLES),
        None => Printed {
            cycles: Vec::new(),
            word: Some(Word::BadHead),
        },
    }
}

#[cfg(test)]
mod tests;
