//! Calls as records of a capture: the nearest that a record can say, and its bytes.

use crate::capture::{self, Record};
use crate::random::Random;
use crate::turn::Turn;
use yardstick::call::Call;

const READ: u8 = 0;
const WRITE: u8 = 1;
const RESET: u8 = 2;
const ANSWER: u8 = 3;

/// The record nearest to a call, with 0 where a field does not count; a question has none.
fn nearest(call: &Call) -> Option<Record> {
    let record = |kind, field: u64, byte| {
        let [high, low] = (field as u16).to_be_bytes();
        [kind, high, low, byte]
    };
    match call {
        Call::Read { offset } => Some(record(READ, *offset, 0)),
        Call::Write { offset, byte } => Some(record(WRITE, *offset, *byte)),
        // Nothing else makes the record fresh.
        Call::PowerOn { .. } | Call::Reset => Some(record(RESET, 0, 0)),
        Call::Respond { run, .. } => Some(record(ANSWER, u64::from(*run), 0)),
        _ => None,
    }
}

/// What a capture takes of a turn; loads and questions it leaves out.
pub fn kept(turn: Turn) -> Option<Turn> {
    let Turn::Made(made) = turn else {
        return None;
    };
    nearest(&made).and_then(capture::call).map(Turn::Made)
}

/// The record of a turn that was kept; now and then something stands in the fields that do not count.
pub fn written(turn: &Turn, random: &Random) -> Option<Record> {
    let Turn::Made(made) = turn else {
        return None;
    };
    let mut record = nearest(made)?;
    if random.once_in(4) {
        let from = match record[0] {
            READ | ANSWER => 3,
            RESET => 1,
            _ => 4,
        };
        record[from..].fill_with(|| random.byte());
    }
    Some(record)
}

#[cfg(test)]
mod tests {
    use super::*;

    /// Whatever stands in the other fields, the record makes the call that was kept.
    #[test]
    fn a_written_record_makes_its_call() {
        let random = Random::seeded(1);
        for _ in 0..2000 {
            let field = random.next();
            let call = match random.below(5) {
                0 => Call::Read { offset: field },
                1 => Call::Write {
                    offset: field,
                    byte: random.byte(),
                },
                2 => Call::Reset,
                3 => Call::Window,
                _ => Call::Respond {
                    run: field as u32,
                    answer: Vec::new(),
                },
            };
            let kept = kept(Turn::Made(call.clone()));
            assert_eq!(kept.is_none(), call == Call::Window);
            let record = kept.as_ref().and_then(|turn| written(turn, &random));
            assert_eq!(record.and_then(capture::call).map(Turn::Made), kept);
        }
    }
}
