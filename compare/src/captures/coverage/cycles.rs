//! What the records of the captures did: refusals, fields, offsets, bytes read, run numbers, resets, and the events of the compared calls.

use super::table::Table;
use crate::capture::{self, Printed, Record};
use crate::coverage::{Before, Coverage, Event};
use crate::state::State;
use crate::turn::Turn;
use yardstick::call::Call;
use yardstick::Phase;

/// The refusal numbers that each kind of record can get. The FIFOs have 1,024 bytes, the record keeps its shape and the answer has ten
/// bytes, so 2, 6 and 4 are never given, 5 is for questions, and 7 needs 1,048,577 bytes where 10,000 records are played at most.
const REFUSALS: [(&str, u8, u8); 7] = [
    ("read, 0", 0, 0),
    ("read, 1", 0, 1),
    ("write, 0", 1, 0),
    ("write, 1", 1, 1),
    ("reset, 0", 2, 0),
    ("answer, 0", 3, 0),
    ("answer, 3", 3, 3),
];

/// Fields that do not count and hold something.
const FIELDS: [&str; 5] = [
    "the byte of a read",
    "the offset of a reset",
    "the offset of a reset, above 4FFF",
    "the byte of a reset",
    "the byte of an answer",
];

/// The last offset that is accepted, the first that is refused, and the last.
const OFFSETS: [u64; 3] = [0x4fff, 0x5000, 0xffff];

const ANSWERS: [&str; 6] = [
    "accepted, number below 256",
    "accepted, number from 256 on",
    "refused in Execution, low byte right",
    "refused in Execution, bytes in the other order",
    "refused in Execution, the number before",
    "refused outside Execution, number right",
];

const RESETS: [&str; 7] = [
    "in Idle",
    "in Ready",
    "in Reception",
    "in Execution",
    "in Completion",
    "with a sequence open",
    "when established",
];

/// The events that ten bytes as the only answer and 10,000 records from a power-on on allow.
const EVENTS: [Event; 19] = [
    Event::WaitBegun,
    Event::Served,
    Event::Freed,
    Event::Seizure,
    Event::Withdrawal,
    Event::Launch,
    Event::LaunchServed,
    Event::LaunchOver,
    Event::Run,
    Event::Answer,
    Event::StaleAnswer,
    Event::BadSize,
    Event::Retry,
    Event::AbortReception,
    Event::AbortExecution,
    Event::AbortCompletion,
    Event::CommandOfC,
    Event::CommandAboveC,
    Event::CommandFarAbove,
];

pub struct Cycles {
    refusals: Table,
    fields: Table,
    offsets: Table,
    answers: Table,
    resets: Table,
    bytes: Table,
    calls: Coverage,
}

impl Default for Cycles {
    fn default() -> Cycles {
        let bytes: Vec<u8> = (0..=u8::MAX).collect();
        let offsets = OFFSETS.map(|offset| format!("{offset:04X}"));
        Cycles {
            refusals: Table::list(
                "records by kind and refusal number",
                &REFUSALS.map(|row| row.0),
            ),
            fields: Table::list("fields that do not count and are not 0", &FIELDS),
            offsets: Table::new("cycles at, by kind", &offsets, &["read", "write"]),
            answers: Table::list("answers", &ANSWERS),
            resets: Table::list("resets", &RESETS),
            bytes: Table::list("bytes that accepted reads gave", &bytes),
            calls: Coverage::default(),
        }
    }
}

impl Cycles {
    /// The records that were played, with what they printed.
    pub fn count(&mut self, records: &[Record], printed: &Printed) {
        let mut state = capture::device();
        for (record, (refusal, byte)) in records.iter().zip(&printed.cycles) {
            let call = capture::call(*record).expect("it was played");
            self.count_print(&call, *refusal, *byte);
            self.count_fields(*record);
            self.count_state(&call, *refusal, &state);
            let (before, turn) = (Before::of(&state), Turn::Made(call));
            let mut outcome = Vec::new();
            state.play(&turn, &mut outcome);
            self.calls.count(&before, &turn, *refusal, &state, &outcome);
        }
    }

    fn count_print(&mut self, call: &Call, refusal: u8, byte: u8) {
        let kind = match call {
            Call::Read { .. } => 0,
            Call::Write { .. } => 1,
            Call::Reset => 2,
            _ => 3,
        };
        let row = REFUSALS
            .iter()
            .position(|row| (row.1, row.2) == (kind, refusal));
        self.refusals
            .add(row.expect("a refusal that the record can get"), 0);
        if let Call::Read { offset } | Call::Write { offset, .. } = call {
            if let Some(row) = OFFSETS.iter().position(|n| n == offset) {
                self.offsets.add(row, usize::from(kind));
            }
        }
        if (kind, refusal) == (0, 0) {
            self.bytes.add(usize::from(byte), 0);
        }
    }

    fn count_fields(&mut self, [kind, high, low, byte]: Record) {
        let offset = u16::from_be_bytes([high, low]);
        self.fields.add_if(kind == 0 && byte != 0, 0);
        self.fields.add_if(kind == 2 && offset != 0, 1);
        self.fields.add_if(kind == 2 && offset > 0x4fff, 2);
        self.fields.add_if(kind == 2 && byte != 0, 3);
        self.fields.add_if(kind == 3 && byte != 0, 4);
    }

    /// An answer or a reset in the state that it finds.
    fn count_state(&mut self, call: &Call, refusal: u8, state: &State) {
        match call {
            Call::Respond { run, .. } => self.count_answer(*run, refusal, state),
            Call::Reset => self.count_reset(state),
            _ => {}
        }
    }

    fn count_answer(&mut self, run: u32, refusal: u8, state: &State) {
        let right = state.device.run;
        let executing = matches!(state.device.phase, Phase::Execution(_));
        let wrong = executing && refusal == 3;
        let swapped = u32::from((right as u16).swap_bytes());
        self.answers.add_if(refusal == 0 && run < 256, 0);
        self.answers.add_if(refusal == 0 && run >= 256, 1);
        self.answers.add_if(wrong && run & 0xff == right & 0xff, 2);
        self.answers.add_if(wrong && run == swapped, 3);
        self.answers.add_if(wrong && run + 1 == right, 4);
        self.answers.add_if(!executing && run == right, 5);
    }

    fn count_reset(&mut self, state: &State) {
        let phase = match state.device.phase {
            Phase::Idle => 0,
            Phase::Ready => 1,
            Phase::Reception(_) => 2,
            Phase::Execution(_) => 3,
            Phase::Completion(..) => 4,
        };
        self.resets.add(phase, 0);
        self.resets.add_if(state.device.hash.open, 5);
        self.resets.add_if(state.device.established, 6);
    }

    fn tables(&self) -> [&Table; 6] {
        [
            &self.refusals,
            &self.fields,
            &self.offsets,
            &self.answers,
            &self.resets,
            &self.bytes,
        ]
    }

    pub fn print(&self) {
        let [shown @ .., bytes] = self.tables();
        shown.iter().for_each(|table| table.print());
        bytes.print_least();
        println!("events:");
        for (name, count) in EVENTS.map(|event| self.calls.seen(event)) {
            println!("  {name}: {count}");
        }
        self.calls.print_pages();
    }

    pub fn missing(&self) -> Vec<String> {
        let mut missing: Vec<String> = self.tables().into_iter().flat_map(Table::missing).collect();
        let events = EVENTS.map(|event| self.calls.seen(event));
        let absent = events.iter().filter(|(_, count)| *count == 0);
        missing.extend(absent.map(|(name, _)| name.to_string()));
        missing.extend(self.calls.missing_in_pages());
        missing
    }
}

#[cfg(test)]
mod tests {
    use super::*;
    use crate::capture::edges;
    use crate::captures::parts::Parts;

    fn of_edges() -> Cycles {
        let mut cycles = Cycles::default();
        for edge in edges::all() {
            let printed = capture::play(&edge.capture);
            cycles.count(&Parts::of(&edge.capture).records, &printed);
        }
        cycles
    }

    #[test]
    fn each_cell_is_wanted_and_filled_by_what_belongs_there() {
        let cells: usize = Cycles::default()
            .tables()
            .map(|table| table.missing().len())
            .iter()
            .sum();
        assert_eq!(cells, 7 + 5 + 6 + 6 + 7 + 256);
        let cycles = of_edges();
        let [refusals, fields, offsets, answers, resets, bytes] =
            cycles.tables().map(Table::missing);
        assert!([refusals, fields, offsets].iter().all(Vec::is_empty));
        assert_eq!(answers, ["answers: accepted, number from 256 on"]);
        assert_eq!(
            resets,
            [
                "resets: in Ready",
                "resets: in Reception",
                "resets: in Completion",
                "resets: with a sequence open",
            ]
        );
        // 00, 01, 0A, 19, 80, 81, 88, 90, A0, A1, C4 and FF.
        assert_eq!(bytes.len(), 256 - 12);
    }

    #[test]
    fn an_event_is_wanted_until_it_is_seen() {
        let absent = |cycles: &Cycles, event| {
            let (name, _) = cycles.calls.seen(event);
            cycles.missing().iter().any(|text| text == name)
        };
        for event in EVENTS {
            assert!(absent(&Cycles::default(), event));
        }
        let cycles = of_edges();
        assert!(!absent(&cycles, Event::Launch) && !absent(&cycles, Event::CommandAboveC));
        assert!(absent(&cycles, Event::Seizure) && absent(&cycles, Event::CommandOfC));
    }
}
