//! Calls around the limits: by the length of the FIFOs lent, by the count where none is lent, and reads of burstCount by how many bytes are left.

use super::Before;
use crate::scene::{at, BURST_COUNT};
use crate::state::State;
use yardstick::call::Call;
use yardstick::device::GREATEST_C;
use yardstick::Phase;

/// Lengths of both FIFOs around the limits, and the refusal number that a call lent them has to have had.
const LENGTHS: [(usize, u8); 8] = [
    (1023, 2),
    (1024, 0),
    (4096, 0),
    (4097, 0),
    (8191, 0),
    (8192, 0),
    (8193, 2),
    (9000, 2),
];

/// Counts around the greatest C, and the refusal number that a call lent FIFOs of that length, or none, has to have had.
const COUNTS: [(u16, u8); 2] = [(8192, 0), (8193, 6)];

/// Whose count it is.
const COUNTED: [&str; 3] = ["Reception", "Execution", "Completion"];

/// Bytes left, around the cap of burstCount and where its high byte changes.
const LEFT: [u16; 8] = [0, 1, 255, 256, 257, 511, 512, 513];

/// Where bytes are left, and which byte of burstCount is read.
const READS: [&str; 4] = [
    "to be sent, low byte read",
    "to be sent, high byte read",
    "to be read, low byte read",
    "to be read, high byte read",
];

#[derive(Default)]
pub struct Limits {
    lengths: [u64; LENGTHS.len()],
    /// By the phase, then by the count: questions for a PCR, and calls lent FIFOs of the greatest length.
    asked: [[u64; COUNTS.len()]; COUNTED.len()],
    lent: [[u64; COUNTS.len()]; COUNTED.len()],
    /// By what is read, then by the bytes left.
    bursts: [[u64; LEFT.len()]; READS.len()],
}

/// The place in `COUNTED` of the phase, and in `COUNTS` of its count and the refusal number.
fn counted(before: &Before, refusal: u8) -> Option<(usize, usize)> {
    let (phase, count) = match before.phase {
        Phase::Reception(n) => (0, n),
        Phase::Execution(n) => (1, n),
        Phase::Completion(n, _) => (2, n),
        _ => return None,
    };
    let place = COUNTS.iter().position(|pair| *pair == (count, refusal))?;
    Some((phase, place))
}

/// The first place in `READS` of the phase, and the bytes left in it; of a command none are left once nothing more is expected.
fn bytes_left(before: &Before, c: usize) -> Option<(usize, usize)> {
    match before.phase {
        Phase::Reception(n) => {
            let n = usize::from(n);
            let more = n < 6 || (n as u64) < before.declared;
            Some((0, if more { c - n } else { 0 }))
        }
        Phase::Completion(length, read) => Some((2, usize::from(length - read))),
        _ => None,
    }
}

impl Limits {
    pub fn count(&mut self, before: &Before, call: &Call, refusal: u8, after: &State) {
        match call {
            Call::PcrValue { pcr } if *pcr < 24 => self.count_asked(before, refusal),
            Call::PcrValue { .. }
            | Call::InterruptLine
            | Call::MayReset { .. }
            | Call::MayExtend { .. } => return,
            _ => self.count_lent(before, refusal, after),
        }
        if let (Call::Read { offset }, 0) = (call, refusal) {
            self.count_read(before, *offset, after.read.len());
        }
    }

    /// The question for a PCR that there is, which is lent no FIFO.
    fn count_asked(&mut self, before: &Before, refusal: u8) {
        if let Some((phase, place)) = counted(before, refusal) {
            self.asked[phase][place] += 1;
        }
    }

    /// A call that is lent both FIFOs.
    fn count_lent(&mut self, before: &Before, refusal: u8, after: &State) {
        let (write, read) = (after.write.len(), after.read.len());
        if write != read {
            return;
        }
        if let Some(place) = LENGTHS.iter().position(|pair| *pair == (write, refusal)) {
            self.lengths[place] += 1;
        }
        if let (GREATEST_C, Some((phase, place))) = (write, counted(before, refusal)) {
            self.lent[phase][place] += 1;
        }
    }

    /// An accepted read at any offset, with FIFOs of c bytes.
    fn count_read(&mut self, before: &Before, offset: u64, c: usize) {
        let x = (offset >> 12) as u8;
        if before.active != Some(x) {
            return;
        }
        let Some(byte) = (0..2).find(|byte| offset == at(x, BURST_COUNT + byte)) else {
            return;
        };
        let Some((first, left)) = bytes_left(before, c) else {
            return;
        };
        if let Some(place) = LEFT.iter().position(|n| usize::from(*n) == left) {
            self.bursts[first + byte as usize][place] += 1;
        }
    }

    pub fn print(&self) {
        println!(
            "calls with two FIFOs of this length, accepted where it is allowed, else refused as 2:"
        );
        for ((length, refusal), count) in LENGTHS.iter().zip(self.lengths) {
            println!("  {length} bytes, refusal {refusal}: {count}");
        }
        println!("with a count of 8,192, accepted, and of 8,193, refused as 6: questions for a PCR; calls with C = 8,192:");
        for (phase, name) in COUNTED.iter().enumerate() {
            let ([a, b], [c, d]) = (self.asked[phase], self.lent[phase]);
            println!("  {name}: {a} and {b}; {c} and {d}");
        }
        let heads: String = LEFT.iter().map(|n| format!("{n:>9}")).collect();
        println!("accepted reads of burstCount by the bytes left");
        println!("  {:<30}{heads}", "");
        for (name, counts) in READS.iter().zip(&self.bursts) {
            let row: String = counts.iter().map(|count| format!("{count:>9}")).collect();
            println!("  {name:<30}{row}");
        }
    }

    pub fn missing(&self) -> Vec<String> {
        let mut missing = Vec::new();
        for ((length, refusal), count) in LENGTHS.iter().zip(self.lengths) {
            if count == 0 {
                missing.push(format!("FIFOs of {length} bytes with refusal {refusal}"));
            }
        }
        for (call, counts) in [
            ("a PCR asked for", &self.asked),
            ("a call with C = 8,192", &self.lent),
        ] {
            for (name, counts) in COUNTED.iter().zip(counts) {
                let absent = COUNTS.iter().zip(counts).filter(|(_, count)| **count == 0);
                missing.extend(absent.map(|((count, refusal), _)| {
                    format!("{call}, {count} bytes counted in {name}, with refusal {refusal}")
                }));
            }
        }
        for (name, counts) in READS.iter().zip(&self.bursts) {
            let absent = LEFT.iter().zip(counts).filter(|(_, count)| **count == 0);
            missing.extend(absent.map(|(n, _)| format!("burstCount with {n} bytes left {name}")));
        }
        missing
    }
}

#[cfg(test)]
mod tests {
    use super::*;

    fn state(phase: Phase, declared: u32, write: usize, read: usize) -> State {
        let mut state = State::fresh(write, 0);
        state.read.resize(read, 0);
        state.device.active = Some(1);
        state.device.phase = phase;
        state.write[2..6].copy_from_slice(&declared.to_be_bytes());
        state
    }

    #[test]
    fn a_length_counts_with_its_refusal_and_for_both_fifos() {
        let mut limits = Limits::default();
        for (write, read, refusal) in [
            (8193, 8193, 2),
            (8193, 8192, 2),
            (8192, 8192, 2),
            (8192, 8192, 0),
            (8193, 8193, 0),
            (1024, 1024, 0),
            (5000, 5000, 0),
        ] {
            let state = state(Phase::Idle, 0, write, read);
            limits.count(&Before::of(&state), &Call::Reset, refusal, &state);
            limits.count(&Before::of(&state), &Call::InterruptLine, refusal, &state);
        }
        assert_eq!(limits.lengths, [0, 1, 0, 0, 0, 1, 1, 0]);
    }

    #[test]
    fn a_count_counts_for_its_phase_with_its_refusal_and_c() {
        let mut limits = Limits::default();
        for (phase, refusal, c) in [
            (Phase::Reception(8192), 0, 8192),
            (Phase::Reception(8192), 6, 8192),
            (Phase::Execution(8193), 6, 1024),
            (Phase::Completion(8192, 8191), 0, 8192),
            (Phase::Completion(8191, 0), 0, 8192),
            (Phase::Ready, 0, 8192),
        ] {
            let state = state(phase, 0, c, c);
            for call in [
                Call::PcrValue { pcr: 23 },
                Call::PcrValue { pcr: 24 },
                Call::Window,
            ] {
                limits.count(&Before::of(&state), &call, refusal, &state);
            }
        }
        assert_eq!(limits.asked, [[1, 0], [0, 1], [1, 0]]);
        assert_eq!(limits.lent, [[1, 0], [0, 0], [1, 0]]);
    }

    #[test]
    fn a_read_counts_for_the_bytes_left_and_its_byte() {
        let mut limits = Limits::default();
        let sent = state(Phase::Reception(7680), 8192, 8192, 8192);
        let done = state(Phase::Reception(7680), 7680, 8192, 8192);
        let read = state(Phase::Completion(600, 89), 0, 8192, 8192);
        for (state, offset, refusal) in [
            (&sent, 0x1019, 0),
            (&sent, 0x101a, 0),
            (&sent, 0x1018, 0),
            (&sent, 0x0019, 0),
            (&sent, 0x1019, 6),
            (&done, 0x101a, 0),
            (&read, 0x1019, 0),
            (&read, 0x101b, 0),
        ] {
            limits.count(&Before::of(state), &Call::Read { offset }, refusal, state);
        }
        let rows = [
            [0, 0, 0, 0, 0, 0, 1, 0],
            [1, 0, 0, 0, 0, 0, 1, 0],
            [0, 0, 0, 0, 0, 1, 0, 0],
            [0; 8],
        ];
        assert_eq!(limits.bursts, rows);
        assert_eq!(limits.missing().len(), 8 - 1 + 12 + 32 - 4);
    }
}
