//! Records near the shape rule: each clause of document 01's list just met and just broken.

use crate::random::Random;
use crate::state::State;
use std::fmt;
use yardstick::device::{GREATEST_C, MOST_HASH_BYTES};
use yardstick::sha1::Sha1;
use yardstick::{Causes, Device, HashSequence, IntEnable, Phase};

/// The clauses, an upper and a lower bound counted apart.
#[derive(Clone, Copy, Debug, PartialEq, Eq)]
pub enum Clause {
    ActiveAbove4,
    WaitsWhileFree,
    ActiveWaits,
    PhaseWhileFree,
    PhaseWhileOpen,
    ReceptionLow,
    ReceptionHigh,
    ExecutionLow,
    ExecutionHigh,
    AnswerLow,
    AnswerHigh,
    ReadAboveAnswer,
    OpenWithout4,
    TooManyHashBytes,
    HashBytesWhileClosed,
}

pub const CLAUSES: [Clause; 15] = [
    Clause::ActiveAbove4,
    Clause::WaitsWhileFree,
    Clause::ActiveWaits,
    Clause::PhaseWhileFree,
    Clause::PhaseWhileOpen,
    Clause::ReceptionLow,
    Clause::ReceptionHigh,
    Clause::ExecutionLow,
    Clause::ExecutionHigh,
    Clause::AnswerLow,
    Clause::AnswerHigh,
    Clause::ReadAboveAnswer,
    Clause::OpenWithout4,
    Clause::TooManyHashBytes,
    Clause::HashBytesWhileClosed,
];

impl fmt::Display for Clause {
    fn fmt(&self, f: &mut fmt::Formatter<'_>) -> fmt::Result {
        f.write_str(match self {
            Clause::ActiveAbove4 => "active above 4",
            Clause::WaitsWhileFree => "a request waits while none is active",
            Clause::ActiveWaits => "the active locality waits",
            Clause::PhaseWhileFree => "a phase other than Idle with none active",
            Clause::PhaseWhileOpen => "a phase other than Idle with a sequence open",
            Clause::ReceptionLow => "Reception count below 1",
            Clause::ReceptionHigh => "Reception count above C",
            Clause::ExecutionLow => "Execution count below 10",
            Clause::ExecutionHigh => "Execution count above C",
            Clause::AnswerLow => "answer length below 10",
            Clause::AnswerHigh => "answer length above C",
            Clause::ReadAboveAnswer => "bytes read above the answer length",
            Clause::OpenWithout4 => "sequence open and 4 not active",
            Clause::TooManyHashBytes => "over 1,048,576 hash bytes",
            Clause::HashBytesWhileClosed => "hash bytes with the sequence closed",
        })
    }
}

pub fn causes(random: &Random) -> Causes {
    Causes {
        command_ready: random.coin(),
        locality_change: random.coin(),
        data_avail: random.coin(),
    }
}

/// In shape, nobody active: what no clause looks at is random.
pub fn free(random: &Random) -> Device {
    let mut device = State::start().device;
    device.seized = std::array::from_fn(|_| random.coin());
    device.enable = IntEnable {
        global: random.coin(),
        causes: causes(random),
    };
    device.status = causes(random);
    device.established = random.coin();
    device.identity = std::array::from_fn(|_| random.byte());
    device.run = random.pick(&[0, 1, 7, u32::MAX - 1, u32::MAX]);
    device.pcrs = std::array::from_fn(|_| std::array::from_fn(|_| random.byte()));
    device
}

/// In shape: x active, others wait.
pub fn held(random: &Random, x: u8) -> Device {
    let mut device = free(random);
    device.active = Some(x);
    device.waiting = std::array::from_fn(|y| y != usize::from(x) && random.coin());
    device
}

/// In shape: a sequence open with `count` bytes, and any bytes after those that fill no block.
pub fn open(random: &Random, count: u32) -> Device {
    let mut device = held(random, 4);
    let stream = Sha1 {
        chaining: std::array::from_fn(|_| random.next() as u32),
        tail: std::array::from_fn(|_| random.byte()),
        count,
    };
    device.hash = HashSequence { open: true, stream };
    device
}

fn in_phase(random: &Random, phase: Phase) -> Device {
    let x = random.locality();
    let mut device = held(random, x);
    device.phase = phase;
    device
}

/// In shape: somebody active, in any phase but Idle.
pub fn busy(random: &Random) -> Device {
    in_phase(random, busy_phase(random))
}

/// Any phase but Idle, in shape for every allowed C.
pub fn busy_phase(random: &Random) -> Phase {
    let n = random.within(10, 1024) as u16;
    match random.below(4) {
        0 => Phase::Ready,
        1 => Phase::Reception(n),
        2 => Phase::Execution(n),
        _ => Phase::Completion(n, random.below(u64::from(n) + 1) as u16),
    }
}

/// A phase with a count around the greatest burst or a limit of C, in shape or not.
pub fn counted_phase(random: &Random) -> Phase {
    let n = random.pick(&[511, 512, 513, 4096, 4097, 8191, 8192, 8193]);
    match random.below(3) {
        0 => Phase::Reception(n),
        1 => Phase::Execution(n),
        _ => Phase::Completion(n, n - random.pick(&[0, 1, 256, 511])),
    }
}

fn broken_high(random: &Random, c: u16) -> u16 {
    let greatest = GREATEST_C as u16;
    random.pick(&[c + 1, c + 512, greatest.max(c + 1), greatest + 1, u16::MAX])
}

/// A record that just meets the clause or just breaks it, and no other, with FIFOs of `c` bytes.
pub fn near(random: &Random, clause: Clause, met: bool, c: u16) -> Device {
    let high = if met { c } else { broken_high(random, c) };
    let broken_ten = random.pick(&[9, 9, 6, 1, 0]);
    let ten = if met { 10 } else { broken_ten };
    match clause {
        Clause::ActiveAbove4 => near_active(random, met),
        Clause::WaitsWhileFree => near_waiting_while_free(random, met),
        Clause::ActiveWaits => near_waiting_while_active(random, met),
        Clause::PhaseWhileFree => near_idle(random, free(random), met),
        Clause::PhaseWhileOpen => near_idle(random, open(random, 3), met),
        Clause::ReceptionLow => in_phase(random, Phase::Reception(u16::from(met))),
        Clause::ReceptionHigh => in_phase(random, Phase::Reception(high)),
        Clause::ExecutionLow => in_phase(random, Phase::Execution(ten)),
        Clause::ExecutionHigh => in_phase(random, Phase::Execution(high)),
        Clause::AnswerLow => in_phase(random, Phase::Completion(ten, 0)),
        Clause::AnswerHigh => in_phase(random, Phase::Completion(high, 0)),
        Clause::ReadAboveAnswer => {
            let length = random.within(10, 1023) as u16;
            in_phase(random, Phase::Completion(length, length + u16::from(!met)))
        }
        Clause::OpenWithout4 => near_held_by_4(random, met),
        Clause::TooManyHashBytes => {
            let over = random.pick(&[1, 1, 64, u32::MAX - MOST_HASH_BYTES]);
            open(random, MOST_HASH_BYTES + if met { 0 } else { over })
        }
        Clause::HashBytesWhileClosed => near_closed(random, met),
    }
}

fn near_active(random: &Random, met: bool) -> Device {
    let mut device = held(random, 4);
    if !met {
        device.active = Some(random.pick(&[5, 5, 6, 7, 8, 128, 255]));
    }
    device
}

fn near_waiting_while_free(random: &Random, met: bool) -> Device {
    let mut device = free(random);
    device.waiting[usize::from(random.locality())] = !met;
    device
}

fn near_waiting_while_active(random: &Random, met: bool) -> Device {
    let x = random.locality();
    let mut device = held(random, x);
    device.waiting = std::array::from_fn(|y| y != usize::from(x) || !met);
    device
}

fn near_idle(random: &Random, mut device: Device, met: bool) -> Device {
    if !met {
        device.phase = busy_phase(random);
    }
    device
}

fn near_held_by_4(random: &Random, met: bool) -> Device {
    let mut device = open(random, 5);
    if !met {
        device.active = random.pick(&[None, Some(0), Some(1), Some(2), Some(3)]);
        device.waiting = [false; 5];
    }
    device
}

fn near_closed(random: &Random, met: bool) -> Device {
    let x = random.locality();
    let mut device = held(random, x);
    device.hash.stream.tail = std::array::from_fn(|_| random.byte());
    if !met {
        device.hash.stream.count = random.pick(&[1, 64, MOST_HASH_BYTES]);
    }
    device
}
