//! A record with its two FIFOs: played by the yardstick, and as the bytes that `replay` loads and dumps.

use crate::turn::Turn;
use yardstick::call::Call;
use yardstick::{Causes, Device, Phase};

/// The bytes of a record's image (docs/REPLAY.md).
pub const IMAGE: usize = 603;

/// Where its PCRs begin.
pub const BANK: usize = 123;

#[derive(Clone, Debug, PartialEq, Eq)]
pub struct State {
    pub device: Device,
    pub write: Vec<u8>,
    pub read: Vec<u8>,
}

impl State {
    /// As `replay` begins: a fresh record and FIFOs of no byte.
    pub fn start() -> State {
        State::fresh(0, 0x00)
    }

    /// A fresh record with FIFOs of `c` bytes that hold `fill`.
    pub fn fresh(c: usize, fill: u8) -> State {
        let (_, device) = Device::power_on(false, [0; 5], &mut [], &mut []);
        State {
            device,
            write: vec![fill; c],
            read: vec![fill; c],
        }
    }

    /// Plays one turn, puts its outcome and gives its refusal number.
    pub fn play(&mut self, turn: &Turn, out: &mut Vec<u8>) -> u8 {
        match turn {
            Turn::Made(call) => self.make(call, out),
            Turn::Load { state, .. } => {
                *self = (**state).clone();
                0
            }
        }
    }

    fn make(&mut self, call: &Call, out: &mut Vec<u8>) -> u8 {
        let refusal = match call {
            Call::PowerOn {
                established,
                identity,
            } => {
                let (write, read) = (&mut self.write, &mut self.read);
                let (refusal, fresh) = Device::power_on(*established, *identity, write, read);
                self.device = fresh;
                refusal
            }
            Call::Reset => self.device.reset(&mut self.write, &mut self.read),
            Call::Write { offset, byte } => {
                let (write, read) = (&mut self.write, &mut self.read);
                self.device.write(write, read, *offset, *byte)
            }
            Call::Respond { run, answer } => {
                let (write, read) = (&mut self.write, &mut self.read);
                self.device.respond(write, read, *run, answer)
            }
            Call::Read { offset } => {
                let (refusal, byte) = self.device.read(&self.write, &self.read, *offset);
                out.extend([refusal, byte]);
                return refusal;
            }
            question => return self.ask(question, out),
        };
        out.push(refusal);
        refusal
    }

    /// A call that leaves all as it was.
    fn ask(&self, question: &Call, out: &mut Vec<u8>) -> u8 {
        match question {
            Call::PcrValue { pcr } => {
                let (refusal, value) = self.device.pcr_value(*pcr);
                out.push(refusal);
                out.extend(value);
                refusal
            }
            Call::InterruptLine => {
                out.push(u8::from(self.device.interrupt_line()));
                0
            }
            Call::MayReset { pcr, locality } => {
                put_permission(out, Device::may_reset(*pcr, *locality))
            }
            Call::MayExtend { pcr, locality } => {
                put_permission(out, Device::may_extend(*pcr, *locality))
            }
            Call::Window => {
                let (refusal, part) = self.device.window(&self.write, &self.read);
                out.push(refusal);
                out.extend((part.len() as u16).to_le_bytes());
                out.extend_from_slice(part);
                refusal
            }
            _ => unreachable!("no question"),
        }
    }

    /// The image, the two lengths and the FIFOs' bytes.
    pub fn dump(&self, out: &mut Vec<u8>) {
        put_image(&self.device, out);
        out.extend((self.write.len() as u16).to_le_bytes());
        out.extend((self.read.len() as u16).to_le_bytes());
        out.extend_from_slice(&self.write);
        out.extend_from_slice(&self.read);
    }
}

fn put_permission(out: &mut Vec<u8>, (refusal, allowed): (u8, bool)) -> u8 {
    out.extend([refusal, u8::from(allowed)]);
    refusal
}

fn flags(causes: Causes) -> [bool; 3] {
    [
        causes.command_ready,
        causes.locality_change,
        causes.data_avail,
    ]
}

fn put_image(device: &Device, out: &mut Vec<u8>) {
    out.push(u8::from(device.active.is_some()));
    out.extend(device.waiting.map(u8::from));
    out.extend(device.seized.map(u8::from));
    out.push(u8::from(device.enable.global));
    out.extend(flags(device.enable.causes).map(u8::from));
    out.extend(flags(device.status).map(u8::from));
    out.push(u8::from(device.established));
    out.push(u8::from(device.hash.open));
    out.push(device.active.unwrap_or(0));
    let (kind, first, second) = match device.phase {
        Phase::Idle => (0, 0, 0),
        Phase::Ready => (1, 0, 0),
        Phase::Reception(received) => (2, received, 0),
        Phase::Execution(received) => (3, received, 0),
        Phase::Completion(length, read) => (4, length, read),
    };
    out.push(kind);
    out.extend(first.to_le_bytes());
    out.extend(second.to_le_bytes());
    out.extend(device.identity);
    out.extend(device.run.to_le_bytes());
    for word in device.hash.stream.chaining {
        out.extend(word.to_le_bytes());
    }
    out.extend(device.hash.stream.tail);
    out.extend(device.hash.stream.count.to_le_bytes());
    out.extend_from_slice(device.pcrs.as_flattened());
}

/// The parts of an image before the PCRs by name, for showing a difference.
pub const PARTS: [(&str, usize, usize); 17] = [
    ("a locality is active", 0, 1),
    ("waiting", 1, 6),
    ("seized", 6, 11),
    ("globalIntEnable", 11, 12),
    ("interrupt enable", 12, 15),
    ("interrupt status", 15, 18),
    ("established", 18, 19),
    ("sequence open", 19, 20),
    ("active locality", 20, 21),
    ("phase", 21, 22),
    ("first count", 22, 24),
    ("second count", 24, 26),
    ("identity", 26, 31),
    ("run number", 31, 35),
    ("hash words", 35, 55),
    ("hash tail", 55, 119),
    ("hash bytes", 119, BANK),
];
