//! A list of calls in the making: the yardstick plays along, so that a scene knows whose turn it is.

use crate::random::Random;
use crate::records;
use crate::state::State;
use crate::turn::Turn;
use yardstick::call::Call;
use yardstick::device::{ACCEPTED, GREATEST_C};
use yardstick::Device;

pub const ACCESS: u64 = 0x000;
pub const STS: u64 = 0x018;
pub const BURST_COUNT: u64 = 0x019;
pub const FIFO: u64 = 0x024;

/// The first and last offset of each register, and one before and after it.
pub const WITHIN: [u64; 34] = [
    0x000, 0x000, 0x001, 0x007, 0x008, 0x009, 0x00b, 0x00c, 0x00d, 0x00f, 0x010, 0x011, 0x013,
    0x014, 0x015, 0x017, 0x018, 0x018, 0x019, 0x01a, 0x01b, 0x01f, 0x020, 0x023, 0x024, 0x024,
    0x027, 0x028, 0x02b, 0x02c, 0xeff, 0xf00, 0xf04, 0xf05,
];

const BYTES: [u8; 14] = [
    0x02, 0x02, 0x20, 0x20, 0x08, 0x10, 0x40, 0x00, 0x0a, 0x22, 0x60, 0x80, 0x85, 0xff,
];

/// The greatest length that `replay` takes (docs/REPLAY.md): above the greatest C, so that lengths beyond it are compared too.
pub const LONGEST: usize = 9000;

/// 8,193, the first length that is too great, twice as often.
const LENGTHS: [usize; 18] = [
    0, 1, 9, 10, 511, 512, 1022, 1023, 1024, 1025, 2048, 4096, 4097, 8191, 8192, 8193, 8193,
    LONGEST,
];

pub fn at(x: u8, within: u64) -> u64 {
    (u64::from(x) << 12) | within
}

pub struct Scene<'a> {
    pub random: &'a Random,
    pub state: State,
    pub turns: Vec<Turn>,
    outcome: Vec<u8>,
    /// What the list takes of a turn.
    keep: fn(Turn) -> Option<Turn>,
    /// The steps of a scene at most.
    longest: u64,
}

impl Scene<'_> {
    pub fn new(random: &Random) -> Scene<'_> {
        Scene::kept(random, State::start(), Some, u64::MAX)
    }

    /// A list of what `keep` takes of each turn, from this state on, in scenes of so many steps at most.
    pub fn kept(
        random: &Random,
        state: State,
        keep: fn(Turn) -> Option<Turn>,
        longest: u64,
    ) -> Scene<'_> {
        Scene {
            random,
            state,
            turns: Vec::new(),
            outcome: Vec::new(),
            keep,
            longest,
        }
    }

    pub fn call(&mut self, turn: impl Into<Turn>) -> u8 {
        let Some(turn) = (self.keep)(turn.into()) else {
            return ACCEPTED;
        };
        self.outcome.clear();
        let refusal = self.state.play(&turn, &mut self.outcome);
        self.turns.push(turn);
        refusal
    }

    pub fn write(&mut self, offset: u64, byte: u8) -> u8 {
        self.call(Call::Write { offset, byte })
    }

    pub fn read(&mut self, offset: u64) {
        self.call(Call::Read { offset });
    }

    pub fn access(&mut self, x: u8, byte: u8) {
        self.write(at(x, ACCESS), byte);
    }

    pub fn load(&mut self, device: Device, write: Vec<u8>, read: Vec<u8>) {
        let state = Box::new(State {
            device,
            write,
            read,
        });
        self.call(Turn::Load { state, note: None });
    }

    /// Mostly the least C, which is the fastest to fill.
    pub fn c(&mut self) -> usize {
        match self.random.below(8) {
            0 => self.random.pick(&[4096, 4097, 8191, 8192, 8192]),
            1 => self.random.within(1024, 8192) as usize,
            2 => 1025,
            _ => 1024,
        }
    }

    /// The greatest C more often, where few calls are made with it.
    pub fn c_for_few(&mut self) -> usize {
        match self.random.once_in(4) {
            true => GREATEST_C,
            false => self.c(),
        }
    }

    pub fn fifo(&mut self, length: usize) -> Vec<u8> {
        match self.random.below(4) {
            0 => self.random.bytes(length),
            1 => vec![0x00; length],
            _ => vec![self.random.byte(); length],
        }
    }

    /// Any record and FIFOs of `c` bytes, and then the power-on that the waiting book begins with.
    pub fn power_on(&mut self, c: usize) {
        let device = records::free(self.random);
        let (write, read) = (self.fifo(c), self.fifo(c));
        self.load(device, write, read);
        self.power_on_again();
    }

    pub fn power_on_again(&mut self) {
        let established = self.random.coin();
        let identity = std::array::from_fn(|_| self.random.byte());
        self.call(Call::PowerOn {
            established,
            identity,
        });
    }

    pub fn active(&mut self) -> u8 {
        match self.state.device.active {
            Some(x) if x < 5 => x,
            _ => self.random.locality(),
        }
    }

    pub fn any_length(&mut self) -> usize {
        match self.random.below(4) {
            0 => self.random.within(0, LONGEST as u64) as usize,
            _ => self.random.pick(&LENGTHS),
        }
    }

    pub fn any_answer(&mut self) -> Vec<u8> {
        let c = self.state.read.len();
        let length = match self.random.below(8) {
            0 => self.any_length(),
            1 => c,
            2 => (c + 1).min(LONGEST),
            3 => 9,
            4 => 10,
            5 => self.random.pick(&[511, 512, 513, 1024]),
            _ => self.random.within(10, 40) as usize,
        };
        self.random.bytes(length)
    }

    pub fn any_run(&mut self) -> u32 {
        let run = self.state.device.run;
        match self.random.below(8) {
            0 => run.wrapping_sub(1),
            1 => run.wrapping_add(1),
            2 => self.random.next() as u32,
            _ => run,
        }
    }

    pub fn any_offset(&mut self) -> u64 {
        match self.random.below(24) {
            0 => self.random.next(),
            1 => self.random.below(0x6000),
            2 => self
                .random
                .pick(&[0x4fff, 0x5000, 0x5001, 0xffff, 1 << 32, u64::MAX]),
            _ => at(self.random.locality(), self.random.pick(&WITHIN)),
        }
    }

    pub fn any_byte(&mut self) -> u8 {
        match self.random.below(6) {
            0 => self.random.byte(),
            _ => self.random.pick(&BYTES),
        }
    }

    pub fn question(&mut self) {
        let (pcr, locality) = match self.random.below(4) {
            0 => (self.random.byte(), self.random.byte()),
            _ => (self.random.below(26) as u8, self.random.below(6) as u8),
        };
        let call = match self.random.below(7) {
            0 => Call::PcrValue { pcr },
            1 => Call::InterruptLine,
            2 | 3 => Call::MayReset { pcr, locality },
            4 | 5 => Call::MayExtend { pcr, locality },
            _ => Call::Window,
        };
        self.call(call);
    }

    pub fn answer(&mut self) {
        let (run, answer) = (self.any_run(), self.any_answer());
        self.call(Call::Respond { run, answer });
    }

    pub fn any_call(&mut self) {
        match self.random.below(64) {
            0 => self.power_on_again(),
            1 | 2 => {
                self.call(Call::Reset);
            }
            3..=8 => self.question(),
            9..=12 => self.answer(),
            13..=28 => {
                let offset = self.any_offset();
                self.read(offset);
            }
            29..=34 => {
                let offset = at(self.active(), self.random.pick(&[STS, FIFO, BURST_COUNT]));
                self.read(offset);
            }
            _ => {
                let (offset, byte) = (self.any_offset(), self.any_byte());
                self.write(offset, byte);
            }
        }
    }

    /// Now and then something that has nothing to do with the scene.
    pub fn noise(&mut self) {
        if self.random.once_in(24) {
            self.question();
        }
        if self.random.once_in(200) {
            self.any_call();
        }
    }

    pub fn how_many(&mut self, most: u64) -> u64 {
        self.random.within(most / 4, most).min(self.longest)
    }
}
