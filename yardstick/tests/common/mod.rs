//! A bench for the tests: a device with its two FIFOs and cycles that must be accepted.
#![allow(dead_code)] // Each test file takes what it needs.

use yardstick::{Device, Phase};

pub const ID: [u8; 5] = [0x11, 0x22, 0x33, 0x44, 0x55];

#[derive(Clone, Debug, PartialEq)]
pub struct Bench {
    pub device: Device,
    pub w: Vec<u8>,
    pub r: Vec<u8>,
}

impl Bench {
    /// Not established, FIFOs of length `c`.
    pub fn fresh(c: usize) -> Bench {
        let (mut w, mut r) = (vec![0x5a; c], vec![0xa5; c]);
        let (refusal, device) = Device::power_on(false, ID, &mut w, &mut r);
        assert_eq!(refusal, 0);
        Bench { device, w, r }
    }

    /// Fresh with one locality active.
    pub fn held_by(x: u8, c: usize) -> Bench {
        let mut bench = Bench::fresh(c);
        bench.put(at(x, 0x000), 0x02);
        bench
    }

    /// Locality 0 active and in Ready, C = 1,024.
    pub fn ready() -> Bench {
        Bench::ready_with(1024)
    }

    /// Locality 0 active and in Ready, FIFOs of length `c`.
    pub fn ready_with(c: usize) -> Bench {
        let mut bench = Bench::held_by(0, c);
        bench.put(0x0018, 0x40);
        bench
    }

    /// Locality 0 with a whole ten-byte command in Execution.
    pub fn executing() -> Bench {
        let mut bench = Bench::ready();
        bench.send(0x0024, &command(10));
        bench.put(0x0018, 0x20);
        assert_eq!(bench.device.phase, Phase::Execution(10));
        bench
    }

    /// Locality 0 with a twelve-byte answer in Completion.
    pub fn completed() -> Bench {
        let mut bench = Bench::executing();
        assert_eq!(bench.respond(1, b"twelve bytes"), 0);
        bench
    }

    pub fn read(&mut self, offset: u64) -> (u8, u8) {
        self.device.read(&self.w, &self.r, offset)
    }

    pub fn write(&mut self, offset: u64, byte: u8) -> u8 {
        self.device.write(&mut self.w, &mut self.r, offset, byte)
    }

    pub fn respond(&mut self, run: u32, answer: &[u8]) -> u8 {
        self.device.respond(&mut self.w, &mut self.r, run, answer)
    }

    pub fn reset(&mut self) -> u8 {
        self.device.reset(&mut self.w, &mut self.r)
    }

    pub fn window(&self) -> (u8, &[u8]) {
        self.device.window(&self.w, &self.r)
    }

    pub fn get(&mut self, offset: u64) -> u8 {
        let (refusal, byte) = self.read(offset);
        assert_eq!(refusal, 0, "read at {offset:04x}");
        byte
    }

    pub fn put(&mut self, offset: u64, byte: u8) {
        assert_eq!(
            self.write(offset, byte),
            0,
            "write of {byte:02x} at {offset:04x}"
        );
    }

    pub fn send(&mut self, offset: u64, bytes: &[u8]) {
        bytes.iter().for_each(|byte| self.put(offset, *byte));
    }

    /// A write that must change neither record nor FIFOs.
    #[track_caller]
    pub fn put_in_vain(&mut self, offset: u64, byte: u8) {
        let before = self.clone();
        self.put(offset, byte);
        assert_eq!(
            *self, before,
            "write of {byte:02x} at {offset:04x} changed something"
        );
    }

    pub fn burst(&mut self, x: u8) -> u16 {
        u16::from_le_bytes([self.get(at(x, 0x019)), self.get(at(x, 0x01a))])
    }

    pub fn fifos_are_empty(&self) -> bool {
        self.w.iter().chain(&self.r).all(|byte| *byte == 0)
    }

    /// Fills both FIFOs with an old owner's bytes.
    pub fn soil(&mut self) {
        self.w.fill(0x77);
        self.r.fill(0x88);
    }
}

pub fn at(x: u8, within: u64) -> u64 {
    (u64::from(x) << 12) | within
}

/// A command of `size` declared and sent bytes.
pub fn command(size: u32) -> Vec<u8> {
    let mut bytes = vec![0x00, 0xc1];
    bytes.extend(size.to_be_bytes());
    bytes.extend((6..size).map(nth_byte));
    bytes
}

/// A byte for place `n`; an odd period, so that bytes one burst or one power of two apart differ.
pub fn nth_byte(n: u32) -> u8 {
    (n % 251) as u8
}

pub fn hex(bytes: &[u8]) -> String {
    bytes.iter().map(|byte| format!("{byte:02x}")).collect()
}

/// Small, fast and repeatable: xorshift64.
pub struct Dice(u64);

impl Dice {
    /// Spreads small seeds over all bits; the state must not be 0.
    pub fn seeded(seed: u64) -> Dice {
        Dice(seed.wrapping_mul(0x9e37_79b9_7f4a_7c15) | 1)
    }

    pub fn roll(&mut self) -> u64 {
        self.0 ^= self.0 << 13;
        self.0 ^= self.0 >> 7;
        self.0 ^= self.0 << 17;
        self.0
    }

    pub fn below(&mut self, limit: u64) -> u64 {
        (self.roll() >> 16) % limit
    }

    pub fn byte(&mut self) -> u8 {
        (self.roll() >> 24) as u8
    }

    pub fn coin(&mut self) -> bool {
        self.below(2) == 1
    }

    pub fn pick<T: Copy>(&mut self, choices: &[T]) -> T {
        choices[self.below(choices.len() as u64) as usize]
    }
}
