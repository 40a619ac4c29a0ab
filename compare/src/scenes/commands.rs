//! Commands: every size class, aborts, seizures, stale answers, retries, and the ends of the counts.

use super::{COMMAND_READY, HASH_START, RELEASE, REQUEST_USE, RESPONSE_RETRY, SEIZE, TPM_GO};
use crate::records;
use crate::scene::{at, Scene, FIFO, STS};
use yardstick::call::Call;
use yardstick::Phase;

/// Declared sizes that a narrower or a low-first reading takes for small ones.
const FAR_ABOVE: [u32; 6] = [
    1 << 16,
    0x1_000a,
    1 << 24,
    0x0a00_0000,
    0x8000_000a,
    u32::MAX,
];

/// Declared sizes around the greatest burst and the limits of C, the old one too.
const AT_LIMITS: [u32; 8] = [511, 512, 513, 4096, 4097, 8191, 8192, 8193];

impl Scene<'_> {
    fn any_size(&mut self) -> u32 {
        let c = self.state.write.len() as u32;
        match self.random.below(12) {
            0 => self.random.pick(&[c - 1, c, c + 1]),
            1 => self.random.below(13) as u32,
            2 => self.random.pick(&[9, 10, 11]),
            3 => self.random.pick(&FAR_ABOVE),
            4 => self.random.within(10, 200) as u32,
            5 if self.random.once_in(4) => self.random.within(10, u64::from(c)) as u32,
            6 if self.random.once_in(4) => self.random.pick(&AT_LIMITS),
            _ => self.random.within(10, 40) as u32,
        }
    }

    /// Something that ends a command before its time.
    fn disturb(&mut self) {
        let x = self.active();
        match self.random.below(6) {
            0 => self.access(x, RELEASE),
            1 => {
                let y = self.random.locality();
                self.access(y, SEIZE);
            }
            2 => {
                self.call(Call::Reset);
            }
            3 => {
                self.write(HASH_START, 0);
            }
            _ => {
                self.write(at(x, STS), COMMAND_READY);
            }
        }
    }

    /// Sends a command by the active locality, byte by byte.
    fn send(&mut self, x: u8, size: u32) {
        let c = self.state.write.len() as u32;
        let whole = size.clamp(6, c);
        let more = self.random.pick(&[0, 0, 0, 1, 3]);
        for n in 0..whole + more {
            let byte = match n {
                2..=5 => size.to_be_bytes()[n as usize - 2],
                _ => self.random.byte(),
            };
            let offset = at(x, FIFO + self.random.below(4));
            self.write(offset, byte);
            if n + 3 > whole || self.random.once_in(40) {
                let offset = at(x, STS + self.random.below(3));
                self.read(offset);
            }
            if self.random.once_in(400) {
                self.disturb();
                return;
            }
        }
    }

    /// Answers while a run is under way, and now and then one more.
    fn respond(&mut self) {
        for _ in 0..4 {
            let executing = matches!(self.state.device.phase, Phase::Execution(_));
            if executing || self.random.once_in(8) {
                self.answer();
            }
        }
    }

    /// Reads some of the answer, all of it, or more, and starts over now and then.
    fn read_answer(&mut self, x: u8) {
        let Phase::Completion(length, _) = self.state.device.phase else {
            return;
        };
        let most = if self.random.coin() {
            u64::from(length)
        } else {
            12
        };
        for _ in 0..self.random.below(most + 3) {
            let offset = at(x, FIFO + self.random.below(4));
            self.read(offset);
            if self.random.once_in(12) {
                let offset = at(x, STS + self.random.below(3));
                self.read(offset);
            }
            if self.random.once_in(20) {
                self.write(at(x, STS), RESPONSE_RETRY);
            }
            if self.random.once_in(60) {
                self.call(Call::Window);
            }
        }
    }

    fn command(&mut self) {
        let x = self.active();
        self.access(x, REQUEST_USE);
        let x = self.active();
        self.write(at(x, STS), COMMAND_READY);
        let size = self.any_size();
        self.send(x, size);
        if self.random.once_in(3) {
            let y = self.random.locality();
            self.access(y, REQUEST_USE);
        }
        self.write(at(x, STS), TPM_GO);
        self.call(Call::Window);
        if self.random.once_in(6) {
            self.disturb();
        }
        self.respond();
        let x = self.active();
        self.read_answer(x);
        self.noise();
        let byte = self
            .random
            .pick(&[COMMAND_READY, COMMAND_READY, RESPONSE_RETRY, TPM_GO, 0x60]);
        self.write(at(x, STS), byte);
        if self.random.coin() {
            self.access(x, RELEASE);
        }
    }

    /// Commands of every size class, with aborts, seizures, stale answers and retries.
    pub fn commands(&mut self) {
        let c = self.c();
        self.power_on(c);
        let end = self.how_many(1500) as usize;
        while self.turns.len() < end {
            self.command();
        }
    }

    /// A command about to go, with run numbers around their end and counts around C.
    pub fn runs(&mut self) {
        for _ in 0..8 {
            let c = self.c_for_few();
            let mut write = self.fifo(c);
            let size = match self.random.below(4) {
                0 => self.random.within(10, 16),
                1 => u64::from(self.random.pick(&FAR_ABOVE)),
                _ => c as u64 + self.random.below(3) - 1,
            };
            write[2..6].copy_from_slice(&(size as u32).to_be_bytes());
            // Near the end, or where the room left is about the greatest burstCount; now and then beyond the declared size.
            let short = self
                .random
                .pick(&[0, 0, 1, 2, 255, 256, 257, 510, 511, 512, 513]);
            let most = size.min(c as u64);
            let n = match self.random.once_in(4) {
                true => self.random.within(most, c as u64) as u16,
                false => (most as u16).saturating_sub(short).max(1),
            };
            let x = self.random.locality();
            let mut device = records::held(self.random, x);
            device.phase = Phase::Reception(n);
            device.run = self.random.pick(&[u32::MAX, u32::MAX - 1, 0, u32::MAX]);
            let read = self.fifo(c);
            self.load(device, write, read);
            for _ in 0..self.random.within(1, 4) {
                let byte = self.random.byte();
                self.read(at(x, STS + self.random.below(3)));
                self.write(at(x, FIFO), byte);
            }
            self.write(at(x, STS), TPM_GO);
            self.call(Call::Window);
            self.respond();
            self.respond();
            self.read_answer(x);
            self.write(at(x, STS), COMMAND_READY);
        }
    }
}
