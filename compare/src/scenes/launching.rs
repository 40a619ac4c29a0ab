//! Hash sequences, with waiting localities and around the greatest number of bytes.

use super::{HASH_DATA, HASH_END, HASH_START, RELEASE, REQUEST_USE, SEIZE};
use crate::records;
use crate::scene::{at, Scene, WITHIN};
use yardstick::call::Call;
use yardstick::device::MOST_HASH_BYTES;

impl Scene<'_> {
    /// Hash sequences with waiting localities, restarted now and then.
    pub fn launches(&mut self) {
        self.power_on(1024);
        let end = self.how_many(1200) as usize;
        while self.turns.len() < end {
            self.launch();
        }
    }

    fn launch(&mut self) {
        if self.random.once_in(3) {
            let x = self.random.pick(&[4, 4, 0, 2]);
            self.access(x, REQUEST_USE);
        }
        self.write(HASH_START + self.random.below(4), 0);
        let length = match self.random.below(3) {
            0 => self
                .random
                .pick(&[0, 1, 3, 55, 56, 57, 63, 64, 65, 119, 120, 128]),
            _ => self.random.below(150),
        };
        for _ in 0..length {
            let byte = self.random.byte();
            self.write(HASH_DATA + self.random.below(4), byte);
            if self.random.once_in(12) {
                self.while_open();
            }
        }
        if !self.random.once_in(8) {
            self.write(HASH_END + self.random.below(4), 0);
        }
        self.call(Call::PcrValue { pcr: 17 });
        if self.random.coin() {
            let x = self.active();
            self.access(x, RELEASE);
        }
        if self.random.once_in(10) {
            self.write(HASH_END, 0);
        }
        if self.random.once_in(20) {
            self.call(Call::Reset);
        }
    }

    fn while_open(&mut self) {
        let x = self.random.locality();
        match self.random.below(10) {
            0..=3 => self.access(x, REQUEST_USE),
            4 => self.access(x, RELEASE),
            5 => self.access(x, SEIZE),
            6 => {
                let (offset, byte) = (at(4, self.random.pick(&WITHIN)), self.any_byte());
                if !(HASH_START..HASH_START + 4).contains(&offset) || self.random.once_in(4) {
                    self.write(offset, byte);
                }
            }
            7 => self.read(at(x, self.random.pick(&WITHIN))),
            8 => self.question(),
            _ => self.any_call(),
        }
    }

    /// The last bytes that a sequence takes, and the first that it refuses.
    pub fn hash_limit(&mut self) {
        for _ in 0..8 {
            let count = MOST_HASH_BYTES - self.random.below(4) as u32;
            let device = records::open(self.random, count);
            let (write, read) = (self.fifo(1024), self.fifo(1024));
            self.load(device, write, read);
            for _ in 0..self.random.below(7) {
                let byte = self.random.byte();
                self.write(HASH_DATA + self.random.below(4), byte);
                self.noise();
            }
            let offset = self.random.pick(&[HASH_END, HASH_END, HASH_START]);
            self.write(offset, 0);
            self.write(HASH_DATA, 1);
            self.call(Call::PcrValue { pcr: 17 });
        }
    }
}
