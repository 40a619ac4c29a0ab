//! burstCount as a driver reads it, both bytes each time: around its cap, where its high byte changes, and to the end.

use super::{COMMAND_READY, RESPONSE_RETRY, TPM_GO};
use crate::records;
use crate::scene::{at, Scene, BURST_COUNT, FIFO, STS};
use yardstick::Phase;

/// Bytes still to be sent or read.
const LEFT: [u16; 12] = [0, 1, 2, 255, 256, 257, 258, 511, 512, 513, 514, 1000];

impl Scene<'_> {
    fn read_burst(&mut self, x: u8) {
        self.read(at(x, BURST_COUNT));
        self.read(at(x, BURST_COUNT + 1));
    }

    /// A command that declares c bytes or more, and all but `left` received of what c holds.
    fn sending(&mut self, c: usize, left: u16) -> (Phase, Vec<u8>) {
        let mut write = self.fifo(c);
        let size = self.random.pick(&[c as u32, c as u32 + 1, u32::MAX]);
        write[2..6].copy_from_slice(&size.to_be_bytes());
        (Phase::Reception(c as u16 - left), write)
    }

    /// An answer of which all but `left` bytes are read.
    fn reading(&mut self, c: usize, left: u16) -> (Phase, Vec<u8>) {
        let length = match self.random.coin() {
            true => c as u16,
            false => self.random.within(u64::from(left.max(10)), c as u64) as u16,
        };
        (Phase::Completion(length, length - left), self.fifo(c))
    }

    /// Some bytes sent or read with burstCount looked at before each, from records near a turn of it.
    pub fn bursts(&mut self) {
        for _ in 0..8 {
            let (c, left) = (self.c_for_few(), self.random.pick(&LEFT));
            let sends = self.random.coin();
            let (phase, write) = match sends {
                true => self.sending(c, left),
                false => self.reading(c, left),
            };
            let x = self.random.locality();
            let mut device = records::held(self.random, x);
            device.phase = phase;
            let read = self.fifo(c);
            self.load(device, write, read);
            for _ in 0..self.random.within(1, 4) {
                self.read_burst(x);
                match sends {
                    true => {
                        let byte = self.random.byte();
                        self.write(at(x, FIFO), byte);
                    }
                    false => self.read(at(x, FIFO)),
                }
            }
            self.read_burst(x);
            let byte = self.random.pick(&[COMMAND_READY, RESPONSE_RETRY, TPM_GO]);
            self.write(at(x, STS), byte);
            self.read_burst(x);
        }
    }
}
