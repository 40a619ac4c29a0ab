//! Every offset that has a register, and the interrupt registers.

use super::{COMMAND_READY, INT_ENABLE, INT_STATUS, RELEASE, REQUEST_USE};
use crate::offsets;
use crate::records;
use crate::scene::{at, Scene, STS};
use yardstick::call::Call;

impl Scene<'_> {
    /// Every offset of every page read, and each written and read again in some page.
    pub fn every_offset(&mut self) {
        let c = self.c();
        let device = match self.random.below(4) {
            0 => records::free(self.random),
            1 => records::open(self.random, self.random.below(200) as u32),
            _ => records::busy(self.random),
        };
        let (write, read) = (self.fifo(c), self.fifo(c));
        self.load(device, write, read);
        for offset in offsets::all() {
            self.read(offset);
        }
        for within in offsets::within_a_page() {
            let x = match self.random.coin() {
                true => self.active(),
                false => self.random.locality(),
            };
            let byte = self.any_byte();
            self.write(at(x, within), byte);
            self.read(at(x, within));
        }
    }

    /// Enable and status written by active and other localities, and the line asked each time.
    pub fn interrupts(&mut self) {
        let c = self.c();
        self.power_on(c);
        for _ in 0..self.how_many(400) {
            let x = if self.random.once_in(4) {
                self.random.locality()
            } else {
                self.active()
            };
            let byte = self.random.byte();
            match self.random.below(10) {
                0 | 1 => self.access(x, REQUEST_USE),
                2 => self.access(x, RELEASE),
                3 => {
                    self.write(at(x, INT_ENABLE + self.random.below(4)), byte);
                }
                4 => {
                    self.write(at(x, INT_ENABLE + 3), byte | 0x80);
                }
                5 => {
                    self.write(at(x, INT_STATUS + self.random.below(4)), byte);
                }
                6 => self.read(at(x, INT_ENABLE + self.random.below(12))),
                7 => {
                    self.write(at(x, STS), COMMAND_READY);
                }
                8 => {
                    self.write(at(x, INT_STATUS), self.random.pick(&[0x80, 0x04, 0x01]));
                }
                _ => {
                    let y = self.random.locality();
                    self.access(y, REQUEST_USE);
                }
            }
            self.call(Call::InterruptLine);
        }
    }
}
