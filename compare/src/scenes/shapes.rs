//! Records near the shape rule, and FIFOs of odd lengths.

use crate::records::{self, CLAUSES};
use crate::scene::Scene;
use crate::state::State;
use crate::turn::Turn;
use yardstick::call::Call;

impl Scene<'_> {
    /// Each clause of the shape rule just met and just broken, and calls of every kind on that record.
    pub fn near_shape(&mut self) {
        for clause in CLAUSES {
            let met = self.random.coin();
            let c = self.c_for_few();
            let device = records::near(self.random, clause, met, c as u16);
            // Refusal 2 comes before 6.
            let odd = self.random.once_in(4);
            let (write, read) = match odd {
                true => (self.any_length(), self.any_length()),
                false => (c, c),
            };
            let state = Box::new(State {
                device,
                write: self.fifo(write),
                read: self.fifo(read),
            });
            let note = (!odd).then_some((clause, met));
            self.call(Turn::Load { state, note });
            self.call(Call::Window);
            // It is lent no FIFO, so its C is the greatest.
            self.call(Call::PcrValue { pcr: 17 });
            for _ in 0..self.random.within(2, 10) {
                self.any_call();
            }
        }
    }

    /// FIFOs of lengths that are too small, too great or unequal, beside allowed ones.
    pub fn odd_lengths(&mut self) {
        for _ in 0..6 {
            let write = self.any_length();
            let read = if self.random.coin() {
                write
            } else {
                self.any_length()
            };
            let x = self.random.locality();
            let mut device = records::held(self.random, x);
            match self.random.below(3) {
                0 => device.phase = records::busy_phase(self.random),
                1 => device.phase = records::counted_phase(self.random),
                _ => {}
            }
            let (write, read) = (self.fifo(write), self.fifo(read));
            self.load(device, write, read);
            if self.random.coin() {
                self.power_on_again();
            }
            for _ in 0..self.random.within(4, 30) {
                self.any_call();
            }
        }
    }
}
