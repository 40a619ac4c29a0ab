//! Who holds the device: requests, releases, seizures, withdrawals, and the longest waits.

use super::{
    CLEAR_SEIZED, COMMAND_READY, HASH_DATA, HASH_END, HASH_START, INT_STATUS, RELEASE, REQUEST_USE,
    SEIZE,
};
use crate::scene::{at, Scene, ACCESS, FIFO, STS};

impl Scene<'_> {
    /// Requests, releases, seizures and withdrawals, several waiting.
    pub fn holders(&mut self) {
        let c = self.c();
        self.power_on(c);
        for _ in 0..self.how_many(1200) {
            let x = self.random.locality();
            match self.random.below(30) {
                0..=9 => self.access(x, REQUEST_USE),
                10..=16 => {
                    let x = self.active();
                    self.access(x, RELEASE);
                }
                17 => self.access(x, RELEASE),
                18 => self.access(x, SEIZE),
                19 => self.access(x, CLEAR_SEIZED),
                20 => {
                    let byte = self.random.byte();
                    self.access(x, byte);
                }
                21 => {
                    let offset = at(self.active(), STS);
                    self.write(offset, COMMAND_READY);
                }
                22 => {
                    let (offset, byte) = (at(self.active(), FIFO), self.random.byte());
                    self.write(offset, byte);
                }
                23 => {
                    // So that localityChange is seen to be set again.
                    let offset = at(self.active(), INT_STATUS);
                    self.write(offset, 0xff);
                }
                _ => self.read_each_access(),
            }
            self.noise();
        }
    }

    /// One record as each page shows it.
    fn read_each_access(&mut self) {
        for x in 0..5 {
            self.read(at(x, ACCESS));
        }
    }

    /// Waits that last as long as the bound allows, or nearly.
    pub fn longest_waits(&mut self) {
        for x in 0..4 {
            for k in 0..3 {
                self.power_on(1024);
                self.longest_wait(x, k);
            }
        }
    }

    /// Before x is served, each higher locality is served once and, after another `k` requests, `k` times more. There are as many handovers
    /// as the bound allows, and no more: a device that never serves x ends the list too.
    fn longest_wait(&mut self, x: u8, k: u32) {
        self.access(u8::from(x == 0), REQUEST_USE);
        for y in (x..5).rev() {
            self.access(y, REQUEST_USE);
        }
        let mut left = [k; 5];
        for _ in 0..u32::from(4 - x) * (k + 1) + 1 {
            if self.state.device.active == Some(x) {
                return;
            }
            self.hand_over();
            // The lowest of them asks again while another holds the device, the others while it does.
            let lowest = self.state.device.active == Some(x + 1);
            for y in x + 1..5 {
                let waits = self.state.device.waiting[usize::from(y)];
                if left[usize::from(y)] > 0 && !waits && lowest == (y > x + 1) {
                    left[usize::from(y)] -= 1;
                    self.access(y, REQUEST_USE);
                }
            }
            self.noise_that_asks_nothing();
        }
    }

    /// The active locality gives up, 4 now and then by a hash sequence in which its requests are ignored.
    fn hand_over(&mut self) {
        let x = self.active();
        if x != 4 || self.random.coin() {
            return self.access(x, RELEASE);
        }
        self.write(HASH_START, 0);
        for _ in 0..self.random.below(3) {
            self.write(HASH_DATA, 1);
            self.access(4, REQUEST_USE);
        }
        self.write(HASH_END, 0);
    }

    /// Reads and questions, which leave every count as it is.
    fn noise_that_asks_nothing(&mut self) {
        match self.random.below(4) {
            0 => self.question(),
            1 => self.read(at(self.random.locality(), ACCESS)),
            _ => {}
        }
    }
}

#[cfg(test)]
mod tests {
    use super::*;
    use crate::random::Random;

    /// FIFOs of no byte: every call is refused, as by a device that refuses everything.
    #[test]
    fn a_wait_on_a_device_that_refuses_everything_ends() {
        let random = Random::seeded(1);
        for k in 0..3 {
            let mut scene = Scene::new(&random);
            scene.longest_wait(0, k);
            assert_eq!(scene.state.device.active, None);
            assert!(scene.turns.len() < 100);
        }
    }
}
