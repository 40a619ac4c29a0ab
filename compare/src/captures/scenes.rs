//! The records of captures that go somewhere: the scenes of the compared calls as records, and some that only a capture needs.

use super::record;
use crate::capture::{self, Record};
use crate::random::Random;
use crate::scene::{at, Scene, ACCESS, BURST_COUNT, FIFO, STS};
use crate::scenes::{COMMAND_READY, RELEASE, REQUEST_USE, TPM_GO};
use yardstick::call::Call;

/// So many records from a fresh device on.
pub fn records(random: &Random, count: usize) -> Vec<Record> {
    // A scene begins with a reset, which is mostly left out on the fresh device.
    let skipped = usize::from(!random.once_in(4));
    several(random, count + skipped, Scene::some_scene)
        .drain(skipped..)
        .collect()
}

/// So many records of one scene, played again and again.
pub fn several<'a>(random: &'a Random, count: usize, scene: fn(&mut Scene<'a>)) -> Vec<Record> {
    let mut list = Scene::kept(random, capture::device(), record::kept, count as u64);
    let mut records = Vec::new();
    while records.len() < count {
        scene(&mut list);
        // A scene counts the turns of its own.
        let turns = std::mem::take(&mut list.turns);
        let written = |turn| record::written(turn, random);
        records.extend(turns.iter().filter_map(written));
    }
    records.truncate(count);
    records
}

impl Scene<'_> {
    fn some_scene(&mut self) {
        match self.random.below(10) {
            0 | 1 => self.holders(),
            2 | 3 => self.commands(),
            4 | 5 => self.launches(),
            6 => self.interrupts(),
            7 => self.longest_waits(),
            8 => self.anything(),
            _ => self.runs_answered(),
        }
    }

    /// A command of ten bytes by any locality on a free device, up to go.
    fn start_run(&mut self, x: u8) {
        self.access(x, REQUEST_USE);
        self.write(at(x, STS), COMMAND_READY);
        for byte in [0x00, 0xc1, 0x00, 0x00, 0x00, 0x0a, 0x00, 0x00, 0x00, 0x65] {
            self.write(at(x, FIFO), byte);
        }
        self.write(at(x, STS), TPM_GO);
    }

    fn answer_run(&mut self, run: u32) {
        let answer = Vec::new();
        self.call(Call::Respond { run, answer });
    }

    /// Answers with numbers that are the run's but for one byte or for the order of its bytes, and then with its own.
    fn answer_wrong_and_right(&mut self) {
        let run = self.state.device.run;
        let swapped = u32::from((run as u16).swap_bytes());
        let before = run.wrapping_sub(1);
        for wrong in [run ^ 0x100, run ^ 0x8000, swapped, run ^ 1, before] {
            if wrong != run && self.random.coin() {
                self.answer_run(wrong);
            }
        }
        self.answer_run(run);
    }

    fn read_all(&mut self, x: u8) {
        for _ in 0..self.random.within(8, 12) {
            self.read(at(x, FIFO));
        }
        self.read(at(x, STS));
    }

    /// Runs that are answered, aborted or reset in any phase, and their numbers used again.
    fn runs_answered(&mut self) {
        self.reset();
        for _ in 0..self.random.within(1, 4) {
            let x = self.random.locality();
            self.start_run(x);
            match self.random.below(6) {
                0 => self.reset(),
                1 => self.abort(x),
                _ => {}
            }
            self.answer_wrong_and_right();
            self.read_all(x);
            self.answer_run(self.state.device.run);
            match self.random.once_in(4) {
                true => self.reset(),
                false => self.access(x, RELEASE),
            }
        }
    }

    fn reset(&mut self) {
        self.call(Call::Reset);
    }

    fn abort(&mut self, x: u8) {
        self.write(at(x, STS), COMMAND_READY);
    }

    /// Runs up to the first number that needs both bytes of the field, most of them aborted, and answers around there.
    pub fn many_runs(&mut self) {
        self.reset();
        let x = self.random.locality();
        for _ in self.state.device.run..0xff {
            self.start_run(x);
            self.abort(x);
        }
        for _ in 0..4 {
            self.start_run(x);
            self.answer_run(self.state.device.run & 0xff);
            self.answer_wrong_and_right();
            self.read_all(x);
            self.abort(x);
        }
    }

    /// burstCount read after each byte of a command of about C bytes, so that every byte value is printed; then go.
    pub fn longest_command(&mut self) {
        self.reset();
        let x = self.random.locality();
        self.access(x, REQUEST_USE);
        self.write(at(x, STS), COMMAND_READY);
        let c = self.state.write.len();
        let size = self
            .random
            .pick(&[c as u32 - 1, c as u32, c as u32 + 1, u32::MAX]);
        for n in 0..c {
            let byte = match n {
                2..=5 => size.to_be_bytes()[n - 2],
                _ => self.random.byte(),
            };
            self.write(at(x, FIFO), byte);
            self.read(at(x, BURST_COUNT));
        }
        self.read(at(x, BURST_COUNT + 1));
        self.write(at(x, STS), TPM_GO);
        self.answer_wrong_and_right();
        self.read_all(x);
        self.read(at(x, ACCESS));
    }
}
