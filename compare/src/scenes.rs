//! The scenes: seeded lists of calls, biased to where faults hide.

mod bursts;
mod commands;
mod holding;
mod launching;
mod registers;
mod shapes;

use crate::random::Random;
use crate::scene::Scene;
use crate::turn::Turn;

pub const REQUEST_USE: u8 = 0x02;
pub const RELEASE: u8 = 0x20;
const SEIZE: u8 = 0x08;
const CLEAR_SEIZED: u8 = 0x10;
pub const COMMAND_READY: u8 = 0x40;
pub const TPM_GO: u8 = 0x20;
const RESPONSE_RETRY: u8 = 0x02;

const INT_ENABLE: u64 = 0x008;
const INT_STATUS: u64 = 0x010;
const HASH_END: u64 = 0x4020;
const HASH_DATA: u64 = 0x4024;
const HASH_START: u64 = 0x4028;

/// One list of calls that begins with a load.
pub fn list(random: &Random, number: u64) -> Vec<Turn> {
    let mut scene = Scene::new(random);
    match number % 15 {
        0 => scene.holders(),
        1 | 8 => scene.commands(),
        2 => scene.launches(),
        3 => scene.hash_limit(),
        4 | 9 => scene.near_shape(),
        5 => scene.odd_lengths(),
        6 => scene.interrupts(),
        7 | 10 => scene.runs(),
        11 => scene.longest_waits(),
        12 => scene.every_offset(),
        13 => scene.bursts(),
        _ => scene.anything(),
    }
    scene.turns
}

impl Scene<'_> {
    /// Calls of every kind on a device that has seen a power-on.
    pub fn anything(&mut self) {
        let c = self.c();
        self.power_on(c);
        for _ in 0..self.how_many(800) {
            self.any_call();
        }
    }
}
