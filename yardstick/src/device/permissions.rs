//! The permission table: which locality may reset or extend which PCR (TIS Table 4).

use super::{Device, Refusal, ACCEPTED, LOCALITIES, PCRS};

/// A set of localities; bit x stands for locality x.
type Localities = u8;

const NONE: Localities = 0b00000;
const ALL: Localities = 0b11111;

#[rustfmt::skip]
const RESET_FROM: [Localities; PCRS] = [
    NONE, NONE, NONE, NONE, NONE, NONE, NONE, NONE,
    NONE, NONE, NONE, NONE, NONE, NONE, NONE, NONE,
    ALL, 0b10000, 0b10000, 0b10000, 0b10100, 0b00100, 0b00100, ALL,
];

#[rustfmt::skip]
const EXTEND_FROM: [Localities; PCRS] = [
    ALL, ALL, ALL, ALL, ALL, ALL, ALL, ALL,
    ALL, ALL, ALL, ALL, ALL, ALL, ALL, ALL,
    ALL, 0b11100, 0b11100, 0b01100, 0b01110, 0b00100, 0b00100, ALL,
];

impl Device {
    /// Whether a locality may reset a PCR; no when refused.
    pub fn may_reset(pcr: u8, locality: u8) -> (u8, bool) {
        look_up(&RESET_FROM, pcr, locality)
    }

    /// Whether a locality may extend a PCR; no when refused.
    pub fn may_extend(pcr: u8, locality: u8) -> (u8, bool) {
        look_up(&EXTEND_FROM, pcr, locality)
    }
}

fn look_up(table: &[Localities; PCRS], pcr: u8, locality: u8) -> (u8, bool) {
    match table.get(usize::from(pcr)) {
        Some(allowed) if usize::from(locality) < LOCALITIES => {
            (ACCEPTED, allowed >> locality & 1 == 1)
        }
        _ => (Refusal::UnknownNumber as u8, false),
    }
}
