//! Captures damaged: in the head, by a bad kind, by bytes over, or anywhere.

use super::parts::Parts;
use crate::capture::HEAD;
use crate::random::Random;

/// Versions that a reading of one byte, or with the low byte first, takes for 1, and the neighbours of 1.
const VERSIONS: [u16; 4] = [0, 2, 256, 257];

/// A byte that is not this one.
fn another(random: &Random, byte: u8) -> u8 {
    byte ^ random.within(1, 255) as u8
}

/// The head cut, or some of its bytes altered.
pub fn head(random: &Random, parts: &mut Parts) {
    let place = random.below(5) as usize;
    match random.below(8) {
        0 | 1 => cut(parts, place),
        2 => {
            cut(parts, place.max(1));
            let wrong = random.below(parts.head.len() as u64) as usize;
            parts.head[wrong] = another(random, parts.head[wrong]);
        }
        3 => parts.head[3..].copy_from_slice(&random.pick(&VERSIONS).to_be_bytes()),
        4 => parts.head = random.bytes(HEAD.len()),
        5 => parts.head[..3].make_ascii_lowercase(),
        _ => parts.head[place] = another(random, parts.head[place]),
    }
    if random.once_in(3) {
        parts.records.clear();
        parts.tail.clear();
    }
}

/// Nothing but the first bytes of the head.
fn cut(parts: &mut Parts, length: usize) {
    parts.head.truncate(length);
    parts.records.clear();
    parts.tail.clear();
}

/// So many bytes over, which begin with a kind or with a byte above 3.
pub fn tail(random: &Random, parts: &mut Parts, length: usize, above: bool) {
    parts.tail = random.bytes(length);
    if let Some(first) = parts.tail.first_mut() {
        *first = if above {
            bad(random)
        } else {
            random.below(4) as u8
        };
    }
}

/// A kind above 3.
fn bad(random: &Random) -> u8 {
    random.within(4, 255) as u8
}

/// The record at this place gets a bad kind.
pub fn kind_at(random: &Random, parts: &mut Parts, place: usize) {
    parts.records[place][0] = bad(random);
}

/// A bad kind first, last or anywhere; then nothing, one to three bytes or more records, one of them as bad now and then.
pub fn kind(random: &Random, parts: &mut Parts) {
    if parts.records.is_empty() {
        parts.records.push([0; 4]);
    }
    let count = parts.records.len();
    let place = match random.below(4) {
        0 => 0,
        1 => count - 1,
        _ => random.below(count as u64) as usize,
    };
    if random.coin() {
        parts.records.truncate(place + 1);
    } else if random.coin() {
        kind_at(random, parts, count - 1);
    }
    kind_at(random, parts, place);
    tail(random, parts, random.below(4) as usize, random.coin());
}

/// A few bytes changed, put in or left out, at any place.
pub fn anywhere(random: &Random, bytes: &mut Vec<u8>) {
    for _ in 0..random.within(1, 3) {
        let place = random.below(bytes.len().max(1) as u64) as usize;
        match random.below(3) {
            0 => bytes.insert(place, random.byte()),
            1 if place < bytes.len() => drop(bytes.remove(place)),
            _ if place < bytes.len() => bytes[place] = random.byte(),
            _ => {}
        }
    }
}
