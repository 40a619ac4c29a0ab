//! The capture of each number: which are sound, which are damaged and how, and which are long.

use super::damage;
use super::parts::Parts;
use super::scenes;
use crate::capture::{Record, MOST_CYCLES};
use crate::random::Random;
use crate::scene::Scene;

/// In each round of captures there is one of each long kind.
const ROUND: u64 = 200;

/// More bytes than a pipe holds, so that whoever writes them is held up by a program that stopped reading.
const BEYOND_A_PIPE: usize = 70_000;

/// Room for the first number of two bytes, and a few runs more.
const MANY_RUNS: usize = 3700;

/// Room for the longest command with a read for each byte.
const LONGEST_COMMAND: usize = 2080;

/// A capture, and where the first of two pieces that it comes in ends.
pub struct Made {
    pub capture: Vec<u8>,
    pub cut: Option<usize>,
}

impl Made {
    pub fn pieces(&self) -> Vec<&[u8]> {
        match self.cut {
            Some(cut) => {
                let (first, second) = self.capture.split_at(cut.min(self.capture.len()));
                vec![first, second]
            }
            None => vec![&self.capture],
        }
    }
}

/// The capture of this number.
pub fn made(seed: u64, number: u64) -> Made {
    let random = &Random::numbered(seed, number);
    let round = number / ROUND;
    let capture = match number % ROUND {
        0 => around_the_limit(random, round),
        1 => beyond_a_pipe(random, round),
        2 => scene(random, MANY_RUNS, Scene::many_runs),
        3 => scene(random, LONGEST_COMMAND, Scene::longest_command),
        4..8 => scene(random, 400, Scene::every_offset),
        _ => short(random),
    };
    let any_place = || random.below(capture.len() as u64 + 1) as usize;
    let cut = random.once_in(64).then(any_place);
    Made { capture, cut }
}

fn scene<'a>(random: &'a Random, count: usize, scene: fn(&mut Scene<'a>)) -> Vec<u8> {
    Parts::sound(scenes::several(random, count, scene)).bytes()
}

/// Mostly short, so that many can be compared.
fn length(random: &Random) -> usize {
    let most = random.pick(&[8, 30, 60, 120, 120, 200, 400]);
    random.within(0, most) as usize
}

fn short(random: &Random) -> Vec<u8> {
    let mut parts = Parts::sound(scenes::records(random, length(random)));
    match random.below(20) {
        0..=8 => {}
        9 | 10 => damage::head(random, &mut parts),
        11 | 12 => damage::tail(
            random,
            &mut parts,
            random.within(1, 3) as usize,
            random.coin(),
        ),
        13..=16 => damage::kind(random, &mut parts),
        17 => {
            parts.records.truncate(random.below(3) as usize);
            damage::tail(random, &mut parts, random.below(4) as usize, random.coin());
        }
        18 => parts = garbage(random),
        _ => {
            let mut bytes = parts.bytes();
            damage::anywhere(random, &mut bytes);
            return bytes;
        }
    }
    parts.bytes()
}

/// Records of random bytes, with kinds that there are but for the last.
fn garbage(random: &Random) -> Parts {
    let mut records: Vec<Record> = any_records(random, random.below(60) as usize);
    if let (Some(last), true) = (records.last_mut(), random.coin()) {
        last[0] = random.byte();
    }
    let mut parts = Parts::sound(records);
    damage::tail(random, &mut parts, random.below(4) as usize, random.coin());
    parts
}

fn any_records(random: &Random, count: usize) -> Vec<Record> {
    let record = |_| {
        [
            random.below(4) as u8,
            random.byte(),
            random.byte(),
            random.byte(),
        ]
    };
    (0..count).map(record).collect()
}

/// Many records: of scenes, of random bytes, or one again and again.
fn many(random: &Random, count: usize) -> Vec<Record> {
    match random.below(8) {
        0 => any_records(random, count),
        1 => any_records(random, 1).repeat(count),
        _ => scenes::records(random, count),
    }
}

/// The lengths around the limit and the bytes over by turns, then a bad kind around it with bytes behind it.
fn around_the_limit(random: &Random, round: u64) -> Vec<u8> {
    let turn = round as usize % 55;
    let (count, over, place) = match turn {
        0..40 => (MOST_CYCLES - 2 + turn / 8, turn % 4, None),
        _ => {
            let place = MOST_CYCLES - 2 + (turn - 40) / 5;
            let behind = (turn - 40) % 5;
            (place + 1 + behind / 4, behind % 4, Some(place))
        }
    };
    let mut parts = Parts::sound(many(random, count));
    if let Some(place) = place {
        damage::kind_at(random, &mut parts, place);
    }
    damage::tail(random, &mut parts, over, turn / 4 % 2 == 1);
    parts.bytes()
}

/// Each word by turns, with more behind it than a pipe holds.
fn beyond_a_pipe(random: &Random, round: u64) -> Vec<u8> {
    let mut parts = Parts::sound(scenes::records(random, random.within(1, 20) as usize));
    match round % 3 {
        0 => parts.records = many(random, MOST_CYCLES),
        1 => damage::head(random, &mut parts),
        _ => damage::kind(random, &mut parts),
    }
    let more = random.within(1, 3) as usize * BEYOND_A_PIPE;
    [parts.bytes(), random.bytes(more)].concat()
}
