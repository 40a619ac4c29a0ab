//! A failing list made shorter and simpler: parts are left out, then replaced by simpler ones.

use crate::state::State;
use crate::turn::Turn;
use yardstick::call::Call;
use yardstick::{HashSequence, Phase};

/// The tries that a list gets; each plays it once.
const TRIES: usize = 3000;

/// The shortest list of calls found that `fails`, which gives the place of the first difference.
pub fn shrink_calls(calls: &[Turn], fails: impl FnMut(&[Turn]) -> Option<usize>) -> Vec<Turn> {
    shrink(calls, TRIES, simpler, fails)
}

/// The shortest list found in so many tries that `fails`, which gives the place of the last part that is needed.
pub fn shrink<T: Clone + PartialEq>(
    list: &[T],
    tries: usize,
    simpler: fn(&T) -> Vec<T>,
    mut fails: impl FnMut(&[T]) -> Option<usize>,
) -> Vec<T> {
    let mut left = tries;
    let mut best = list.to_vec();
    let mut try_list = |best: &mut Vec<T>, candidate: Vec<T>| -> bool {
        if left == 0 {
            return false;
        }
        left -= 1;
        let Some(at) = fails(&candidate) else {
            return false;
        };
        *best = candidate;
        best.truncate(at + 1);
        true
    };
    let whole = best.clone();
    try_list(&mut best, whole);
    loop {
        let removed = remove(&mut best, &mut try_list);
        let replaced = simplify(&mut best, simpler, &mut try_list);
        if !removed && !replaced {
            return best;
        }
    }
}

type Try<'a, T> = dyn FnMut(&mut Vec<T>, Vec<T>) -> bool + 'a;

/// Leaves out runs of parts, long ones first.
fn remove<T: Clone>(best: &mut Vec<T>, try_list: &mut Try<T>) -> bool {
    let mut changed = false;
    let mut size = best.len() / 2;
    while size > 0 {
        let mut from = best.len().saturating_sub(1);
        while from > 0 {
            from = from.saturating_sub(size);
            let mut candidate = best.clone();
            candidate.drain(from..(from + size).min(best.len() - 1));
            if candidate.len() < best.len() && try_list(best, candidate) {
                changed = true;
                from = from.min(best.len().saturating_sub(1));
            }
        }
        size /= 2;
    }
    changed
}

/// Takes the first simpler form of each part that still fails.
fn simplify<T: Clone + PartialEq>(
    best: &mut Vec<T>,
    simpler: fn(&T) -> Vec<T>,
    try_list: &mut Try<T>,
) -> bool {
    let mut changed = false;
    let mut at = 0;
    while at < best.len() {
        for simpler in simpler(&best[at]) {
            let mut candidate = best.clone();
            candidate[at] = simpler;
            if candidate != *best && try_list(best, candidate) {
                changed = true;
                break;
            }
        }
        at += 1;
    }
    changed
}

fn simpler(turn: &Turn) -> Vec<Turn> {
    match turn {
        Turn::Made(call) => simpler_calls(call).into_iter().map(Turn::Made).collect(),
        Turn::Load { state, .. } => loads(state),
    }
}

fn simpler_calls(call: &Call) -> Vec<Call> {
    match call {
        Call::PowerOn { .. } => vec![Call::PowerOn {
            established: false,
            identity: [0; 5],
        }],
        Call::Write { offset, byte } => write_forms(*offset, *byte),
        Call::Read { offset } => vec![Call::Read {
            offset: *offset & 0xfffc,
        }],
        Call::Respond { run, answer } => [10, answer.len() / 2, answer.len()]
            .into_iter()
            .filter(|length| *length <= answer.len())
            .map(|length| Call::Respond {
                run: *run,
                answer: vec![0x11; length],
            })
            .collect(),
        _ => Vec::new(),
    }
}

fn write_forms(offset: u64, byte: u8) -> Vec<Call> {
    let low = [0x00, byte & 0x3a, byte & 0x62].map(|byte| Call::Write { offset, byte });
    let mut forms = low.to_vec();
    forms.retain(|form| !matches!(form, Call::Write { byte: b, .. } if *b == byte));
    forms.push(Call::Write {
        offset: offset & 0xfffc,
        byte,
    });
    forms
}

/// One part of the record at a time as a power-on leaves it.
fn loads(state: &State) -> Vec<Turn> {
    let fresh = State::start().device;
    let c = state.write.len();
    let edits: [&dyn Fn(&mut State); 16] = [
        &|b| *b = State::fresh(1024, 0),
        &|b| *b = State::fresh(c, 0),
        &|b| b.device.pcrs = fresh.pcrs,
        &|b| b.device.waiting = [false; 5],
        &|b| b.device.seized = [false; 5],
        &|b| b.device.enable = fresh.enable,
        &|b| b.device.status = fresh.status,
        &|b| b.device.established = false,
        &|b| b.device.identity = [0; 5],
        &|b| b.device.run = 0,
        &|b| b.device.hash = HashSequence::CLOSED,
        &|b| b.device.hash.stream.chaining = [0; 5],
        &|b| b.device.hash.stream.tail = [0; 64],
        &|b| b.device.phase = Phase::Idle,
        &|b| b.write.fill(0),
        &|b| b.read.fill(0),
    ];
    let edited = |edit: &dyn Fn(&mut State)| {
        let mut after = state.clone();
        edit(&mut after);
        Turn::Load {
            state: Box::new(after),
            note: None,
        }
    };
    edits.iter().map(|edit| edited(*edit)).collect()
}

#[cfg(test)]
mod tests {
    use super::*;
    use crate::random::Random;
    use crate::scenes;

    fn request(x: u64) -> Turn {
        Turn::Made(Call::Write {
            offset: x << 12,
            byte: 0x02,
        })
    }

    /// Fails where locality 3 asks some time after locality 1 did.
    fn fails(calls: &[Turn]) -> Option<usize> {
        let first = calls.iter().position(|call| *call == request(1))?;
        let second = calls[first..].iter().position(|call| *call == request(3))?;
        Some(first + second)
    }

    #[test]
    fn a_long_list_shrinks_to_the_two_calls_that_matter() {
        let random = Random::seeded(1);
        let mut calls = scenes::list(&random, 1);
        calls.insert(40, request(1));
        calls.insert(300, request(3));
        assert_eq!(shrink_calls(&calls, fails), [request(1), request(3)]);
    }
}
