//! Long random lists of calls against the waiting book, and random records against panics.

mod common;

use common::{Bench, Dice, ID};
use yardstick::book::Watch;
use yardstick::call::Call;
use yardstick::sha1::Sha1;
use yardstick::{Causes, Device, HashSequence, IntEnable, Phase};

/// Plays one call on the bench and gives its refusal number.
fn play(bench: &mut Bench, call: &Call) -> u8 {
    match *call {
        Call::PowerOn {
            established,
            identity,
        } => {
            let (refusal, device) =
                Device::power_on(established, identity, &mut bench.w, &mut bench.r);
            bench.device = device;
            refusal
        }
        Call::Reset => bench.reset(),
        Call::Read { offset } => bench.read(offset).0,
        Call::Write { offset, byte } => bench.write(offset, byte),
        Call::Respond { run, ref answer } => bench.respond(run, answer),
        Call::PcrValue { pcr } => bench.device.pcr_value(pcr).0,
        Call::InterruptLine => {
            bench.device.interrupt_line();
            0
        }
        Call::MayReset { pcr, locality } => Device::may_reset(pcr, locality).0,
        Call::MayExtend { pcr, locality } => Device::may_extend(pcr, locality).0,
        Call::Window => bench.window().0,
    }
}

const WITHIN: [u64; 20] = [
    0x000, 0x000, 0x000, 0x000, 0x008, 0x00b, 0x00c, 0x010, 0x014, 0x018, 0x018, 0x019, 0x020,
    0x023, 0x024, 0x024, 0x027, 0x028, 0x02b, 0xf02,
];

const BYTES: [u8; 12] = [
    0x02, 0x02, 0x02, 0x20, 0x20, 0x08, 0x10, 0x40, 0x40, 0x00, 0x0a, 0xff,
];

/// Sizes of commands and answers around the header, the burst and each C that is lent.
const SIZES: [usize; 16] = [
    0, 9, 10, 11, 64, 511, 512, 513, 1024, 1025, 4096, 4097, 6000, 8191, 8192, 8193,
];

fn any_offset(dice: &mut Dice) -> u64 {
    match dice.below(50) {
        0 => dice.roll(),
        1 => dice.below(0x6000),
        _ => common::at(dice.below(5) as u8, dice.pick(&WITHIN)),
    }
}

fn any_byte(dice: &mut Dice) -> u8 {
    match dice.below(8) {
        0 => dice.byte(),
        _ => dice.pick(&BYTES),
    }
}

/// An engine answer, mostly to the run under way.
fn any_respond(dice: &mut Dice, run: u32, answer: &[u8]) -> Call {
    let length = dice.pick(&SIZES);
    let run = if dice.below(4) == 0 {
        dice.roll() as u32
    } else {
        run
    };
    Call::Respond {
        run,
        answer: answer[..length].to_vec(),
    }
}

fn any_call(dice: &mut Dice, run: u32, answer: &[u8]) -> Call {
    match dice.below(1000) {
        0 => Call::PowerOn {
            established: dice.coin(),
            identity: ID,
        },
        1..=3 => Call::Reset,
        4..=200 => Call::Read {
            offset: any_offset(dice),
        },
        201..=250 => any_respond(dice, run, answer),
        251..=270 => Call::PcrValue {
            pcr: dice.below(30) as u8,
        },
        271..=280 => Call::InterruptLine,
        281..=290 => Call::Window,
        291..=295 => Call::MayReset {
            pcr: dice.below(30) as u8,
            locality: dice.below(6) as u8,
        },
        296..=300 => Call::MayExtend {
            pcr: dice.below(30) as u8,
            locality: dice.below(6) as u8,
        },
        _ => Call::Write {
            offset: any_offset(dice),
            byte: any_byte(dice),
        },
    }
}

/// The writes of a whole command, which dice would seldom roll; most have ten bytes to be quick.
fn whole_command(dice: &mut Dice, active: u8) -> Vec<Call> {
    let size = match dice.below(10) {
        0 => dice.pick(&SIZES) as u32,
        _ => 10,
    };
    let put = |within, byte| Call::Write {
        offset: common::at(active, within),
        byte,
    };
    let mut calls = vec![put(0x018, 0x40), put(0x018, 0x40)];
    calls.extend(
        common::command(size)
            .into_iter()
            .map(|byte| put(0x025, byte)),
    );
    calls.push(put(0x018, 0x20));
    calls
}

/// A number for the phase, and its count of the bytes received or of the answer.
fn place(phase: Phase) -> (usize, u16) {
    match phase {
        Phase::Idle => (0, 0),
        Phase::Ready => (1, 0),
        Phase::Reception(received) => (2, received),
        Phase::Execution(received) => (3, received),
        Phase::Completion(length, _) => (4, length),
    }
}

/// Plays one call and holds it against the book and against what every call owes.
fn play_watched(bench: &mut Bench, watch: &mut Watch, call: &Call) -> u8 {
    let before = bench.clone();
    let refusal = play(bench, call);
    watch.tell(call, refusal).unwrap();
    watch
        .compare(bench.device.active, &bench.device.waiting)
        .unwrap();
    assert_eq!(watch.book().open, bench.device.hash.open);
    assert_ne!(refusal, 6, "no list leaves the shape");
    let question = matches!(
        call,
        Call::PcrValue { .. }
            | Call::InterruptLine
            | Call::MayReset { .. }
            | Call::MayExtend { .. }
            | Call::Window
    );
    let refused = refusal != 0 && !matches!(call, Call::PowerOn { .. });
    assert!(
        *bench == before || !(question || refused),
        "{call:?} left a trace"
    );
    refusal
}

#[test]
fn device_keeps_to_the_book() {
    let answer = [0x3c; 8193];
    let mut refusals = [0u32; 8];
    let mut phases = [0u32; 5];
    let mut longest = [0u16; 5];
    for seed in 1..=40 {
        let mut dice = Dice::seeded(seed);
        let c = dice.pick(&[1024, 1025, 1024, 4096, 4097, 8191, 8192, 8193, 1023, 0]);
        let mut bench = Bench {
            device: any_record(&mut dice),
            w: vec![1; c],
            r: vec![2; c],
        };
        let mut watch = Watch::new();
        let mut calls = vec![Call::PowerOn {
            established: dice.coin(),
            identity: ID,
        }];
        for _ in 0..5_000 {
            for call in &calls {
                let refusal = play_watched(&mut bench, &mut watch, call);
                refusals[usize::from(refusal)] += 1;
            }
            let (phase, count) = place(bench.device.phase);
            phases[phase] += 1;
            longest[phase] = longest[phase].max(count);
            calls = match bench.device.active {
                Some(active) if dice.below(40) == 0 => whole_command(&mut dice, active),
                _ => vec![any_call(&mut dice, bench.device.run, &answer)],
            };
        }
    }
    assert!(phases.iter().all(|count| *count > 100), "{phases:?}");
    assert!(refusals[..6].iter().all(|count| *count > 0), "{refusals:?}");
    assert_eq!(longest[3..], [8192, 8192], "the greatest C is reached");
}

fn any_causes(dice: &mut Dice) -> Causes {
    Causes {
        command_ready: dice.coin(),
        locality_change: dice.coin(),
        data_avail: dice.coin(),
    }
}

/// Counts around each limit that a phase may meet.
const COUNTS: [u16; 19] = [
    0, 1, 5, 6, 9, 10, 511, 512, 513, 1023, 1024, 1025, 4095, 4096, 4097, 8191, 8192, 8193, 65_535,
];

fn any_count(dice: &mut Dice) -> u16 {
    match dice.below(3) {
        0 => dice.roll() as u16,
        1 => dice.below(1030) as u16,
        _ => dice.pick(&COUNTS),
    }
}

fn any_record(dice: &mut Dice) -> Device {
    let phase = match dice.below(5) {
        0 => Phase::Idle,
        1 => Phase::Ready,
        2 => Phase::Reception(any_count(dice)),
        3 => Phase::Execution(any_count(dice)),
        _ => Phase::Completion(any_count(dice), any_count(dice)),
    };
    let nobody = dice.coin();
    let open = dice.below(3) == 0;
    Device {
        active: dice
            .coin()
            .then(|| dice.pick(&[0, 1, 2, 3, 4, 4, 4, 5, 7, 255])),
        waiting: std::array::from_fn(|_| !nobody && dice.below(3) == 0),
        seized: std::array::from_fn(|_| dice.coin()),
        phase: if dice.coin() { Phase::Idle } else { phase },
        enable: IntEnable {
            global: dice.coin(),
            causes: any_causes(dice),
        },
        status: any_causes(dice),
        established: dice.coin(),
        identity: std::array::from_fn(|_| dice.byte()),
        run: dice.pick(&[0, 1, u32::MAX]),
        hash: HashSequence {
            open,
            stream: Sha1 {
                chaining: std::array::from_fn(|_| dice.roll() as u32),
                tail: std::array::from_fn(|_| dice.byte()),
                count: dice.pick(&[0, 0, 0, 63, 64, 1_048_575, 1_048_576, 1_048_577, u32::MAX]),
            },
        },
        pcrs: std::array::from_fn(|_| std::array::from_fn(|_| dice.byte())),
    }
}

#[test]
fn no_record_makes_a_call_panic_and_refusals_leave_no_trace() {
    let answer = [0x3c; 8193];
    let mut dice = Dice::seeded(77);
    let mut seen = [0u32; 8];
    for _ in 0..60_000 {
        let c = dice.pick(&[
            1024, 1024, 1024, 1025, 4096, 4097, 8191, 8192, 1023, 8193, 0,
        ]);
        let other = if dice.below(20) == 0 {
            dice.pick(&[0, 1024, 1025, 4096, 8192])
        } else {
            c
        };
        let fill = dice.pick(&[0x00, 0x02, 0xff]);
        let mut bench = Bench {
            device: any_record(&mut dice),
            w: vec![fill; c],
            r: vec![0x88; other],
        };
        for _ in 0..4 {
            let before = bench.clone();
            let call = any_call(&mut dice, bench.device.run, &answer);
            let refusal = play(&mut bench, &call);
            seen[usize::from(refusal)] += 1;
            assert!(refusal == 0 || matches!(call, Call::PowerOn { .. }) || bench == before);
        }
    }
    assert!(
        seen.iter().all(|count| *count > 0),
        "each number comes up: {seen:?}"
    );
}

/// A locality left waiting by busy higher ones is served within its bound, whoever releases.
#[test]
fn starvation_bound_under_pressure() {
    for seed in 1..=200 {
        let mut dice = Dice::seeded(seed);
        let mut bench = Bench::fresh(1024);
        let mut watch = Watch::new();
        watch
            .tell(
                &Call::PowerOn {
                    established: false,
                    identity: ID,
                },
                0,
            )
            .unwrap();
        for _ in 0..2_000 {
            let x = dice.pick(&[0, 1, 2, 3, 3, 4, 4, 4]);
            let byte = dice.pick(&[0x02, 0x02, 0x20]);
            let call = Call::Write {
                offset: common::at(x, 0),
                byte,
            };
            let refusal = play(&mut bench, &call);
            watch.tell(&call, refusal).unwrap();
            watch
                .compare(bench.device.active, &bench.device.waiting)
                .unwrap();
        }
    }
}
