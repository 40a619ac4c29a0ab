//! The shape rule: each clause just inside and just outside, seen from every call.

mod common;

use common::Bench;
use yardstick::{Device, Phase};

/// The refusal of every call that knows the shape rule, on FIFOs of length `c`, and of the PCR
/// question; fails if a call refused with 6 changes anything.
fn verdicts(device: &Device, c: usize) -> (bool, bool) {
    let bench = Bench {
        device: device.clone(),
        w: vec![0x77; c],
        r: vec![0x88; c],
    };
    let run_each = [
        |bench: &mut Bench| bench.read(0x0024).0,
        |bench: &mut Bench| bench.write(0x4000, 0x08),
        |bench: &mut Bench| bench.respond(bench.device.run, &[0; 10]),
        |bench: &mut Bench| bench.reset(),
        |bench: &mut Bench| bench.window().0,
    ];
    let refusals = run_each.map(|run| {
        let mut after = bench.clone();
        let refusal = run(&mut after);
        assert!(refusal != 6 || after == bench);
        refusal == 6
    });
    assert!(
        refusals.iter().all(|out| *out == refusals[0]),
        "calls disagree: {refusals:?}"
    );
    (!refusals[0], bench.device.pcr_value(0).0 == 0)
}

#[track_caller]
fn inside(device: &Device) {
    assert_eq!(verdicts(device, 1024), (true, true), "{device:?}");
}

#[track_caller]
fn outside(device: &Device) {
    assert_eq!(verdicts(device, 1024), (false, false), "{device:?}");
}

fn free() -> Device {
    Bench::fresh(1024).device
}

fn held_by(x: u8) -> Device {
    Device {
        active: Some(x),
        ..free()
    }
}

fn in_phase(phase: Phase) -> Device {
    Device {
        phase,
        ..held_by(0)
    }
}

fn open(count: u32) -> Device {
    let mut bench = Bench::fresh(1024);
    bench.put(0x4028, 0);
    bench.device.hash.stream.count = count;
    bench.device
}

const PHASES: [Phase; 4] = [
    Phase::Ready,
    Phase::Reception(1),
    Phase::Execution(10),
    Phase::Completion(10, 10),
];

#[test]
fn active_locality() {
    inside(&free());
    (0..=4).for_each(|x| inside(&held_by(x)));
    (5..=255).for_each(|x| outside(&held_by(x)));
}

#[test]
fn waiting_localities() {
    for x in 0..5u8 {
        let waiting = std::array::from_fn(|y| y == usize::from(x));
        outside(&Device { waiting, ..free() });
        for active in 0..5 {
            let device = Device {
                waiting,
                ..held_by(active)
            };
            if active == x {
                outside(&device);
            } else {
                inside(&device);
            }
        }
    }
    let waiting = [true, true, false, true, true];
    inside(&Device {
        waiting,
        ..held_by(2)
    });
    outside(&Device {
        waiting,
        ..held_by(5)
    });
}

#[test]
fn phases_need_a_holder_and_no_open_sequence() {
    for phase in PHASES {
        inside(&in_phase(phase));
        outside(&Device { phase, ..free() });
        inside(&Device {
            phase,
            ..held_by(4)
        });
        outside(&Device { phase, ..open(0) });
    }
}

/// A count reaches from `least` to C and no further; where no FIFO is lent C is 8,192.
#[track_caller]
fn reaches_from_to_c(least: u16, phase: fn(u16) -> Phase) {
    let at = |count: u16, c: usize| verdicts(&in_phase(phase(count)), c);
    assert_eq!(at(0, 1024), (false, false));
    assert_eq!(at(least - 1, 1024), (false, false));
    assert_eq!(at(least, 1024), (true, true));
    assert_eq!(at(1024, 1024), (true, true));
    assert_eq!(at(1025, 1024), (false, true));
    assert_eq!(at(1025, 1025), (true, true));
    assert_eq!(at(4096, 4096), (true, true));
    assert_eq!(at(4097, 4096), (false, true));
    assert_eq!(at(4097, 4097), (true, true));
    assert_eq!(at(8192, 8191), (false, true));
    assert_eq!(at(8192, 8192), (true, true));
    assert_eq!(at(8193, 8192), (false, false));
    assert_eq!(at(8193, 1024), (false, false));
    assert_eq!(at(u16::MAX, 1024), (false, false));
}

#[test]
fn reception_count() {
    reaches_from_to_c(1, Phase::Reception);
}

#[test]
fn execution_count() {
    reaches_from_to_c(10, Phase::Execution);
}

#[test]
fn completion_counts() {
    reaches_from_to_c(10, |length| Phase::Completion(length, 0));
    reaches_from_to_c(10, |length| Phase::Completion(length, length));
    inside(&in_phase(Phase::Completion(10, 10)));
    outside(&in_phase(Phase::Completion(10, 11)));
    outside(&in_phase(Phase::Completion(1024, 1025)));
}

#[test]
fn open_sequence_needs_locality_4() {
    inside(&open(0));
    outside(&Device {
        active: None,
        ..open(0)
    });
    (0..4).for_each(|x| {
        outside(&Device {
            active: Some(x),
            ..open(0)
        })
    });
}

#[test]
fn hash_bytes() {
    inside(&open(1_048_575));
    inside(&open(1_048_576));
    outside(&open(1_048_577));
    outside(&open(u32::MAX));
    for count in [1, 64, 1_048_576, u32::MAX] {
        let mut device = open(count);
        device.hash.open = false;
        outside(&device);
    }
}

#[test]
fn stream_words_and_tail_are_no_clause() {
    let mut device = held_by(4);
    device.hash.stream.chaining = [1; 5];
    device.hash.stream.tail = [2; 64];
    inside(&device);
}
