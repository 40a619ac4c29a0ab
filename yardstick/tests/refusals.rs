//! Refusals: each number, their order, and that a refused call changes nothing.

mod common;

use common::{Bench, ID};
use yardstick::{Device, Phase};

const BAD_LENGTHS: [(usize, usize); 11] = [
    (0, 0),
    (1, 1),
    (1023, 1023),
    (8193, 8193),
    (1024, 1025),
    (1025, 1024),
    (8192, 8193),
    (8191, 8192),
    (0, 1024),
    (1024, 0),
    (70_000, 70_000),
];

/// An executing device whose FIFOs got other lengths.
fn with_lengths((w, r): (usize, usize)) -> Bench {
    let mut bench = Bench::executing();
    bench.w = vec![0x77; w];
    bench.r = vec![0x88; r];
    bench
}

#[test]
fn bad_fifo_lengths_are_refused_first() {
    for lengths in BAD_LENGTHS {
        for active in [Some(0), Some(7)] {
            let mut bench = with_lengths(lengths);
            bench.device.active = active;
            let before = bench.clone();
            assert_eq!(bench.read(0x0000), (2, 0xff));
            assert_eq!(bench.read(0x5000), (2, 0xff));
            assert_eq!(bench.write(0x0000, 0x20), 2);
            assert_eq!(bench.write(u64::MAX, 0x20), 2);
            assert_eq!(bench.respond(1, &[0; 10]), 2);
            assert_eq!(bench.respond(9, &[]), 2);
            assert_eq!(bench.reset(), 2);
            assert_eq!(bench.window(), (2, &[][..]));
            assert_eq!(bench, before);
        }
    }
}

#[test]
fn refused_power_on_gives_the_fresh_record_and_leaves_the_fifos() {
    let fresh = Bench::fresh(1024).device;
    for (w, r) in BAD_LENGTHS {
        let (mut w, mut r) = (vec![1; w], vec![2; r]);
        let (refusal, device) = Device::power_on(false, ID, &mut w, &mut r);
        assert_eq!((refusal, &device), (2, &fresh));
        assert!(w.iter().all(|byte| *byte == 1) && r.iter().all(|byte| *byte == 2));
    }
}

#[test]
fn odd_lengths_within_the_limits_are_taken() {
    for c in [1024, 1025, 1999, 2048, 4096, 4097, 6000, 8191, 8192] {
        let mut bench = Bench::fresh(c);
        assert!(bench.fifos_are_empty());
        assert_eq!(bench.get(0x0000), 0x81);
        assert_eq!(bench.reset(), 0);
        bench.put(0x0000, 0x02);
        bench.put(0x0018, 0x40);
        bench.send(0x0024, &common::command(c as u32));
        assert_eq!(bench.burst(0), 0);
        bench.put(0x0018, 0x20);
        assert_eq!(bench.device.phase, Phase::Execution(c as u16));
        assert_eq!(bench.respond(1, &vec![3; c + 1]), 4);
        assert_eq!(bench.respond(1, &vec![3; c]), 0);
        assert_eq!(bench.window().1.len(), c);
    }
}

#[test]
fn shape_comes_before_offset_and_the_rest() {
    let mut bench = Bench::executing();
    bench.device.active = Some(7);
    let before = bench.clone();
    assert_eq!(bench.read(0x5000), (6, 0xff));
    assert_eq!(bench.write(0x5000, 0), 6);
    assert_eq!(bench.respond(2, &[]), 6);
    assert_eq!(bench.device.pcr_value(24), (6, [0; 20]));
    assert_eq!(bench, before);
}

#[test]
fn offsets_above_4fff() {
    let mut bench = Bench::ready();
    let before = bench.clone();
    for offset in [0x5000, 0x5018, 0xffff, 0x1_0000, 0x1_0000_0000, u64::MAX] {
        assert_eq!(bench.read(offset), (1, 0xff));
        assert_eq!(bench.write(offset, 0x02), 1);
    }
    assert_eq!(bench, before);
}

#[test]
fn offset_comes_before_the_hash_limit() {
    let mut bench = Bench::fresh(1024);
    bench.put(0x4028, 0);
    bench.device.hash.stream.count = 1_048_576;
    let before = bench.clone();
    assert_eq!(bench.write(0x4024, 0), 7);
    assert_eq!(bench.write(0x5024, 0), 1);
    assert_eq!(bench.read(0x4024), (0, 0xff));
    assert_eq!(bench, before);
}

#[test]
fn engine_answers_out_of_turn() {
    let idle = Bench::held_by(0, 1024);
    for mut bench in [idle, Bench::ready(), Bench::completed()] {
        let before = bench.clone();
        for answer in [&[][..], &[0; 10], &[0; 1025]] {
            assert_eq!(bench.respond(bench.device.run, answer), 3);
        }
        assert_eq!(bench, before);
    }
    let mut bench = Bench::executing();
    let before = bench.clone();
    for run in [0, 2, u32::MAX] {
        for answer in [&[][..], &[0; 10], &[0; 1025]] {
            assert_eq!(bench.respond(run, answer), 3);
        }
    }
    assert_eq!(bench, before);
}

#[test]
fn engine_answers_of_wrong_length() {
    let mut bench = Bench::executing();
    let before = bench.clone();
    for length in [0, 1, 9, 1025, 4097, 8192, 8193, 70_000] {
        assert_eq!(bench.respond(1, &vec![1; length]), 4);
    }
    assert_eq!(bench, before);
}

#[test]
fn pcr_numbers() {
    let mut bench = Bench::fresh(1024);
    for pcr in 0..24u8 {
        bench.device.pcrs[usize::from(pcr)] = [pcr; 20];
        assert_eq!(bench.device.pcr_value(pcr), (0, [pcr; 20]));
    }
    for pcr in 24..=255 {
        assert_eq!(bench.device.pcr_value(pcr), (5, [0; 20]));
    }
}
