//! ACCESS: reads, requests, releases, seizures and handovers; power-on and reset beside them.

mod common;

use common::{at, Bench, ID};
use yardstick::{Causes, Device, HashSequence, IntEnable, Phase};

/// Locality 1 active with a command under way, 0 and 3 wait, FIFOs soiled.
fn busy() -> Bench {
    let mut bench = Bench::held_by(1, 1024);
    bench.put(0x1018, 0x40);
    bench.put(0x1024, 0x00);
    bench.put(0x0000, 0x02);
    bench.put(0x3000, 0x02);
    bench.soil();
    bench
}

#[test]
fn power_on_gives_the_fresh_record() {
    let (mut w, mut r) = (vec![1; 8192], vec![2; 8192]);
    let (refusal, device) = Device::power_on(true, ID, &mut w, &mut r);
    assert_eq!(refusal, 0);
    assert!(w.iter().chain(&r).all(|byte| *byte == 0));
    let mut pcrs = [[0; 20]; 24];
    for pcr in &mut pcrs[17..23] {
        *pcr = [0xff; 20];
    }
    let expected = Device {
        active: None,
        waiting: [false; 5],
        seized: [false; 5],
        phase: Phase::Idle,
        enable: IntEnable {
            global: false,
            causes: Causes::default(),
        },
        status: Causes {
            command_ready: false,
            locality_change: false,
            data_avail: false,
        },
        established: true,
        identity: ID,
        run: 0,
        hash: HashSequence::CLOSED,
        pcrs,
    };
    assert_eq!(device, expected);
    assert_eq!(device.hash.stream.chaining, [0; 5]);
}

#[test]
fn reset_keeps_established_identity_and_run() {
    let mut bench = busy();
    bench.put(0x1008, 0xff);
    bench.put(0x3000, 0x08);
    bench.device.run = 77;
    bench.device.established = true;
    bench.device.pcrs = [[9; 20]; 24];
    bench.soil();
    assert_eq!(bench.reset(), 0);
    let (_, fresh) = Device::power_on(true, ID, &mut [0; 1024], &mut [0; 1024]);
    assert_eq!(bench.device, Device { run: 77, ..fresh });
    assert!(bench.fifos_are_empty());
}

#[test]
fn access_reads_show_each_bit() {
    for x in 0..5 {
        let mut bench = Bench::fresh(1024);
        assert_eq!(bench.get(at(x, 0)), 0x81);
        bench.device.established = true;
        assert_eq!(bench.get(at(x, 0)), 0x80);
        bench.device.seized[usize::from(x)] = true;
        assert_eq!(bench.get(at(x, 0)), 0x90);
        bench.device.active = Some(x);
        assert_eq!(bench.get(at(x, 0)), 0xb0);
        let (other, third) = ((x + 1) % 5, (x + 2) % 5);
        bench.device.waiting[usize::from(other)] = true;
        assert_eq!(bench.get(at(x, 0)), 0xb4);
        assert_eq!(bench.get(at(other, 0)), 0x82);
        assert_eq!(bench.get(at(third, 0)), 0x84);
        bench.device.waiting[usize::from(third)] = true;
        assert_eq!(bench.get(at(other, 0)), 0x86);
    }
}

/// Every page, set of waiting localities and holder; bit 2 looks at the set without x.
#[test]
fn pending_request_leaves_the_own_request_out() {
    let mut bench = Bench::fresh(1024);
    for set in 0..32u8 {
        bench.device.waiting = std::array::from_fn(|y| set & (1 << y) != 0);
        for active in [None, Some(0), Some(1), Some(2), Some(3), Some(4)] {
            bench.device.active = active;
            let in_shape = active.map_or(set == 0, |y| set & (1 << y) == 0);
            for x in 0..5 {
                let own = 1 << x;
                let pending = if set & !own == 0 { 0x00 } else { 0x04 };
                let waits = if set & own == 0 { 0x00 } else { 0x02 };
                let holds = if active == Some(x) { 0x20 } else { 0x00 };
                let expected = match in_shape {
                    true => (0, 0x81 | holds | pending | waits),
                    false => (6, 0xff),
                };
                assert_eq!(bench.read(at(x, 0)), expected, "{x} {set:05b} {active:?}");
            }
        }
    }
}

#[test]
fn writes_without_exactly_one_counted_bit_do_nothing() {
    for x in 0..5 {
        let mut bench = busy();
        bench.device.seized = [true; 5];
        for byte in (0..=255u8).filter(|byte| (byte & 0x3a).count_ones() != 1) {
            bench.put_in_vain(at(x, 0), byte);
        }
    }
}

#[test]
fn uncounted_bits_do_not_matter() {
    let mut bench = Bench::fresh(1024);
    bench.put(0x2000, 0xc7);
    assert_eq!(bench.device.active, Some(2));
    bench.put(0x2000, 0xe5);
    assert_eq!(bench.device.active, None);
}

#[test]
fn each_request_has_its_own_slot() {
    let mut bench = Bench::held_by(0, 1024);
    for x in 1..5 {
        bench.put(at(x, 0), 0x02);
        bench.put_in_vain(at(x, 0), 0x02);
    }
    bench.put_in_vain(0x0000, 0x02);
    assert_eq!(bench.device.waiting, [false, true, true, true, true]);
    for x in (1..5).rev() {
        let active = bench.device.active.unwrap();
        bench.put(at(active, 0), 0x20);
        assert_eq!(bench.device.active, Some(x));
    }
}

#[test]
fn request_of_a_free_device_sets_no_status_and_empties_nothing() {
    for byte in [0x02, 0x08] {
        for x in 0..5 {
            let mut bench = Bench::fresh(1024);
            bench.soil();
            let mut expected = bench.clone();
            expected.device.active = Some(x);
            bench.put(at(x, 0), byte);
            assert_eq!(bench, expected);
        }
    }
}

#[test]
fn handover_serves_the_highest_and_sets_locality_change() {
    let mut bench = busy();
    let mut expected = bench.device.clone();
    bench.put(0x1000, 0x20);
    expected.active = Some(3);
    expected.waiting = [true, false, false, false, false];
    expected.phase = Phase::Idle;
    expected.status.locality_change = true;
    assert_eq!(bench.device, expected);
    assert!(bench.fifos_are_empty());
}

#[test]
fn handover_with_nobody_waiting_frees_the_device_and_leaves_the_status() {
    for status in [false, true] {
        let mut bench = Bench::completed();
        bench.device.status.locality_change = status;
        bench.soil();
        let mut expected = bench.device.clone();
        bench.put(0x0000, 0x20);
        expected.active = None;
        expected.phase = Phase::Idle;
        assert_eq!(bench.device, expected);
        assert!(bench.fifos_are_empty());
    }
}

#[test]
fn withdrawal_touches_the_one_wait_only() {
    let mut bench = busy();
    let mut expected = bench.clone();
    bench.put(0x3000, 0x20);
    expected.device.waiting[3] = false;
    assert_eq!(bench, expected);
    bench.put_in_vain(0x3000, 0x20);
    bench.put_in_vain(0x4000, 0x20);
}

#[test]
fn seizure_marks_the_loser_and_is_no_handover() {
    let mut bench = busy();
    let mut expected = bench.device.clone();
    bench.put(0x3000, 0x08);
    expected.active = Some(3);
    expected.waiting[3] = false;
    expected.seized[1] = true;
    expected.phase = Phase::Idle;
    assert_eq!(bench.device, expected);
    assert!(bench.fifos_are_empty());
}

/// "Emptied" is every byte, also where the FIFOs are the longest allowed.
#[test]
fn the_longest_fifos_are_emptied_to_the_last_byte() {
    let drops: [fn(&mut Bench) -> u8; 4] = [
        |bench| bench.write(0x1000, 0x20),
        |bench| bench.write(0x3000, 0x08),
        |bench| bench.write(0x1018, 0x40),
        |bench| bench.reset(),
    ];
    for drop_command in drops {
        let mut bench = busy();
        (bench.w, bench.r) = (vec![0x77; 8192], vec![0x88; 8192]);
        assert_eq!(drop_command(&mut bench), 0);
        assert!(bench.fifos_are_empty());
    }
}

#[test]
fn equal_and_lower_localities_seize_nothing() {
    for active in 0..5 {
        let mut bench = Bench::held_by(active, 1024);
        bench.soil();
        for x in 0..=active {
            bench.put_in_vain(at(x, 0), 0x08);
        }
    }
}

#[test]
fn bit_4_clears_the_own_mark_only() {
    let mut bench = busy();
    bench.device.seized = [true; 5];
    let mut expected = bench.clone();
    bench.put(0x2000, 0x10);
    expected.device.seized[2] = false;
    assert_eq!(bench, expected);
    bench.put_in_vain(0x2000, 0x10);
}

#[test]
fn an_aborted_run_cannot_answer_the_next_owner() {
    let mut bench = Bench::executing();
    bench.put(0x2000, 0x08);
    assert_eq!(bench.respond(1, &[0; 10]), 3);
    bench.put(0x2018, 0x40);
    bench.send(0x2024, &common::command(10));
    bench.put(0x2018, 0x20);
    assert_eq!(bench.respond(1, &[0; 10]), 3);
    assert_eq!(bench.respond(2, &[0; 10]), 0);
}
