//! The pages: every offset of every page, and the registers beside ACCESS, STS and FIFO.

mod common;

use common::{at, Bench, ID};
use yardstick::{Causes, IntEnable};

const ALL: Causes = Causes {
    command_ready: true,
    locality_change: true,
    data_avail: true,
};

#[test]
fn every_offset_of_a_fresh_device() {
    let mut bench = Bench::fresh(1024);
    for x in 0..5 {
        for within in 0..0x1000u64 {
            let expected = match within {
                0x000 => 0x81,
                0x008 => 0x08,
                0x014 => 0x95,
                0x009..=0x00c | 0x010..=0x013 | 0x015..=0x017 => 0x00,
                0xf00..=0xf04 => ID[within as usize - 0xf00],
                _ => 0xff,
            };
            assert_eq!(bench.get(at(x, within)), expected, "{x} {within:03x}");
        }
    }
}

#[test]
fn sts_and_fifo_answer_the_active_locality_only() {
    for active in 0..5 {
        let mut bench = Bench::held_by(active, 1024);
        bench.put(at(active, 0x018), 0x40);
        for x in (0..5).filter(|x| *x != active) {
            for within in [0x018, 0x019, 0x01a, 0x024, 0x025, 0x026, 0x027] {
                assert_eq!(bench.get(at(x, within)), 0xff);
                for byte in [0x40, 0x20, 0x02] {
                    bench.put_in_vain(at(x, within), byte);
                }
            }
        }
        assert_eq!(bench.get(at(active, 0x018)), 0xc0);
        assert_eq!(bench.get(at(active, 0x019)), 0x00);
        assert_eq!(bench.get(at(active, 0x01a)), 0x02);
        assert_eq!(bench.get(at(active, 0x01b)), 0xff);
    }
}

#[test]
fn offsets_without_a_writable_register_ignore_writes() {
    let mut bench = Bench::ready();
    bench.device.status = ALL;
    for x in 0..5 {
        for within in 0..0x1000u64 {
            let writable = matches!(within, 0x000 | 0x008 | 0x00b | 0x010 | 0x018)
                || (0x024..0x028).contains(&within);
            if !writable {
                for byte in [0x00, 0x02, 0x20, 0x40, 0x80, 0xff] {
                    bench.put_in_vain(at(x, within), byte);
                }
            }
        }
    }
}

#[test]
fn enable_stores_the_defined_bits() {
    let mut bench = Bench::held_by(1, 1024);
    bench.put(0x1008, 0xff);
    assert_eq!(
        bench.device.enable,
        IntEnable {
            global: false,
            causes: ALL
        }
    );
    assert_eq!(bench.get(0x1008), 0x8d);
    bench.put(0x100b, 0xff);
    assert_eq!(
        bench.device.enable,
        IntEnable {
            global: true,
            causes: ALL
        }
    );
    for x in 0..5 {
        let bytes = [0x008, 0x009, 0x00a, 0x00b].map(|within| bench.get(at(x, within)));
        assert_eq!(bytes, [0x8d, 0, 0, 0x80]);
    }
    for (byte, reads) in [(0x80, 0x88), (0x04, 0x0c), (0x01, 0x09), (0x7a, 0x08)] {
        bench.put(0x1008, byte);
        assert_eq!((bench.get(0x1008), bench.get(0x100b)), (reads, 0x80));
    }
    bench.put(0x100b, 0x7f);
    assert_eq!(bench.get(0x100b), 0x00);
}

#[test]
fn status_clears_where_1_is_written() {
    let mut bench = Bench::held_by(2, 1024);
    for (byte, left) in [
        (0x80, 0x05),
        (0x04, 0x81),
        (0x01, 0x84),
        (0xff, 0x00),
        (0x7a, 0x85),
    ] {
        bench.device.status = ALL;
        bench.put(0x2010, byte);
        for x in 0..5 {
            let bytes = [0x010, 0x011, 0x012, 0x013].map(|within| bench.get(at(x, within)));
            assert_eq!(bytes, [left, 0, 0, 0]);
        }
    }
}

#[test]
fn only_the_active_locality_writes_interrupt_registers() {
    let mut bench = Bench::fresh(1024);
    bench.device.status = ALL;
    let try_all = |bench: &mut Bench, active: Option<u8>| {
        for x in (0..5).filter(|x| Some(*x) != active) {
            for within in [0x008, 0x00b, 0x010] {
                bench.put_in_vain(at(x, within), 0xff);
            }
        }
    };
    try_all(&mut bench, None);
    bench.put(0x3000, 0x02);
    try_all(&mut bench, Some(3));
}

#[test]
fn line_needs_the_global_bit_and_a_shared_cause() {
    let mut bench = Bench::fresh(1024);
    let causes = |mask: u8| Causes {
        command_ready: mask & 4 != 0,
        locality_change: mask & 2 != 0,
        data_avail: mask & 1 != 0,
    };
    for global in [false, true] {
        for enabled in 0..8 {
            for status in 0..8 {
                bench.device.enable = IntEnable {
                    global,
                    causes: causes(enabled),
                };
                bench.device.status = causes(status);
                let expected = global && enabled & status != 0;
                assert_eq!(bench.device.interrupt_line(), expected);
            }
        }
    }
    bench.device.enable = IntEnable {
        global: true,
        causes: ALL,
    };
    bench.device.active = Some(7);
    assert!(bench.device.interrupt_line());
}

#[test]
fn permissions_are_table_4() {
    use yardstick::Device;
    for pcr in 0..24 {
        let (reset, extend): (&[u8], &[u8]) = match pcr {
            0..=15 => (&[], &[0, 1, 2, 3, 4]),
            17 | 18 => (&[4], &[2, 3, 4]),
            19 => (&[4], &[2, 3]),
            20 => (&[2, 4], &[1, 2, 3]),
            21 | 22 => (&[2], &[2]),
            _ => (&[0, 1, 2, 3, 4], &[0, 1, 2, 3, 4]),
        };
        for x in 0..5 {
            assert_eq!(Device::may_reset(pcr, x), (0, reset.contains(&x)));
            assert_eq!(Device::may_extend(pcr, x), (0, extend.contains(&x)));
        }
    }
    for (pcr, x) in [(24, 0), (0, 5), (255, 255), (16, 8), (23, 255), (24, 4)] {
        assert_eq!(Device::may_reset(pcr, x), (5, false));
        assert_eq!(Device::may_extend(pcr, x), (5, false));
    }
}
