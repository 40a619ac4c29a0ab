//! The bench sheet of document 01, P1 to P12 and the lines below them; P3 and P7 as W2 and W6 of document 02 have them.

mod common;

use common::{command, Bench};
use yardstick::Phase;

#[test]
fn p1_to_p6_holders() {
    let mut bench = Bench::fresh(1024);
    assert_eq!(bench.get(0x0000), 0x81, "P1");
    bench.put(0x0000, 0x02);
    assert_eq!(bench.get(0x0000), 0xa1, "P2");
    bench.put(0x2000, 0x02);
    assert_eq!((bench.get(0x2000), bench.get(0x0000)), (0x83, 0xa5), "P3");
    bench.put(0x3000, 0x02);
    bench.put(0x0000, 0x20);
    assert_eq!(bench.get(0x3000), 0xa5, "P4");
    bench.put_in_vain(0x2000, 0x08); // P5
    bench.put(0x4000, 0x08);
    assert_eq!(bench.get(0x3000), 0x95, "P6");
}

#[test]
fn p7_ready() {
    let mut bench = Bench::fresh(1024);
    bench.put(0x0000, 0x02);
    bench.put(0x0018, 0x40);
    let sts = [0x0018, 0x0019, 0x001a].map(|offset| bench.get(offset));
    assert_eq!(sts, [0xc0, 0x00, 0x02]);
}

#[test]
fn p8_ten_byte_command() {
    let mut bench = Bench::ready();
    bench.send(0x0024, &[0x00, 0xc1, 0x00, 0x00, 0x00, 0x0a]);
    assert_eq!(bench.get(0x0018), 0x88);
    bench.put_in_vain(0x0018, 0x20);
    bench.send(0x0024, &[1, 2, 3, 4]);
    assert_eq!(bench.get(0x0018), 0x80);
    bench.put_in_vain(0x0024, 5);
    bench.put(0x0018, 0x20);
    assert_eq!(
        (bench.device.phase, bench.device.run),
        (Phase::Execution(10), 1)
    );
}

#[test]
fn p9_size_nine_is_answered() {
    let mut bench = Bench::ready();
    bench.send(0x0024, &command(9));
    bench.put(0x0018, 0x20);
    assert_eq!(bench.get(0x0018), 0x90);
    let answer = [0x00, 0xc4, 0x00, 0x00, 0x00, 0x0a, 0x00, 0x00, 0x00, 0x19];
    for byte in answer {
        assert_eq!(bench.get(0x0024), byte);
    }
    assert_eq!((bench.get(0x0024), bench.get(0x0018)), (0xff, 0x80));
    bench.put(0x0018, 0x02);
    assert_eq!(bench.get(0x0018), 0x90);
    assert_eq!(bench.device.run, 0);
}

#[test]
fn p10_size_at_and_above_the_fifo() {
    let mut bench = Bench::ready();
    bench.send(0x0024, &command(1024));
    bench.put(0x0018, 0x20);
    assert_eq!(
        (bench.device.phase, bench.device.run),
        (Phase::Execution(1024), 1)
    );

    let mut bench = Bench::ready();
    let bytes = command(1025);
    bench.send(0x0024, &bytes[..1023]);
    bench.put_in_vain(0x0018, 0x20);
    bench.put(0x0024, bytes[1023]);
    bench.put_in_vain(0x0024, bytes[1024]);
    bench.put(0x0018, 0x20);
    assert_eq!(bench.device.phase, Phase::Completion(10, 0));
    assert_eq!(bench.r[9], 0x19);
}

/// "P11 keeps its values, since C binds there" (W6).
#[test]
fn p11_burst_near_the_end() {
    let mut bench = Bench::ready();
    for (received, byte) in command(1024).into_iter().enumerate() {
        match received {
            960 => assert_eq!(bench.burst(0), 64),
            961 => assert_eq!(bench.burst(0), 63),
            1023 => assert_eq!(bench.burst(0), 1),
            _ => {}
        }
        bench.put(0x0024, byte);
    }
    assert_eq!(bench.burst(0), 0);
}

#[test]
fn p12_last_offset() {
    let mut bench = Bench::fresh(1024);
    assert_eq!(bench.read(0x4fff), (0, 0xff));
    assert_eq!(bench.read(0x5000), (1, 0xff));
}

#[test]
fn hash_start_with_0_active_is_ignored() {
    let mut bench = Bench::ready();
    bench.soil();
    for offset in 0x4028..=0x402b {
        bench.put_in_vain(offset, 0);
    }
}

#[test]
fn locality_2_is_served_by_the_fifth_handover_for_k_1() {
    let mut bench = Bench::fresh(1024);
    for x in [0, 3, 4, 2] {
        bench.put(x << 12, 0x02);
    }
    let release = |bench: &mut Bench| {
        let active = bench.device.active.unwrap();
        bench.put(u64::from(active) << 12, 0x20);
        bench.device.active
    };
    assert_eq!(release(&mut bench), Some(4));
    assert_eq!(release(&mut bench), Some(3));
    bench.put(0x4000, 0x02);
    assert_eq!(release(&mut bench), Some(4));
    bench.put(0x3000, 0x02);
    assert_eq!(release(&mut bench), Some(3));
    assert_eq!(release(&mut bench), Some(2));
}
