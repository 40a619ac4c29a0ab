//! Commands: STS, FIFO, engine answers and the maintenance window.

mod common;

use common::{command, nth_byte, Bench};
use yardstick::Phase;

/// The answer to a declared size below 10 or above C.
const BAD_SIZE: [u8; 10] = [0x00, 0xc4, 0x00, 0x00, 0x00, 0x0a, 0x00, 0x00, 0x00, 0x19];

fn short(bytes: &[u8]) -> Bench {
    let mut bench = Bench::ready();
    bench.send(0x0024, bytes);
    bench
}

/// Sends as a driver does, no more than burstCount at a time; gives the bursts it read.
fn send_in_bursts(bench: &mut Bench, mut command: &[u8]) -> Vec<u16> {
    let mut bursts = Vec::new();
    while !command.is_empty() {
        let burst = bench.burst(0);
        assert_ne!(burst, 0, "{} bytes left to send", command.len());
        let (now, later) = command.split_at(command.len().min(usize::from(burst)));
        bench.send(0x0024, now);
        bursts.push(burst);
        command = later;
    }
    bursts
}

/// Reads as a driver does, burstCount bytes at a time while dataAvail stands; gives the bursts too.
fn read_in_bursts(bench: &mut Bench) -> (Vec<u8>, Vec<u16>) {
    let (mut answer, mut bursts) = (Vec::new(), Vec::new());
    while bench.get(0x0018) & 0x10 != 0 {
        let burst = bench.burst(0);
        assert_ne!(burst, 0, "{} bytes read", answer.len());
        answer.extend((0..burst).map(|_| bench.get(0x0024)));
        bursts.push(burst);
    }
    (answer, bursts)
}

#[test]
fn command_ready_from_each_phase() {
    let mut bench = Bench::held_by(0, 1024);
    bench.soil();
    let mut expected = bench.clone();
    bench.put(0x0018, 0x40);
    expected.device.phase = Phase::Ready;
    expected.device.status.command_ready = true;
    assert_eq!(bench, expected);

    bench.device.status.command_ready = false;
    bench.put_in_vain(0x0018, 0x40);

    for mut bench in [short(&[1, 2, 3]), Bench::executing(), Bench::completed()] {
        bench.device.status.command_ready = false;
        bench.soil();
        let mut expected = bench.device.clone();
        bench.put(0x0018, 0x40);
        expected.phase = Phase::Idle;
        assert_eq!(bench.device, expected);
        assert!(bench.fifos_are_empty());
    }
}

#[test]
fn sts_writes_need_exactly_one_counted_bit() {
    for mut bench in [
        Bench::held_by(0, 1024),
        short(&command(10)),
        Bench::completed(),
    ] {
        for byte in (0..=255u8).filter(|byte| (byte & 0x62).count_ones() != 1) {
            bench.put_in_vain(0x0018, byte);
        }
        for offset in [0x0019, 0x001a] {
            bench.put_in_vain(offset, 0x40);
        }
    }
    let mut bench = short(&command(10));
    bench.put(0x0018, 0xbd); // 20h and every bit that is not counted.
    assert_eq!(bench.device.phase, Phase::Execution(10));
}

#[test]
fn go_and_retry_are_ignored_elsewhere() {
    let idle = Bench::held_by(0, 1024);
    for mut bench in [idle, Bench::ready(), short(&[0; 3]), Bench::executing()] {
        bench.put_in_vain(0x0018, 0x20);
        bench.put_in_vain(0x0018, 0x02);
    }
    let mut bench = Bench::completed();
    bench.put_in_vain(0x0018, 0x20);
    bench.put_in_vain(0x0018, 0x02);
    bench.get(0x0024);
    bench.device.status.data_avail = false;
    bench.put(0x0018, 0x02);
    assert_eq!(bench.device.phase, Phase::Completion(12, 0));
    assert!(!bench.device.status.data_avail);
}

#[test]
fn status_and_burst_in_each_phase() {
    let states = |bench: &mut Bench| (bench.get(0x0018), bench.burst(0));
    assert_eq!(states(&mut Bench::held_by(0, 1024)), (0x80, 0));
    assert_eq!(states(&mut Bench::ready()), (0xc0, 512));
    assert_eq!(states(&mut short(&[0])), (0x88, 512));
    assert_eq!(states(&mut short(&command(10))), (0x80, 0));
    assert_eq!(states(&mut Bench::executing()), (0x80, 0));
    assert_eq!(states(&mut Bench::completed()), (0x90, 12));
}

#[test]
fn burst_in_completion_is_what_is_unread_up_to_512() {
    let mut bench = Bench::executing();
    assert_eq!(bench.respond(1, &[7; 514]), 0);
    for unread in (1..=514u16).rev() {
        assert_eq!(bench.burst(0), unread.min(512));
        assert_eq!(bench.get(0x0027), 7);
    }
    assert_eq!((bench.burst(0), bench.get(0x0018)), (0, 0x80));
}

/// "The lesser of 512 and C minus the bytes received", whatever size the command declares.
#[test]
fn burst_in_reception_is_the_room_up_to_512() {
    for (c, size) in [(1024, 1024), (1024, 600), (8192, 8192), (8192, 8000)] {
        let mut bench = Bench::ready_with(c);
        for (received, byte) in command(size).into_iter().enumerate() {
            assert_eq!(usize::from(bench.burst(0)), (c - received).min(512));
            bench.put(0x0024, byte);
        }
        assert_eq!((bench.burst(0), bench.get(0x0018)), (0, 0x80));
    }
}

/// Bytes left and the bytes at 0019 and 001A: around the cap and where the high byte turns over.
const BURST_BYTES: [(usize, [u8; 2]); 9] = [
    (514, [0x00, 0x02]),
    (513, [0x00, 0x02]),
    (512, [0x00, 0x02]),
    (511, [0xff, 0x01]),
    (257, [0x01, 0x01]),
    (256, [0x00, 0x01]),
    (255, [0xff, 0x00]),
    (1, [0x01, 0x00]),
    (0, [0x00, 0x00]),
];

#[test]
fn both_bytes_of_the_burst_step_with_what_is_left() {
    for c in [1024, 8192] {
        let bytes = command(c as u32);
        let mut bench = Bench::ready_with(c);
        let mut sent = 0;
        for (left, burst) in BURST_BYTES {
            bench.send(0x0024, &bytes[sent..c - left]);
            sent = c - left;
            assert_eq!([bench.get(0x0019), bench.get(0x001a)], burst, "{left} room");
        }
        bench.put(0x0018, 0x20);
        assert_eq!(bench.respond(1, &bytes), 0);
        let mut read = 0;
        for (left, burst) in BURST_BYTES {
            (read..c - left).for_each(|_| _ = bench.get(0x0024));
            read = c - left;
            assert_eq!(
                [bench.get(0x0019), bench.get(0x001a)],
                burst,
                "{left} unread"
            );
        }
    }
}

/// The tester's blob of request W6; C cuts its last burst if C ends with it, else the driver does.
#[test]
fn a_blob_of_6000_bytes_goes_in_and_out_in_bursts() {
    let eleven_and = |last: u16| [[512; 11].as_slice(), &[last]].concat();
    let answer: Vec<u8> = (1000..7000).map(nth_byte).collect();
    for (c, last) in [(6000, 368), (8192, 512)] {
        let mut bench = Bench::ready_with(c);
        let bursts = send_in_bursts(&mut bench, &command(6000));
        assert_eq!(bursts, eleven_and(last));
        assert_eq!(bench.get(0x0018), 0x80);
        bench.put(0x0018, 0x20);
        assert_eq!(bench.device.phase, Phase::Execution(6000));
        assert_eq!(bench.window(), (0, &command(6000)[..]));
        assert_eq!(bench.respond(1, &answer), 0);
        assert_eq!(
            read_in_bursts(&mut bench),
            (answer.clone(), eleven_and(368))
        );
        assert_eq!((bench.get(0x0024), bench.get(0x0018)), (0xff, 0x80));
    }
}

#[test]
fn the_longest_command_runs_and_gets_the_longest_answer() {
    let mut bench = Bench::ready_with(8192);
    assert_eq!(send_in_bursts(&mut bench, &command(8192)), [512; 16]);
    bench.put_in_vain(0x0024, 0x55);
    bench.put(0x0018, 0x20);
    assert_eq!(
        (bench.device.phase, bench.device.run),
        (Phase::Execution(8192), 1)
    );
    assert_eq!(bench.window(), (0, &command(8192)[..]));
    let answer: Vec<u8> = (1000..9193).map(nth_byte).collect();
    assert_eq!(bench.respond(1, &answer), 4);
    assert_eq!(bench.respond(1, &answer[..8192]), 0);
    assert!(bench.w.iter().all(|byte| *byte == 0));
    assert_eq!(bench.r, answer[..8192]);
    let read = read_in_bursts(&mut bench);
    assert_eq!(read, (answer[..8192].to_vec(), vec![512; 16]));
    assert_eq!(bench.device.phase, Phase::Completion(8192, 8192));
    bench.put(0x0018, 0x40);
    assert!(bench.fifos_are_empty());
}

#[test]
fn a_size_one_above_the_longest_fifo_is_answered() {
    let mut bench = Bench::ready_with(8192);
    let bytes = command(8193);
    bench.send(0x0024, &bytes[..8191]);
    assert_eq!((bench.get(0x0018), bench.burst(0)), (0x88, 1));
    bench.put_in_vain(0x0018, 0x20);
    bench.put(0x0024, bytes[8191]);
    assert_eq!((bench.get(0x0018), bench.burst(0)), (0x80, 0));
    bench.put_in_vain(0x0024, bytes[8192]);
    bench.put(0x0018, 0x20);
    assert_eq!((bench.get(0x0018), bench.device.run), (0x90, 0));
    assert!(bench.w.iter().all(|byte| *byte == 0));
    assert!(bench.r[10..].iter().all(|byte| *byte == 0));
    assert_eq!(read_in_bursts(&mut bench), (BAD_SIZE.to_vec(), vec![10]));
}

#[test]
fn sizes_below_six_still_take_six_bytes() {
    for size in 0..6u8 {
        let mut bench = short(&[0, 0xc1, 0, 0, 0]);
        bench.put_in_vain(0x0018, 0x20);
        assert_eq!(bench.get(0x0018), 0x88);
        bench.put(0x0024, size);
        assert_eq!(bench.get(0x0018), 0x80);
        bench.put_in_vain(0x0024, 9);
        bench.put(0x0018, 0x20);
        assert_eq!(bench.device.phase, Phase::Completion(10, 0));
    }
}

#[test]
fn size_is_read_high_byte_first() {
    let mut bench = short(&[0, 0xc1, 0x0a, 0, 0, 0, 0, 0, 0, 0]);
    assert_eq!(bench.get(0x0018), 0x88);
    let mut bench = Bench::held_by(0, 4096);
    bench.put(0x0018, 0x40);
    bench.send(0x0024, &command(0x0102));
    assert_eq!(bench.get(0x0018), 0x80);
    bench.put(0x0018, 0x20);
    assert_eq!(bench.device.phase, Phase::Execution(0x0102));
}

#[test]
fn greatest_declared_size_fills_the_fifo_and_is_answered() {
    let mut bench = short(&[0xff; 1024]);
    assert_eq!((bench.get(0x0018), bench.burst(0)), (0x80, 0));
    bench.put_in_vain(0x0024, 0xff);
    bench.put(0x0018, 0x20);
    assert_eq!(bench.device.phase, Phase::Completion(10, 0));
    assert_eq!(bench.device.run, 0);
    assert!(bench.device.status.data_avail);
    assert!(bench.w.iter().all(|byte| *byte == 0));
    assert_eq!(bench.r[..10], BAD_SIZE);
    assert!(bench.r[10..].iter().all(|byte| *byte == 0));
}

#[test]
fn fifo_write_stores_one_byte_and_no_more() {
    for offset in 0x0024..=0x0027 {
        let mut bench = Bench::ready();
        bench.soil();
        let mut expected = bench.clone();
        bench.put(offset, 0x12);
        expected.device.phase = Phase::Reception(1);
        expected.w[0] = 0x12;
        assert_eq!(bench, expected);
        bench.put(offset, 0x34);
        expected.device.phase = Phase::Reception(2);
        expected.w[1] = 0x34;
        assert_eq!(bench, expected);
    }
}

#[test]
fn fifo_writes_elsewhere_and_reads_elsewhere_do_nothing() {
    let idle = Bench::held_by(0, 1024);
    let full = short(&command(10));
    for mut bench in [
        idle.clone(),
        full.clone(),
        Bench::executing(),
        Bench::completed(),
    ] {
        bench.put_in_vain(0x0024, 0x55);
    }
    for mut bench in [idle, Bench::ready(), full, Bench::executing()] {
        let before = bench.clone();
        assert_eq!(bench.get(0x0024), 0xff);
        assert_eq!(bench, before);
    }
}

#[test]
fn run_number_wraps() {
    let mut bench = short(&command(10));
    bench.device.run = u32::MAX;
    bench.put(0x0018, 0x20);
    assert_eq!(bench.device.run, 0);
    assert_eq!(bench.respond(0, &[1; 10]), 0);
}

#[test]
fn go_keeps_the_bytes_and_counts_them() {
    let mut bench = short(&command(10));
    // A record may hold more bytes than its command declares; all of them were received.
    bench.device.phase = Phase::Reception(500);
    let mut expected = bench.clone();
    bench.put(0x0018, 0x20);
    expected.device.phase = Phase::Execution(500);
    expected.device.run = 1;
    assert_eq!(bench, expected);
}

#[test]
fn answer_lands_at_the_front_with_zeros_behind() {
    for length in [10, 11, 1023, 1024] {
        let mut bench = Bench::executing();
        bench.soil();
        let answer: Vec<u8> = (0..length).map(|n| n as u8 | 1).collect();
        let mut expected = bench.device.clone();
        assert_eq!(bench.respond(1, &answer), 0);
        expected.phase = Phase::Completion(length as u16, 0);
        expected.status.data_avail = true;
        assert_eq!(bench.device, expected);
        assert!(bench.w.iter().all(|byte| *byte == 0));
        assert_eq!(bench.r[..length], answer);
        assert!(bench.r[length..].iter().all(|byte| *byte == 0));
        for byte in answer {
            assert_eq!(bench.get(0x0026), byte);
        }
        assert_eq!(
            bench.device.phase,
            Phase::Completion(length as u16, length as u16)
        );
        assert_eq!(bench.get(0x0026), 0xff);
    }
}

#[test]
fn window_is_the_part_in_use_and_the_fifo_itself() {
    let range = |slice: &[u8]| slice.as_ptr_range();
    assert_eq!(Bench::fresh(1024).window(), (0, &[][..]));
    assert_eq!(Bench::ready().window(), (0, &[][..]));

    let bench = short(&[1, 2, 3]);
    assert_eq!(bench.window(), (0, &[1, 2, 3][..]));
    assert_eq!(range(bench.window().1), range(&bench.w[..3]));

    let bench = Bench::executing();
    assert_eq!(range(bench.window().1), range(&bench.w[..10]));

    let mut bench = Bench::completed();
    assert_eq!(bench.window(), (0, &b"twelve bytes"[..]));
    bench.get(0x0024);
    assert_eq!(range(bench.window().1), range(&bench.r[1..12]));
    (1..12).for_each(|_| _ = bench.get(0x0024));
    assert_eq!(bench.window(), (0, &[][..]));
}
