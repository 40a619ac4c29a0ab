//! The launch hash: start, data, end, and what an open sequence shuts out.

mod common;

use common::{at, hex, Bench};
use yardstick::sha1::Sha1;
use yardstick::{HashSequence, Phase};

const START: u64 = 0x4028;
const DATA: u64 = 0x4024;
const END: u64 = 0x4020;

fn launched(stream: &[u8]) -> Bench {
    let mut bench = Bench::fresh(1024);
    bench.put(START, 0);
    bench.send(DATA, stream);
    bench.put(END, 0);
    bench
}

fn pcr_17(bench: &Bench) -> String {
    let (refusal, value) = bench.device.pcr_value(17);
    assert_eq!(refusal, 0);
    hex(&value)
}

/// The expected values are SHA-1 of twenty 00h and the stream's digest, from Python's hashlib.
#[test]
fn published_streams_through_a_launch() {
    let streams: [(&[u8], &str); 4] = [
        (b"", "31a2dc4c22f9c5444a41625d05f95898e055f750"),
        (b"abc", "ccd5bd41458de644ac34a2478b58ff819bef5acf"),
        (
            b"abcdbcdecdefdefgefghfghighijhijkijkljklmklmnlmnomnopnopq",
            "e4ae75f57b933f6ee2f2904431f275042a38b96b",
        ),
        (
            b"abcdefghbcdefghicdefghijdefghijkefghijklfghijklmghijklmn\
              hijklmnoijklmnopjklmnopqklmnopqrlmnopqrsmnopqrstnopqrstu",
            "d3e61a0afc5cb32fe75b0200dab56401bc99b445",
        ),
    ];
    for (stream, value) in streams {
        assert_eq!(pcr_17(&launched(stream)), value);
    }
    let million = launched(&vec![b'a'; 1_000_000]);
    assert_eq!(pcr_17(&million), "c61618bb62b5998932275724f1e4068f51095ba1");
}

#[test]
fn stream_lengths_around_the_padding() {
    let lengths = [
        (1, "a89fb8f88caa9590e6129b633b144a68514490d5"),
        (55, "ffe2a55b30992d4a3f84383dde71190fcc819f17"),
        (56, "56198ac498e1382aed408918725475bb92f53399"),
        (57, "9cc3cd179074c0876ff823ef59e14f0e9977aec6"),
        (63, "4b99764f03fa0134afe95700212293275b53949b"),
        (64, "76a32148645a55765fc4e1ec0e4e6ee4eff360b4"),
        (65, "7227b02d66629d315a815bad12d20f668e6da801"),
        (119, "161bfcf32a77da8d9fffdf9e92fea34d651c7949"),
        (120, "c11f35b9a1ef3ecc6ce3dbd4b36d61d0d1656d9f"),
        (128, "534064e200f919ca3e6740269dfeb7702f4ed1f5"),
    ];
    for (length, value) in lengths {
        let stream: Vec<u8> = (0..length).collect();
        assert_eq!(pcr_17(&launched(&stream)), value);
    }
}

#[test]
fn start_on_a_free_device() {
    for offset in 0x4028..=0x402b {
        let mut bench = Bench::fresh(1024);
        bench.device.pcrs = [[3; 20]; 24];
        bench.device.seized = [true; 5];
        bench.soil();
        let mut expected = bench.device.clone();
        bench.put(offset, 0xee);
        expected.active = Some(4);
        expected.established = true;
        expected.pcrs[17..23].fill([0; 20]);
        expected.hash = HashSequence {
            open: true,
            stream: Sha1::new(),
        };
        assert_eq!(bench.device, expected);
        assert!(bench.fifos_are_empty());
        assert_eq!(bench.get(0x4000), 0xb0);
    }
}

#[test]
fn start_with_4_active_drops_its_command() {
    let mut bench = Bench::held_by(4, 1024);
    bench.put(0x4018, 0x40);
    bench.send(0x4024, b"\0\xc1");
    assert_eq!(bench.device.phase, Phase::Reception(2));
    bench.put(0x1000, 0x02);
    bench.put(START, 0);
    assert_eq!(bench.device.phase, Phase::Idle);
    assert!(bench.device.hash.open && bench.device.waiting[1] && bench.fifos_are_empty());
    assert!(!bench.device.status.locality_change);
}

#[test]
fn start_with_a_lower_locality_active_is_ignored() {
    for x in 0..4 {
        let mut bench = Bench::held_by(x, 1024);
        bench.put(0x4000, 0x02);
        bench.soil();
        bench.put_in_vain(START, 0);
        bench.put_in_vain(DATA, 0);
        bench.put_in_vain(END, 0);
    }
}

#[test]
fn start_in_the_middle_begins_anew() {
    let mut bench = Bench::fresh(1024);
    bench.put(START, 0);
    bench.send(DATA, b"lost");
    bench.device.pcrs[18] = [1; 20];
    bench.put(START, 0);
    assert_eq!(bench.device.hash.stream, Sha1::new());
    assert_eq!(bench.device.pcrs[18], [0; 20]);
    bench.send(DATA, b"abc");
    bench.put(END, 0);
    assert_eq!(pcr_17(&bench), "ccd5bd41458de644ac34a2478b58ff819bef5acf");
}

#[test]
fn data_counts_at_all_four_offsets() {
    let mut bench = Bench::fresh(1024);
    bench.put(0x402a, 0);
    for (offset, byte) in [(0x4027, b'a'), (0x4025, b'b'), (0x4026, b'c')] {
        bench.put(offset, byte);
    }
    bench.put(0x4022, 0);
    assert_eq!(pcr_17(&bench), "ccd5bd41458de644ac34a2478b58ff819bef5acf");
}

#[test]
fn data_touches_the_stream_alone() {
    let mut bench = Bench::fresh(1024);
    bench.put(START, 0);
    bench.soil();
    let mut expected = bench.clone();
    for n in 0..130u8 {
        bench.put(DATA, n);
        expected.device.hash.stream.update(&[n]);
        assert_eq!(bench, expected);
    }
}

#[test]
fn end_extends_pcr_17_closes_and_hands_over() {
    for offset in 0x4020..=0x4023 {
        let mut bench = Bench::fresh(1024);
        bench.put(START, 0);
        bench.put(0x0000, 0x02);
        bench.put(0x2000, 0x02);
        bench.send(DATA, b"abc");
        bench.soil();
        let mut expected = bench.device.clone();
        bench.put(offset, 0x31);
        expected.active = Some(2);
        expected.waiting[2] = false;
        expected.status.locality_change = true;
        expected.hash = HashSequence::CLOSED;
        expected.pcrs[17] = bench.device.pcrs[17];
        assert_eq!(bench.device, expected);
        assert_eq!(pcr_17(&bench), "ccd5bd41458de644ac34a2478b58ff819bef5acf");
        assert!(bench.fifos_are_empty());
    }
    assert_eq!(launched(b"").device.active, None);
}

#[test]
fn end_while_closed_is_ignored() {
    for mut bench in [
        Bench::fresh(1024),
        Bench::held_by(4, 1024),
        launched(b"abc"),
    ] {
        bench.soil();
        for offset in 0x4020..=0x4023 {
            bench.put_in_vain(offset, 0);
        }
    }
}

#[test]
fn page_4_data_port_is_the_fifo_while_closed() {
    let mut bench = Bench::held_by(4, 1024);
    bench.put(0x4018, 0x40);
    bench.put(DATA, 0x21);
    assert_eq!(
        (bench.device.phase, bench.w[0]),
        (Phase::Reception(1), 0x21)
    );
}

#[test]
fn open_sequence_shuts_out_other_writes_in_page_4() {
    let mut bench = Bench::fresh(1024);
    bench.put(START, 0);
    bench.device.seized = [true; 5];
    bench.device.status.command_ready = true;
    bench.soil();
    for within in (0..0x1000u64).filter(|within| !(0x020..0x02c).contains(within)) {
        for byte in [0x02, 0x08, 0x10, 0x20, 0x40, 0xff] {
            bench.put_in_vain(at(4, within), byte);
        }
    }
}

#[test]
fn open_sequence_leaves_reads_and_other_pages_alone() {
    let mut bench = Bench::fresh(1024);
    bench.put(START, 0);
    let reads = [
        0x4000, 0x4008, 0x4010, 0x4014, 0x4018, 0x4019, 0x4020, 0x4024, 0x4028, 0x4f04,
    ];
    let values = reads.map(|offset| bench.get(offset));
    assert_eq!(
        values,
        [0xa0, 0x08, 0x00, 0x95, 0x80, 0x00, 0xff, 0xff, 0xff, 0x55]
    );
    bench.put(0x3000, 0x02);
    assert!(bench.device.waiting[3]);
    bench.put_in_vain(0x3000, 0x08);
    bench.put(0x3000, 0x20);
    assert!(!bench.device.waiting[3]);
}

#[test]
fn last_hash_byte_is_taken_and_the_next_refused() {
    let mut bench = Bench::fresh(1024);
    bench.put(START, 0);
    bench.send(DATA, &vec![0xa5; 1_048_576]);
    let before = bench.clone();
    assert_eq!(bench.write(0x4027, 0), 7);
    assert_eq!(bench, before);
    assert_eq!(bench.write(0x5000, 0), 1);
    bench.put_in_vain(0x4000, 0x20);
    bench.put(END, 0);
    assert_eq!(pcr_17(&bench), "6e9121c753ae3f5d72988b4d6a3380df0e0c03c7");
}
