//! The second reading held to W1's text: the edges, any cycle limit, and every kind, byte and field.

use super::*;

const READ: Record = [0, 0, 0, 0];

fn printed(records: &[Record], tail: &[u8]) -> String {
    play(&[b"LOC\0\x01", records.as_flattened(), tail].concat()).to_string()
}

#[test]
fn each_edge_prints_what_was_written_down() {
    for edge in edges::all() {
        let text = play(&edge.capture).to_string();
        // Not the whole texts: some have 10,000 lines.
        let place = text
            .lines()
            .zip(edge.printed.lines())
            .position(|(a, b)| a != b);
        assert!(text == edge.printed, "{}: line {place:?}", edge.name);
    }
}

/// "Its count is the lesser of that limit and the whole records before the first bad kind."
#[test]
fn the_count_is_the_lesser_of_the_limit_and_the_records_before_a_bad_kind() {
    for (records, bad, over) in (0..6).flat_map(|n| (0..=n).map(move |bad| (n, bad, n % 4))) {
        let mut kinds = vec![READ; records];
        if let Some(record) = kinds.get_mut(bad) {
            record[0] = 4;
        }
        let bytes = [kinds.as_flattened(), &[0xff; 3][..over]].concat();
        for limit in 0..8 {
            let Printed { cycles, word } = play_records(&bytes, limit);
            assert_eq!(cycles.len(), limit.min(bad));
            let expected = match (limit, bad < records, over) {
                _ if limit <= bad && limit * 4 < bytes.len() => Some(Word::Budget),
                (_, true, _) => Some(Word::BadKind),
                (_, false, 0) => None,
                _ => Some(Word::BadTail),
            };
            assert_eq!(
                word, expected,
                "{records} records, bad {bad}, {over} over, {limit}"
            );
        }
    }
}

#[test]
fn every_kind_above_3_stops_it_and_none_below() {
    for kind in 0..=u8::MAX {
        let text = printed(&[READ, [kind, 0, 0, 0], READ], &[]);
        let bad = text == "0 81\nbad kind\ncycles 1\n";
        assert_eq!(bad, kind > 3, "kind {kind}: {text}");
        assert_eq!(text.ends_with("cycles 3\n"), kind <= 3);
        assert_eq!(printed(&[READ], &[kind]), "0 81\nbad tail\ncycles 1\n");
    }
}

#[test]
fn each_byte_is_two_upper_case_digits() {
    for byte in 0..=u8::MAX {
        let one = Printed {
            cycles: vec![(0, byte)],
            word: None,
        };
        let digits = "0123456789ABCDEF".as_bytes();
        let [high, low] = [byte >> 4, byte & 15].map(|n| char::from(digits[usize::from(n)]));
        assert_eq!(one.to_string(), format!("0 {high}{low}\ncycles 1\n"));
    }
}

/// A read's byte, a reset's offset and byte and an answer's byte; offsets and run numbers have their high byte first.
#[test]
fn a_record_makes_the_call_that_its_kind_says() {
    let answer = vec![0x00, 0xc4, 0, 0, 0, 0x0a, 0, 0, 0, 0];
    let offset = 0x1234;
    for byte in [0x00, 0x56, 0xff] {
        let made = |kind| call([kind, 0x12, 0x34, byte]);
        assert_eq!(made(0), Some(Call::Read { offset }));
        assert_eq!(made(1), Some(Call::Write { offset, byte }));
        assert_eq!(made(2), Some(Call::Reset));
        let run = 0x1234;
        let answer = answer.clone();
        assert_eq!(made(3), Some(Call::Respond { run, answer }));
        assert_eq!(made(4), None);
    }
}

#[test]
fn the_device_is_as_w1_has_it() {
    let State {
        device,
        write,
        read,
    } = device();
    assert_eq!((write, read), (vec![0; 1024], vec![0; 1024]));
    assert_eq!((device.established, device.identity), (false, [0; 5]));
    assert_eq!((device.active, device.run), (None, 0));
}
