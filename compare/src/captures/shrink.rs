//! A failing capture made shorter and simpler: cut, made of plain records as far as that goes, then taken to pieces.

use super::parts::Parts;
use crate::capture::{Record, HEAD};
use crate::shrink;
use std::cell::Cell;

/// What all tries may cost together, in records played.
const COST: usize = 4_000_000;

/// What a start of the program costs.
const START: usize = 1000;

/// A read of ACCESS in page 0.
const PLAIN: Record = [0; 4];

#[derive(Clone, Copy, PartialEq)]
enum Part {
    Head,
    Record,
    /// Always there and last, though it may be empty.
    Tail,
}

/// What a capture is a list of; small, since lists of them are copied for every try.
#[derive(Clone, Copy, PartialEq)]
struct Piece {
    part: Part,
    bytes: [u8; HEAD.len()],
    length: u8,
}

impl Piece {
    fn new(part: Part, from: &[u8]) -> Piece {
        let mut bytes = [0; HEAD.len()];
        bytes[..from.len()].copy_from_slice(from);
        let length = from.len() as u8;
        Piece {
            part,
            bytes,
            length,
        }
    }

    fn bytes(&self) -> &[u8] {
        &self.bytes[..usize::from(self.length)]
    }

    /// The first bytes of it, the fewest first.
    fn cut(&self) -> Vec<Piece> {
        let cut = (0..usize::from(self.length)).map(|length| &self.bytes[..length]);
        cut.map(|bytes| Piece::new(self.part, bytes)).collect()
    }
}

fn pieces(parts: &Parts) -> Vec<Piece> {
    let mut pieces = vec![Piece::new(Part::Head, &parts.head)];
    pieces.extend(
        parts
            .records
            .iter()
            .map(|bytes| Piece::new(Part::Record, bytes)),
    );
    pieces.push(Piece::new(Part::Tail, &parts.tail));
    pieces
}

fn bytes(pieces: &[Piece]) -> Vec<u8> {
    pieces.iter().flat_map(Piece::bytes).copied().collect()
}

/// Simpler forms, the simplest first; none leads back.
fn simpler(piece: &Piece) -> Vec<Piece> {
    match piece.part {
        Part::Head if piece.bytes() == HEAD => Vec::new(),
        Part::Head => [vec![Piece::new(Part::Head, &HEAD)], piece.cut()].concat(),
        Part::Record => simpler_records(piece),
        Part::Tail => {
            let zeros = Piece::new(Part::Tail, &[0; 3][..usize::from(piece.length)]);
            [piece.cut(), vec![zeros]].concat()
        }
    }
}

fn simpler_records(piece: &Piece) -> Vec<Piece> {
    let [kind, high, low, byte, _] = piece.bytes;
    let kind = kind.min(4);
    let forms = [
        PLAIN,
        [kind, 0, 0, 0],
        [kind, high, low, 0],
        [kind, high & 0xf0, low, byte],
        [kind, 0, low, byte],
        [kind, high, 0, byte],
        [kind, high, low, byte],
    ];
    let smaller = forms.iter().filter(|form| form[..] < *piece.bytes());
    smaller.map(|form| Piece::new(Part::Record, form)).collect()
}

fn first(records: &[Record], count: usize) -> &[Record] {
    &records[..count]
}

fn last(records: &[Record], count: usize) -> &[Record] {
    &records[records.len() - count..]
}

/// As few of the first or the last records as still fail with the same head and bytes over, by halving.
fn cut(parts: &mut Parts, side: fn(&[Record], usize) -> &[Record], fails: impl Fn(&Parts) -> bool) {
    let mut passes = 0;
    while passes < parts.records.len() {
        let middle = (passes + parts.records.len()) / 2;
        let mut candidate = parts.clone();
        candidate.records = side(&parts.records, middle).to_vec();
        match fails(&candidate) {
            true => *parts = candidate,
            false => passes = middle + 1,
        }
    }
}

/// Plain records in place of all, of half of them, and so on down to single ones, where it still fails.
fn make_plain(parts: &mut Parts, fails: impl Fn(&Parts) -> bool) {
    let count = parts.records.len();
    let mut size = count;
    while size > 0 {
        for from in (0..count).step_by(size) {
            let mut candidate = parts.clone();
            candidate.records[from..count.min(from + size)].fill(PLAIN);
            if candidate != *parts && fails(&candidate) {
                *parts = candidate;
            }
        }
        size /= 2;
    }
}

/// The shortest capture found that `fails`.
pub fn shrink(capture: &[u8], fails: impl Fn(&[u8]) -> bool) -> Vec<u8> {
    let left = Cell::new(COST);
    let affordable = |parts: &Parts| {
        let rest = left.get().checked_sub(START + parts.records.len());
        rest.is_some_and(|rest| {
            left.set(rest);
            fails(&parts.bytes())
        })
    };
    let mut parts = Parts::of(capture);
    cut(&mut parts, first, affordable);
    make_plain(&mut parts, affordable);
    cut(&mut parts, last, affordable);
    let tries = left.get() / (START + parts.records.len());
    // Any piece may be needed, so that none is cut off.
    let failing = |list: &[Piece]| fails(&bytes(list)).then_some(list.len());
    bytes(&shrink::shrink(&pieces(&parts), tries, simpler, failing))
}

#[cfg(test)]
mod tests {
    use super::*;
    use crate::random::Random;

    #[test]
    fn a_capture_is_its_pieces() {
        let random = Random::seeded(1);
        for length in 0..40 {
            let capture = random.bytes(length);
            assert_eq!(bytes(&pieces(&Parts::of(&capture))), capture);
        }
    }

    #[test]
    fn simpler_forms_never_lead_back() {
        let random = Random::seeded(1);
        for n in 0..300 {
            let part = [Part::Head, Part::Record, Part::Tail][n % 3];
            let length = [n % 6, 4, n % 4][n % 3];
            let mut piece = Piece::new(part, &random.bytes(length));
            let mut steps = 0;
            while let Some(form) = simpler(&piece).into_iter().rfind(|form| *form != piece) {
                piece = form;
                steps += 1;
                assert!(steps < 20);
            }
        }
    }

    /// Fails where a write at an offset above 4FFF stands before a bad tail.
    #[test]
    fn a_long_capture_shrinks_to_what_matters() {
        let random = Random::seeded(1);
        let mut parts = Parts::sound(vec![[0, 0x12, 0x34, 0x56]; 300]);
        parts.records[70] = [1, 0x5a, 0xbc, 0xde];
        parts.tail = random.bytes(3);
        let fails = |capture: &[u8]| {
            let parts = Parts::of(capture);
            let refused = |record: &Record| record[0] == 1 && record[1] >= 0x50;
            parts.head == HEAD && parts.records.iter().any(refused) && !parts.tail.is_empty()
        };
        let mut shortest = Parts::sound(vec![[1, 0x50, 0, 0]]);
        shortest.tail = vec![0];
        assert_eq!(shrink(&parts.bytes(), fails), shortest.bytes());
    }

    /// Fails where a bad kind stands behind 10,000 records.
    #[test]
    fn where_the_length_matters_the_records_are_plain() {
        let mut parts = Parts::sound(vec![[1, 0x40, 0x24, 0x77]; 30_000]);
        parts.records[12_345][0] = 0x99;
        let fails = |capture: &[u8]| {
            let parts = Parts::of(capture);
            let bad = parts.records.iter().position(|record| record[0] > 3);
            bad.is_some_and(|place| place >= 10_000)
        };
        let found = Parts::of(&shrink(&parts.bytes(), fails));
        assert_eq!(found.records.len(), 10_001);
        assert!(found.records[..10_000]
            .iter()
            .all(|record| *record == PLAIN));
    }

    #[test]
    fn a_bad_head_shrinks_to_its_first_bytes() {
        let capture = b"LOX\0\x01 and more behind it";
        let fails = |capture: &[u8]| capture.starts_with(b"LOX");
        assert_eq!(shrink(capture, fails), b"LOX");
    }
}
