//! A capture taken apart: five bytes of head, records of four bytes, and the bytes over.

use crate::capture::{Record, HEAD};

#[derive(Clone, Debug, PartialEq, Eq)]
pub struct Parts {
    /// Fewer than five bytes only if nothing is behind them.
    pub head: Vec<u8>,
    pub records: Vec<Record>,
    pub tail: Vec<u8>,
}

impl Parts {
    /// A sound capture.
    pub fn sound(records: Vec<Record>) -> Parts {
        Parts {
            head: HEAD.to_vec(),
            records,
            tail: Vec::new(),
        }
    }

    pub fn of(capture: &[u8]) -> Parts {
        let (head, rest) = capture.split_at(HEAD.len().min(capture.len()));
        let (records, tail) = rest.as_chunks();
        Parts {
            head: head.to_vec(),
            records: records.to_vec(),
            tail: tail.to_vec(),
        }
    }

    pub fn bytes(&self) -> Vec<u8> {
        [&self.head, self.records.as_flattened(), &self.tail].concat()
    }
}
