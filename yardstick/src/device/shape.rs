//! The shape rule: which records the calls may work on.

use super::pages::HASH_LOCALITY;
use super::{Device, Phase, LOCALITIES, MOST_HASH_BYTES};

/// The least length of a command that runs and of an answer: a TPM header.
pub(super) const HEADER: usize = 10;

impl Device {
    /// Whether the record is in shape for FIFOs of length `capacity`.
    ///
    /// An undefined flag cannot be set here: every flag of the record is a `bool` of its own.
    #[inline]
    pub(super) fn in_shape(&self, capacity: usize) -> bool {
        self.holders_in_shape() && self.phase_in_shape(capacity) && self.hash_in_shape()
    }

    #[inline]
    fn holders_in_shape(&self) -> bool {
        match self.active {
            None => self.waiting == [false; LOCALITIES],
            Some(active) => self.waiting.get(usize::from(active)) == Some(&false),
        }
    }

    #[inline]
    fn phase_in_shape(&self, capacity: usize) -> bool {
        let counts_fit = match self.phase {
            Phase::Idle => return true,
            Phase::Ready => true,
            Phase::Reception(received) => (1..=capacity).contains(&usize::from(received)),
            Phase::Execution(received) => (HEADER..=capacity).contains(&usize::from(received)),
            Phase::Completion(length, read) => {
                (HEADER..=capacity).contains(&usize::from(length)) && read <= length
            }
        };
        counts_fit && self.active.is_some() && !self.hash.open
    }

    #[inline]
    fn hash_in_shape(&self) -> bool {
        if self.hash.open {
            self.is_active(HASH_LOCALITY) && self.hash.stream.count <= MOST_HASH_BYTES
        } else {
            self.hash.stream.count == 0
        }
    }
}
