//! Repeatable random numbers: SplitMix64.

use std::cell::Cell;

/// Shared by whoever draws, so that a draw may stand among a call's arguments.
pub struct Random(Cell<u64>);

impl Random {
    pub fn seeded(seed: u64) -> Random {
        Random(Cell::new(seed))
    }

    /// For the list or capture of this number, which depends on the seed and the number alone.
    pub fn numbered(seed: u64, number: u64) -> Random {
        Random::seeded(seed ^ number.wrapping_mul(0xd134_2543_de82_ef95))
    }

    pub fn next(&self) -> u64 {
        let mut z = self.0.get().wrapping_add(0x9e37_79b9_7f4a_7c15);
        self.0.set(z);
        z = (z ^ (z >> 30)).wrapping_mul(0xbf58_476d_1ce4_e5b9);
        z = (z ^ (z >> 27)).wrapping_mul(0x94d0_49bb_1331_11eb);
        z ^ (z >> 31)
    }

    pub fn below(&self, limit: u64) -> u64 {
        self.next() % limit
    }

    /// One of `from..=to`.
    pub fn within(&self, from: u64, to: u64) -> u64 {
        from + self.below(to - from + 1)
    }

    /// True once in `n` times.
    pub fn once_in(&self, n: u64) -> bool {
        self.below(n) == 0
    }

    pub fn coin(&self) -> bool {
        self.once_in(2)
    }

    pub fn byte(&self) -> u8 {
        self.next() as u8
    }

    pub fn locality(&self) -> u8 {
        self.below(5) as u8
    }

    pub fn bytes(&self, length: usize) -> Vec<u8> {
        (0..length).map(|_| self.byte()).collect()
    }

    pub fn pick<T: Copy>(&self, choices: &[T]) -> T {
        choices[self.below(choices.len() as u64) as usize]
    }
}
