//! Accepted reads of ACCESS, counted for each page by who waits and who is active.

use super::{number, Before};
use crate::scene::{at, ACCESS};
use yardstick::device::LOCALITIES;

/// Who waits and who is active, seen from a page; a record in shape is in exactly one of these.
#[derive(Clone, Copy)]
enum Situation {
    WaitsAlone,
    WaitsWithAnother,
    HoldsWhileAnotherWaits,
    LooksOn,
    NobodyWaits,
}

/// In the order of `Situation`; every page can come into each.
const SITUATIONS: [&str; 5] = [
    "it waits alone",
    "it and another wait",
    "it is active and another waits",
    "another waits and it neither waits nor is active",
    "nobody waits",
];

impl Situation {
    fn of(before: &Before, x: u8) -> Situation {
        let own = before.waiting[usize::from(x)];
        let another = number(&before.waiting) > usize::from(own);
        match (own, another) {
            (true, false) => Situation::WaitsAlone,
            (true, true) => Situation::WaitsWithAnother,
            (false, true) if before.active == Some(x) => Situation::HoldsWhileAnotherWaits,
            (false, true) => Situation::LooksOn,
            (false, false) => Situation::NobodyWaits,
        }
    }
}

#[derive(Default)]
pub struct AccessReads {
    /// By situation, then by page.
    counts: [[u64; LOCALITIES]; SITUATIONS.len()],
}

impl AccessReads {
    /// Takes an accepted read at any offset.
    pub fn count(&mut self, before: &Before, offset: u64) {
        let x = (offset >> 12) as u8;
        if offset == at(x, ACCESS) {
            self.counts[Situation::of(before, x) as usize][usize::from(x)] += 1;
        }
    }

    pub fn print(&self) {
        let pages: String = (0..LOCALITIES).map(|x| format!("{x:>9}")).collect();
        println!("accepted reads of ACCESS by page, while");
        println!("  {:<50}{pages}", "");
        for (name, counts) in SITUATIONS.iter().zip(&self.counts) {
            let row: String = counts.iter().map(|count| format!("{count:>9}")).collect();
            println!("  {name:<50}{row}");
        }
    }

    pub fn missing(&self) -> Vec<String> {
        let mut missing = Vec::new();
        for (name, counts) in SITUATIONS.iter().zip(&self.counts) {
            let absent = (0..LOCALITIES).filter(|x| counts[*x] == 0);
            missing.extend(absent.map(|x| format!("a read of ACCESS in page {x} while {name}")));
        }
        missing
    }
}

#[cfg(test)]
mod tests {
    use super::*;
    use crate::state::State;

    fn before(active: u8, set: u8) -> Before {
        let mut state = State::fresh(1024, 0);
        state.device.active = Some(active);
        state.device.waiting = std::array::from_fn(|y| set & (1 << y) != 0);
        Before::of(&state)
    }

    #[test]
    fn every_page_can_come_into_each_situation() {
        let mut reads = AccessReads::default();
        assert_eq!(reads.missing().len(), 25);
        for (active, set) in (0..5).flat_map(|active| (0..32).map(move |set| (active, set))) {
            let before = before(active, set);
            for x in (0..5).filter(|_| before.in_shape) {
                reads.count(&before, at(x, ACCESS));
            }
        }
        assert_eq!(reads.missing(), Vec::<String>::new());
    }

    #[test]
    fn a_read_counts_for_its_page_and_situation() {
        let mut reads = AccessReads::default();
        for (set, x) in [
            (0b0_1000, 3),
            (0b0_1100, 3),
            (0b0_1100, 1),
            (0b0_1100, 4),
            (0, 0),
        ] {
            reads.count(&before(1, set), at(x, ACCESS));
            reads.count(&before(1, set), at(x, ACCESS + 1));
        }
        let rows = [
            [0, 0, 0, 1, 0],
            [0, 0, 0, 1, 0],
            [0, 1, 0, 0, 0],
            [0, 0, 0, 0, 1],
            [1, 0, 0, 0, 0],
        ];
        assert_eq!(reads.counts, rows);
    }
}
