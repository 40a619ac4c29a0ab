//! Handovers, counted by what made them and by the set of localities that waited.

use super::Before;
use yardstick::device::LOCALITIES;

const SETS: usize = 1 << LOCALITIES;

/// What makes the device pass on.
#[derive(Clone, Copy)]
pub enum By {
    Release,
    HashEnd,
}

/// In the order of `By`.
const WAYS: [&str; 2] = ["a release", "a hash end"];

impl By {
    /// The active locality does not wait, so all five never do; at a hash end locality 4 is the active one.
    fn can_meet(self, set: usize) -> bool {
        match self {
            By::Release => set != SETS - 1,
            By::HashEnd => set < 1 << 4,
        }
    }

    fn sets(self) -> impl Iterator<Item = usize> {
        (0..SETS).filter(move |set| self.can_meet(*set))
    }
}

#[derive(Default)]
pub struct Handovers {
    /// By what made it, then by set: locality y waits if bit y is set.
    counts: [[u64; SETS]; WAYS.len()],
}

impl Handovers {
    pub fn count(&mut self, before: &Before, by: By) {
        let waiting = before.waiting.iter().enumerate();
        let set: usize = waiting.map(|(y, waits)| usize::from(*waits) << y).sum();
        self.counts[by as usize][set] += 1;
    }

    pub fn print(&self) {
        for by in [By::Release, By::HashEnd] {
            let counts = &self.counts[by as usize];
            let least = by.sets().map(|set| counts[set]).min().unwrap_or(0);
            let (way, sets) = (WAYS[by as usize], by.sets().count());
            println!("  handovers by {way}: {least} times or more with each of {sets} sets of localities waiting");
        }
    }

    pub fn missing(&self) -> Vec<String> {
        let mut missing = Vec::new();
        for by in [By::Release, By::HashEnd] {
            let absent = by.sets().filter(|set| self.counts[by as usize][*set] == 0);
            let way = WAYS[by as usize];
            missing.extend(absent.map(|set| format!("{way} while the set {set:05b} waits")));
        }
        missing
    }
}

#[cfg(test)]
mod tests {
    use super::*;
    use crate::state::State;

    fn before(set: usize) -> Before {
        let mut state = State::fresh(1024, 0);
        state.device.waiting = std::array::from_fn(|y| set & (1 << y) != 0);
        Before::of(&state)
    }

    #[test]
    fn each_set_is_wanted_of_each_way_that_can_meet_it() {
        let mut handovers = Handovers::default();
        assert_eq!(handovers.missing().len(), 31 + 16);
        for set in 0..SETS {
            handovers.count(&before(set), By::Release);
        }
        let missing = handovers.missing();
        assert_eq!(missing.len(), 16);
        assert_eq!(missing[5], "a hash end while the set 00101 waits");
    }

    #[test]
    fn a_handover_counts_for_its_set() {
        let mut handovers = Handovers::default();
        handovers.count(&before(0b1_0010), By::Release);
        handovers.count(&before(0b0_0010), By::HashEnd);
        assert_eq!(handovers.counts[0][0b1_0010], 1);
        assert_eq!(handovers.counts[1][0b0_0010], 1);
        assert_eq!(handovers.counts.as_flattened().iter().sum::<u64>(), 2);
    }
}
