//! The offsets at which registers lie, with those between them and one after, and the identity bytes with one on either side.

const PAGES: u64 = 5;
const LOW: u64 = 0x030;
const IDENTITY: std::ops::Range<u64> = 0xeff..0xf06;
const EACH: u64 = LOW + IDENTITY.end - IDENTITY.start;

/// How many they are.
pub const COUNT: usize = (PAGES * EACH) as usize;

pub fn within_a_page() -> impl Iterator<Item = u64> {
    (0..LOW).chain(IDENTITY)
}

pub fn all() -> impl Iterator<Item = u64> {
    (0..PAGES).flat_map(|page| within_a_page().map(move |within| page << 12 | within))
}

/// The place of one among all.
pub fn place(offset: u64) -> Option<usize> {
    let (page, within) = (offset >> 12, offset & 0xfff);
    let place = match within {
        _ if page >= PAGES => return None,
        0..LOW => within,
        _ if IDENTITY.contains(&within) => LOW + within - IDENTITY.start,
        _ => return None,
    };
    Some((page * EACH + place) as usize)
}

#[cfg(test)]
mod tests {
    use super::*;

    #[test]
    fn each_has_its_place() {
        assert_eq!(all().count(), COUNT);
        assert!(all()
            .enumerate()
            .all(|(n, offset)| place(offset) == Some(n)));
        for offset in [0x0030, 0x0efe, 0x0f06, 0x0fff, 0x5000, 1 << 63] {
            assert_eq!(place(offset), None);
        }
    }
}
