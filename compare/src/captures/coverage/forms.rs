//! What the bytes of the captures were: words, lengths around the limit, bad kinds, bytes over, and damaged heads.

use super::table::Table;
use crate::capture::{Printed, Word, HEAD, MOST_CYCLES};
use crate::captures::parts::Parts;

const WORDS: [(&str, Option<Word>); 5] = [
    ("none", None),
    ("budget", Some(Word::Budget)),
    ("bad kind", Some(Word::BadKind)),
    ("bad tail", Some(Word::BadTail)),
    ("bad head", Some(Word::BadHead)),
];

const COUNTS: [usize; 7] = [0, 1, 9_998, 9_999, 10_000, 10_001, 10_002];

const PLACES: [&str; 5] = [
    "first",
    "later",
    "as record 9,999",
    "as record 10,000",
    "as record 10,001, where budget stands",
];

const BEHIND: [&str; 5] = ["none", "1", "2", "3", "4 or more"];

const TAILS: [&str; 4] = [
    "0 to 3, bad tail",
    "4 to 255, bad tail",
    "0 to 3, budget",
    "4 to 255, budget",
];

const VERSIONS: [&str; 5] = ["0", "2", "256", "257", "another"];

pub struct Forms {
    words: Table,
    /// Whole records and bytes over, where no bad kind stands before the limit.
    counts: Table,
    kinds: Table,
    values: Table,
    second: Table,
    tails: Table,
    cut: Table,
    cut_and_wrong: Table,
    wrong: Table,
    versions: Table,
}

impl Default for Forms {
    fn default() -> Forms {
        let values: Vec<u8> = (4..=u8::MAX).collect();
        Forms {
            words: Table::list("captures by word", &WORDS.map(|(name, _)| name)),
            counts: Table::new("whole records, by bytes over", &COUNTS, &[0, 1, 2, 3]),
            kinds: Table::new(
                "place of the bad kind, by bytes behind it",
                &PLACES,
                &BEHIND,
            ),
            values: Table::list("kinds above 3", &values),
            second: Table::list("bad kinds", &["with another behind it", "with none"]),
            tails: Table::new("bytes over that begin with, by number", &TAILS, &[1, 2, 3]),
            cut: Table::list("bytes of a right head that is cut", &[0, 1, 2, 3, 4]),
            cut_and_wrong: Table::list("bytes of a wrong head that is cut", &[1, 2, 3, 4]),
            wrong: Table::new(
                "only wrong byte of a whole head, by what is behind it",
                &[0, 1, 2, 3, 4],
                &["nothing", "something"],
            ),
            versions: Table::list("wrong version behind a right mark", &VERSIONS),
        }
    }
}

impl Forms {
    pub fn count(&mut self, parts: &Parts, printed: &Printed) {
        let word = WORDS.iter().position(|(_, word)| *word == printed.word);
        self.words.add(word.expect("one of the words"), 0);
        match parts.head == HEAD {
            true => self.count_records(parts),
            false => self.count_head(parts),
        }
    }

    fn count_records(&mut self, parts: &Parts) {
        let bad = |record: &[u8; 4]| record[0] > 3;
        match parts.records.iter().position(bad) {
            Some(place) if place <= MOST_CYCLES => self.count_kind(parts, place),
            _ => self.count_length(parts),
        }
    }

    fn count_kind(&mut self, parts: &Parts, place: usize) {
        let row = match place + 1 {
            1 => 0,
            9_999 => 2,
            10_000 => 3,
            10_001 => 4,
            _ => 1,
        };
        let records = &parts.records[place + 1..];
        let behind = records.len() * 4 + parts.tail.len();
        self.kinds.add(row, behind.min(4));
        // Behind the limit it is no bad kind any more.
        if place < MOST_CYCLES {
            self.values.add(usize::from(parts.records[place][0]) - 4, 0);
            let alone = records.iter().all(|record| record[0] <= 3);
            self.second.add(usize::from(alone), 0);
        }
    }

    fn count_length(&mut self, parts: &Parts) {
        let (count, over) = (parts.records.len(), parts.tail.len());
        if let Some(row) = COUNTS.iter().position(|n| *n == count) {
            self.counts.add(row, over);
        }
        if let (Some(first), true) = (parts.tail.first(), count <= MOST_CYCLES) {
            let budget = count == MOST_CYCLES;
            self.tails
                .add(usize::from(budget) * 2 + usize::from(*first > 3), over - 1);
        }
    }

    fn count_head(&mut self, parts: &Parts) {
        let head = &parts.head;
        let wrong: Vec<usize> = (0..head.len()).filter(|n| head[*n] != HEAD[*n]).collect();
        if head.len() < HEAD.len() {
            match wrong.is_empty() {
                true => self.cut.add(head.len(), 0),
                false => self.cut_and_wrong.add(head.len() - 1, 0),
            }
            return;
        }
        if let [only] = wrong[..] {
            let alone = parts.records.is_empty() && parts.tail.is_empty();
            self.wrong.add(only, usize::from(!alone));
        }
        if wrong[0] >= 3 {
            let version = u16::from_be_bytes([head[3], head[4]]);
            let row = [0, 2, 256, 257].iter().position(|n| *n == version);
            self.versions.add(row.unwrap_or(4), 0);
        }
    }

    fn tables(&self) -> [&Table; 10] {
        [
            &self.words,
            &self.counts,
            &self.kinds,
            &self.second,
            &self.tails,
            &self.cut,
            &self.cut_and_wrong,
            &self.wrong,
            &self.versions,
            &self.values,
        ]
    }

    pub fn print(&self) {
        let [shown @ .., values] = self.tables();
        shown.iter().for_each(|table| table.print());
        values.print_least();
    }

    pub fn missing(&self) -> Vec<String> {
        self.tables().into_iter().flat_map(Table::missing).collect()
    }
}

#[cfg(test)]
mod tests {
    use super::*;
    use crate::capture::{self, edges};

    /// Every cell can come up: the edges leave only values, lengths and mixtures that they do not have.
    #[test]
    fn the_edges_fill_most_of_the_tables() {
        let mut forms = Forms::default();
        let cells: usize = forms.missing().len();
        assert_eq!(cells, 5 + 28 + 25 + 2 + 12 + 5 + 4 + 10 + 5 + 252);
        for edge in edges::all() {
            forms.count(&Parts::of(&edge.capture), &capture::play(&edge.capture));
        }
        let missing = forms.missing();
        for name in [
            "captures by word",
            "place of the bad kind",
            "bytes over that begin",
            "bytes of a right head",
            "only wrong byte",
            "wrong version",
        ] {
            assert!(
                !missing.iter().any(|text| text.starts_with(name)),
                "{missing:?}"
            );
        }
    }

    #[test]
    fn a_capture_counts_where_it_belongs() {
        let mut forms = Forms::default();
        let mut parts = Parts::sound(vec![[0; 4]; 3]);
        parts.records[1][0] = 9;
        parts.tail = vec![7, 7];
        forms.count(&parts, &capture::play(&parts.bytes()));
        let all = Forms::default().missing();
        let came: Vec<&String> = all
            .iter()
            .filter(|name| !forms.missing().contains(name))
            .collect();
        let expected = [
            "captures by word: bad kind",
            "place of the bad kind, by bytes behind it: later 4 or more",
            "bad kinds: with none",
            "kinds above 3: 9",
        ];
        assert_eq!(came, expected);
    }
}
