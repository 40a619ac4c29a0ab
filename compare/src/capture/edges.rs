//! Captures at the edges of W1, each with what it prints, written down by hand.

use super::Record;
use crate::turn::hex;

pub struct Edge {
    pub name: String,
    pub capture: Vec<u8>,
    pub printed: String,
}

/// As the whole case spells it, not as the reading has it.
const HEAD: [u8; 5] = [0x4c, 0x4f, 0x43, 0x00, 0x01];

/// ACCESS of page 0, which a device that nobody asked for gives as 81h.
const READ: Record = [0, 0, 0, 0];
const BAD: Record = [4, 0, 0, 0];
const MANY: usize = 10_000;

fn edge(name: &str, records: &[Record], tail: &[u8], printed: &str) -> Edge {
    let capture = [&HEAD, records.as_flattened(), tail].concat();
    Edge {
        name: name.to_string(),
        capture,
        printed: printed.to_string(),
    }
}

/// So many reads, then these bytes, and what comes after the lines of the reads that are played.
fn reads(records: usize, behind: &[u8], played: usize, end: &str) -> Edge {
    let name = format!("{records} reads, then {}", hex(behind));
    let printed = format!("{}{end}cycles {played}\n", "0 81\n".repeat(played));
    edge(&name, &vec![READ; records], behind, &printed)
}

/// The whole case that W1 spells out.
fn whole_case() -> Edge {
    let records = [READ, [1, 0, 0, 2], READ, [0, 0x50, 0, 0]];
    let printed = "0 81\n0 FF\n0 A1\n1 FF\ncycles 4\n";
    edge("the whole case", &records, &[], printed)
}

/// The first counts, and those around the limit, with nothing over and with one to five bytes.
fn counts() -> Vec<Edge> {
    let sound = [0, 1, 2, MANY - 1, MANY].map(|n| reads(n, &[], n, ""));
    let over = [0x00, 0x04, 0xff]
        .into_iter()
        .flat_map(|byte| (1..=5).map(move |over| reads(MANY, &vec![byte; over], MANY, "budget\n")));
    let beyond = [1, 2, MANY].map(|more| reads(MANY + more, &[], MANY, "budget\n"));
    sound.into_iter().chain(over).chain(beyond).collect()
}

/// One to three bytes over, of every beginning.
fn tails() -> Vec<Edge> {
    let tail = |records: usize, first: u8, length: usize| {
        let mut bytes = vec![0x4c; length];
        bytes[0] = first;
        reads(records, &bytes, records, "bad tail\n")
    };
    let each = [0, 1, 2, 3, 4, 5, 0x80, 0xff]
        .into_iter()
        .flat_map(move |first| (1..=3).map(move |length| (first, length)));
    let few = [0, 1, 2].into_iter().flat_map({
        let each = each.clone();
        move |records| {
            each.clone()
                .map(move |(first, length)| tail(records, first, length))
        }
    });
    let many = each.filter(|(first, _)| [0, 0xff].contains(first));
    few.chain(many.map(|(first, length)| tail(MANY - 1, first, length)))
        .collect()
}

/// A bad kind first, later and around the limit, with nothing behind it and with one byte or more.
fn kinds() -> Vec<Edge> {
    let mut edges = Vec::new();
    for kind in [4, 5, 7, 0x80, 0x81, 0xfc, 0xff] {
        for behind in 0..=5 {
            // Sound records, as far as there are four bytes.
            let bytes = [vec![kind, 0, 0, 0], vec![0; behind]].concat();
            edges.extend([0, 1, 3].map(|n| reads(n, &bytes, n, "bad kind\n")));
        }
    }
    for behind in 0..=5 {
        let bytes = [BAD.to_vec(), vec![0; behind]].concat();
        edges.push(reads(MANY - 2, &bytes, MANY - 2, "bad kind\n"));
        edges.push(reads(MANY - 1, &bytes, MANY - 1, "bad kind\n"));
        edges.push(reads(MANY, &bytes, MANY, "budget\n"));
    }
    edges.push(reads(1, BAD.repeat(2).as_slice(), 1, "bad kind\n"));
    let more = [BAD.to_vec(), READ.repeat(MANY + 1)].concat();
    edges.push(reads(1, &more, 1, "bad kind\n"));
    edges
}

/// A head that is short or wrong, alone and with a record behind it.
fn heads() -> Vec<Edge> {
    let mut heads: Vec<Vec<u8>> = (0..HEAD.len()).map(|cut| HEAD[..cut].to_vec()).collect();
    let whole = |head: [u8; 5]| [head.to_vec(), [&head[..], &READ].concat()];
    for (place, flip) in (0..HEAD.len()).flat_map(|n| [1, 0x20, 0x80].map(|flip| (n, flip))) {
        let mut head = HEAD;
        head[place] ^= flip;
        heads.extend(whole(head));
    }
    for version in [0_u16, 2, 256, 257, u16::MAX] {
        let [high, low] = version.to_be_bytes();
        heads.extend(whole([0x4c, 0x4f, 0x43, high, low]));
    }
    heads.extend(whole(*b"loc\0\x01"));
    heads.extend(whole(*b"COL\0\x01"));
    let bad = |head: Vec<u8>| Edge {
        name: format!("the head {}", hex(&head)),
        capture: head,
        printed: "bad head\n".to_string(),
    };
    heads.into_iter().map(bad).collect()
}

/// Each refusal that a record can get, with the last offset that is accepted, and refused records counted.
fn refusals() -> Vec<Edge> {
    let records = [
        [0, 0x4f, 0xff, 0],
        [0, 0x50, 0x00, 0],
        [0, 0xff, 0xff, 0xaa],
        [1, 0x4f, 0xff, 0xff],
        [1, 0x50, 0x00, 2],
        [1, 0xff, 0xff, 2],
        [2, 0x50, 0x00, 0xff],
        [3, 0x00, 0x00, 0],
        [3, 0xff, 0xff, 0xff],
    ];
    let lines = [
        "0 FF", "1 FF", "1 FF", "0 FF", "1 FF", "1 FF", "0 FF", "3 FF", "3 FF",
    ];
    let printed = format!("{}\ncycles 9\n", lines.join("\n"));
    let refused = [[0, 0x50, 0, 0], [1, 0x50, 0, 0], [3, 0, 1, 0], [3, 0, 0, 0]];
    let printed_many = format!(
        "{}budget\ncycles 10000\n",
        "1 FF\n1 FF\n3 FF\n3 FF\n".repeat(MANY / 4)
    );
    vec![
        edge("refusals", &records, &[], &printed),
        edge(
            "10,000 refused",
            &refused.repeat(MANY / 4),
            &[0],
            &printed_many,
        ),
    ]
}

/// A request by page 0, commandReady, a command of ten bytes, and go.
const RUN: [Record; 13] = [
    [1, 0x00, 0x00, 0x02],
    [1, 0x00, 0x18, 0x40],
    [1, 0x00, 0x24, 0x00],
    [1, 0x00, 0x24, 0xc1],
    [1, 0x00, 0x24, 0x00],
    [1, 0x00, 0x24, 0x00],
    [1, 0x00, 0x24, 0x00],
    [1, 0x00, 0x24, 0x0a],
    [1, 0x00, 0x24, 0x00],
    [1, 0x00, 0x24, 0x00],
    [1, 0x00, 0x24, 0x00],
    [1, 0x00, 0x24, 0x65],
    [1, 0x00, 0x18, 0x20],
];

/// A run answered with wrong numbers and with its own, the answer read to its end, and its number used again.
fn answered() -> Edge {
    let wrong = [[3, 0, 0, 0], [3, 1, 0, 0], [3, 1, 1, 0], [3, 0, 2, 0]];
    let sts = [0, 0x00, 0x18, 0];
    let fifo = [0, 0x00, 0x24, 0];
    let right = [3, 0, 1, 0x5a];
    let records = [
        &RUN[..],
        &wrong,
        &[sts, right, sts],
        &[fifo; 11],
        &[sts, right],
    ]
    .concat();
    let printed = [
        &"0 FF\n".repeat(13),
        &"3 FF\n".repeat(4),
        "0 80\n0 FF\n0 90\n",
        "0 00\n0 C4\n0 00\n0 00\n0 00\n0 0A\n0 00\n0 00\n0 00\n0 00\n0 FF\n",
        "0 80\n3 FF\ncycles 33\n",
    ]
    .concat();
    edge("a run and its answer", &records, &[], &printed)
}

/// A reset in Execution keeps the run number, so that the next run is number 2 and only its answer is taken.
fn reset() -> Edge {
    let sts = [0, 0x00, 0x18, 0];
    let records = [
        &RUN[..],
        &[sts, [2, 0x12, 0x34, 0x56], READ, [3, 0, 1, 0]],
        &RUN,
        &[[3, 0, 1, 0], [3, 0, 2, 0], sts],
    ]
    .concat();
    let printed = [
        &"0 FF\n".repeat(13),
        "0 80\n0 FF\n0 81\n3 FF\n",
        &"0 FF\n".repeat(13),
        "3 FF\n0 FF\n0 90\ncycles 33\n",
    ]
    .concat();
    edge("a reset between two runs", &records, &[], &printed)
}

/// A launch: 4 is active while it lasts, established from then on, over a reset too; identity all 0.
fn launch() -> Edge {
    let records = [
        [1, 0x40, 0x28, 0],
        [1, 0x40, 0x24, 0x61],
        [0, 0x40, 0x00, 0],
        [1, 0x40, 0x20, 0],
        [0, 0x40, 0x00, 0],
        [2, 0, 0, 0],
        READ,
        [0, 0x0f, 0x00, 0],
        [0, 0x4f, 0x04, 0],
    ];
    let printed = "0 FF\n0 FF\n0 A0\n0 FF\n0 80\n0 FF\n0 80\n0 00\n0 00\ncycles 9\n";
    edge("a launch and a reset", &records, &[], printed)
}

/// C is 1,024: a command that declares 1,025 bytes is full after 1,024, and is answered 19h.
fn full() -> Edge {
    let sts = [0, 0x00, 0x18, 0];
    let mut records = RUN[..6].to_vec();
    records.extend([[1, 0x00, 0x24, 0x04], [1, 0x00, 0x24, 0x01]]);
    records.extend(vec![[1, 0x00, 0x24, 0xee]; 1017]);
    records.extend([sts, [0, 0x00, 0x19, 0], [1, 0x00, 0x24, 0xee], sts]);
    records.extend([[1, 0x00, 0x18, 0x20], sts]);
    records.extend([[0, 0x00, 0x24, 0]; 10]);
    let printed = [
        &"0 FF\n".repeat(1025),
        "0 88\n0 01\n0 FF\n0 80\n0 FF\n0 90\n",
        "0 00\n0 C4\n0 00\n0 00\n0 00\n0 0A\n0 00\n0 00\n0 00\n0 19\ncycles 1041\n",
    ]
    .concat();
    edge(
        "a command that declares 1,025 bytes",
        &records,
        &[],
        &printed,
    )
}

pub fn all() -> Vec<Edge> {
    let mut edges = vec![whole_case()];
    edges.extend(heads());
    edges.extend(refusals());
    edges.extend([answered(), reset(), launch(), full()]);
    edges.extend(tails());
    edges.extend(kinds());
    edges.extend(counts());
    edges
}
