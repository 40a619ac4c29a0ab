//! `messages SEED COUNT DIR` writes random messages for comparing SHA-1: each as a file, and all as one stream.
//!
//! DIR/00000.bin and so on hold the messages; DIR/stream holds each as a 16-bit length, high byte first, and its bytes.
use std::{env, fs, path::Path, process};

/// Lengths at which the padding changes, and the least and the greatest; they come first.
const FORCED: [usize; 10] = [0, 55, 56, 63, 64, 65, 119, 120, 128, 4096];

/// SplitMix64.
struct Random(u64);

impl Random {
    fn next(&mut self) -> u64 {
        self.0 = self.0.wrapping_add(0x9e37_79b9_7f4a_7c15);
        let mut z = self.0;
        z = (z ^ (z >> 30)).wrapping_mul(0xbf58_476d_1ce4_e5b9);
        z = (z ^ (z >> 27)).wrapping_mul(0x94d0_49bb_1331_11eb);
        z ^ (z >> 31)
    }
}

fn write(path: &Path, bytes: &[u8]) {
    if let Err(error) = fs::write(path, bytes) {
        eprintln!("messages: {}: {error}", path.display());
        process::exit(1);
    }
}

fn main() {
    let words: Vec<String> = env::args().skip(1).collect();
    let [seed, count, folder] = words.as_slice() else {
        eprintln!("usage: messages SEED COUNT DIR");
        process::exit(2);
    };
    let (Ok(seed), Ok(count)) = (seed.parse(), count.parse::<usize>()) else {
        eprintln!("messages: SEED and COUNT are numbers");
        process::exit(2);
    };
    let folder = Path::new(folder);
    let mut random = Random(seed);
    let mut stream = Vec::new();
    for n in 0..count {
        let length = FORCED
            .get(n)
            .copied()
            .unwrap_or_else(|| (random.next() % 4097) as usize);
        let message: Vec<u8> = (0..length).map(|_| random.next() as u8).collect();
        write(&folder.join(format!("{n:06}.bin")), &message);
        stream.extend_from_slice(&(length as u16).to_be_bytes());
        stream.extend_from_slice(&message);
    }
    write(&folder.join("stream"), &stream);
}
