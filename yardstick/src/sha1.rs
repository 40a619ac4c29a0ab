//! SHA-1 of FIPS 180-4 as a stream whose whole state is three plain fields.

/// Bytes in one message block.
pub const BLOCK: usize = 64;

/// Bytes in a digest.
pub const DIGEST: usize = 20;

/// Where the 64-bit message length sits in the last block.
const LENGTH_AT: usize = BLOCK - 8;

/// FIPS 180-4, 5.3.1.
const INITIAL: [u32; 5] = [0x67452301, 0xefcdab89, 0x98badcfe, 0x10325476, 0xc3d2e1f0];

/// A SHA-1 computation under way.
///
/// `count` is 32 bits wide because the device takes at most 2^20 bytes; messages of 2^32 bytes
/// or more are outside this type.
#[derive(Clone, Copy, Debug, PartialEq, Eq)]
pub struct Sha1 {
    /// Chaining words after every whole block so far.
    pub chaining: [u32; 5],
    /// The `count % 64` bytes that do not fill a block yet, zeros behind them.
    pub tail: [u8; BLOCK],
    /// Message bytes taken so far.
    pub count: u32,
}

impl Sha1 {
    /// No stream at all, as against an empty one.
    pub const BLANK: Sha1 = Sha1 {
        chaining: [0; 5],
        tail: [0; BLOCK],
        count: 0,
    };

    /// A stream with no bytes yet.
    pub fn new() -> Sha1 {
        Sha1 {
            chaining: INITIAL,
            ..Sha1::BLANK
        }
    }

    /// Takes one byte, which is what the hash data port delivers.
    #[inline]
    pub fn push(&mut self, byte: u8) {
        let at = self.tail_length();
        self.tail[at] = byte;
        self.count = self.count.wrapping_add(1);
        if at == BLOCK - 1 {
            compress(&mut self.chaining, &self.tail);
            self.tail = [0; BLOCK];
        }
    }

    /// Takes many bytes; whole blocks are compressed where they lie.
    pub fn update(&mut self, mut bytes: &[u8]) {
        while self.tail_length() != 0 {
            let Some((&first, rest)) = bytes.split_first() else {
                return;
            };
            self.push(first);
            bytes = rest;
        }
        let (blocks, rest) = bytes.as_chunks::<BLOCK>();
        for block in blocks {
            compress(&mut self.chaining, block);
        }
        self.tail[..rest.len()].copy_from_slice(rest);
        self.count = self.count.wrapping_add(bytes.len() as u32);
    }

    /// The digest of the bytes taken so far.
    pub fn digest(&self) -> [u8; DIGEST] {
        let mut chaining = self.chaining;
        let mut last = self.tail;
        let at = self.tail_length();
        // Written over rather than assumed: a caller's record may hold anything behind the tail.
        last[at] = 0x80;
        last[at + 1..].fill(0);
        if at >= LENGTH_AT {
            compress(&mut chaining, &last);
            last = [0; BLOCK];
        }
        let bits = u64::from(self.count) * 8;
        last[LENGTH_AT..].copy_from_slice(&bits.to_be_bytes());
        compress(&mut chaining, &last);
        to_bytes(chaining)
    }

    #[inline]
    fn tail_length(&self) -> usize {
        self.count as usize % BLOCK
    }
}

impl Default for Sha1 {
    fn default() -> Self {
        Sha1::new()
    }
}

/// The digest of one message.
pub fn sha1(message: &[u8]) -> [u8; DIGEST] {
    let mut stream = Sha1::new();
    stream.update(message);
    stream.digest()
}

fn to_bytes(words: [u32; 5]) -> [u8; DIGEST] {
    let mut bytes = [0; DIGEST];
    for (out, word) in bytes.chunks_exact_mut(4).zip(words) {
        out.copy_from_slice(&word.to_be_bytes());
    }
    bytes
}

/// FIPS 180-4, 6.1.2: one block into the chaining words.
fn compress(chaining: &mut [u32; 5], block: &[u8; BLOCK]) {
    let schedule = schedule(block);
    let (ch, rest) = schedule.split_at(20);
    let (parity, rest) = rest.split_at(20);
    let (maj, parity_again) = rest.split_at(20);

    let state = *chaining;
    let state = rounds(state, ch, 0x5a827999, |b, c, d| d ^ (b & (c ^ d)));
    let state = rounds(state, parity, 0x6ed9eba1, |b, c, d| b ^ c ^ d);
    let state = rounds(state, maj, 0x8f1bbcdc, |b, c, d| (b & c) | (d & (b | c)));
    let state = rounds(state, parity_again, 0xca62c1d6, |b, c, d| b ^ c ^ d);

    for (word, addend) in chaining.iter_mut().zip(state) {
        *word = word.wrapping_add(addend);
    }
}

#[inline(always)]
fn schedule(block: &[u8; BLOCK]) -> [u32; 80] {
    let mut words = [0; 80];
    for (word, bytes) in words.iter_mut().zip(block.as_chunks::<4>().0) {
        *word = u32::from_be_bytes(*bytes);
    }
    for t in 16..80 {
        words[t] = (words[t - 3] ^ words[t - 8] ^ words[t - 14] ^ words[t - 16]).rotate_left(1);
    }
    words
}

/// Twenty rounds that share a constant and a function.
#[inline(always)]
fn rounds(
    [mut a, mut b, mut c, mut d, mut e]: [u32; 5],
    words: &[u32],
    constant: u32,
    mix: impl Fn(u32, u32, u32) -> u32,
) -> [u32; 5] {
    for word in words {
        let next = a
            .rotate_left(5)
            .wrapping_add(mix(b, c, d))
            .wrapping_add(e)
            .wrapping_add(constant)
            .wrapping_add(*word);
        (a, b, c, d, e) = (next, a, b.rotate_left(30), c, d);
    }
    [a, b, c, d, e]
}

#[cfg(test)]
mod tests {
    use super::*;

    fn hex(bytes: [u8; DIGEST]) -> String {
        bytes.iter().map(|byte| format!("{byte:02x}")).collect()
    }

    #[test]
    fn published_vectors() {
        let vectors: [(&[u8], &str); 4] = [
            (b"", "da39a3ee5e6b4b0d3255bfef95601890afd80709"),
            (b"abc", "a9993e364706816aba3e25717850c26c9cd0d89d"),
            (
                b"abcdbcdecdefdefgefghfghighijhijkijkljklmklmnlmnomnopnopq",
                "84983e441c3bd26ebaae4aa1f95129e5e54670f1",
            ),
            (
                b"abcdefghbcdefghicdefghijdefghijkefghijklfghijklmghijklmn\
                  hijklmnoijklmnopjklmnopqklmnopqrlmnopqrsmnopqrstnopqrstu",
                "a49b2446a02c645bf419f995b67091253a04a259",
            ),
        ];
        for (message, digest) in vectors {
            assert_eq!(hex(sha1(message)), digest);
        }
    }

    #[test]
    fn a_million_times_a() {
        let digest = hex(sha1(&vec![b'a'; 1_000_000]));
        assert_eq!(digest, "34aa973cd4c4daa4f61eeb2bdbad27316534016f");
    }

    #[test]
    fn pushes_and_pieces_end_in_the_same_state() {
        let message: Vec<u8> = (0..300u32).map(|n| (n * 7 + 3) as u8).collect();
        for length in 0..message.len() {
            let mut pushed = Sha1::new();
            message[..length].iter().for_each(|byte| pushed.push(*byte));
            for cut in [0, 1, 63, 64, 65, 128, 200] {
                let (front, back) = message[..length].split_at(cut.min(length));
                let mut pieces = Sha1::new();
                pieces.update(front);
                pieces.update(back);
                assert_eq!(pieces, pushed);
            }
            assert!(pushed.tail[length % BLOCK..].iter().all(|byte| *byte == 0));
        }
    }

    #[test]
    fn bytes_behind_the_tail_do_not_count() {
        let mut stream = Sha1::new();
        stream.update(b"abc");
        stream.tail[3..].fill(0x5a);
        assert_eq!(stream.digest(), sha1(b"abc"));
    }
}
