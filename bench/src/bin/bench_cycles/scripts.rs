//! The scripts of cycles that are timed.

use yardstick::device::{FIFO_LENGTHS, GREATEST_C};

/// The least and the greatest length of each lent FIFO.
pub const LEAST: usize = *FIFO_LENGTHS.start();
pub const GREATEST: usize = GREATEST_C;

/// Four bytes each: 0 reads, 1 writes, 2 answers; the offset, high byte first; the byte written.
#[derive(Clone)]
pub struct Script {
    pub name: &'static str,
    /// The length of each lent FIFO.
    pub c: usize,
    pub cycles: Vec<u8>,
    pub answer: Vec<u8>,
    /// What one playing of the script counts as.
    pub units: usize,
    pub times: u64,
}

impl Script {
    fn new(name: &'static str, answer: usize, units: usize, times: u64) -> Self {
        Script {
            name,
            c: LEAST,
            cycles: Vec::new(),
            answer: vec![0x5a; answer],
            units,
            times,
        }
    }

    /// The same cycles with FIFOs of c bytes.
    pub fn lent(mut self, c: usize) -> Self {
        self.c = c;
        self
    }

    fn push(mut self, kind: u8, offset: u16, byte: u8, count: usize) -> Self {
        for _ in 0..count {
            self.cycles
                .extend([kind, (offset >> 8) as u8, offset as u8, byte]);
        }
        self
    }

    pub fn read(self, offset: u16, count: usize) -> Self {
        self.push(0, offset, 0, count)
    }

    fn write(self, offset: u16, byte: u8) -> Self {
        self.push(1, offset, byte, 1)
    }

    fn respond(self) -> Self {
        self.push(2, 0, 0, 1)
    }

    /// A command of n bytes, its size in bytes 2 to 5, high byte first.
    fn command(mut self, n: usize) -> Self {
        let mut bytes = vec![0xa5; n];
        bytes[2..6].copy_from_slice(&(n as u32).to_be_bytes());
        for byte in bytes {
            self = self.write(0x0024, byte);
        }
        self
    }

    /// Twice commandReady: the first drops what an earlier playing left.
    fn ready(self) -> Self {
        self.write(0x0000, 0x02)
            .write(0x0018, 0x40)
            .write(0x0018, 0x40)
    }
}

/// A driver's whole command: request, ready, the command, go, the answer read back, ready, release.
fn whole(name: &'static str, n: usize, times: u64) -> Script {
    Script::new(name, n, 1, times)
        .write(0x0000, 0x02)
        .write(0x0018, 0x40)
        .command(n)
        .write(0x0018, 0x20)
        .respond()
        .read(0x0018, 1)
        .read(0x0024, n)
        .write(0x0018, 0x40)
        .write(0x0000, 0x20)
}

fn request_and_release() -> Script {
    Script::new("request and release, one waits", 0, 1, 20_000)
        .write(0x1000, 0x02)
        .write(0x0000, 0x02)
        .write(0x1000, 0x20)
        .write(0x0000, 0x20)
}

/// Single cycles, by the thousand.
fn single() -> Vec<Script> {
    vec![
        Script::new("ACCESS read", 0, 1000, 200)
            .write(0x0000, 0x02)
            .read(0x0000, 1000),
        Script::new("STS read", 0, 1000, 200)
            .ready()
            .read(0x0018, 1000),
        Script::new("FIFO write", 0, LEAST, 200)
            .ready()
            .command(LEAST),
        Script::new("FIFO read", LEAST, LEAST, 200)
            .ready()
            .command(10)
            .write(0x0018, 0x20)
            .respond()
            .read(0x0024, LEAST),
    ]
}

pub fn all() -> Vec<Script> {
    let mut all = single();
    all.extend([
        request_and_release(),
        whole("command of 34 bytes, answered", 34, 2_000),
        whole("command of 64 bytes, answered", 64, 1_000),
        whole("command of 512 bytes, answered", 512, 200),
        whole("command of 1,024 bytes, answered", LEAST, 100),
        whole("command of 4,096 bytes, answered", 4096, 25).lent(GREATEST),
        whole("command of 8,192 bytes, answered", GREATEST, 12).lent(GREATEST),
        Script::new("launch of 1 MiB", 0, 1, 1)
            .write(0x4028, 0)
            .push(1, 0x4024, 0xa5, 1 << 20)
            .write(0x4020, 0),
    ]);
    all
}

/// What is played with FIFOs of the least and of the greatest length: single cycles, and what empties a FIFO.
pub fn at_both_lengths() -> Vec<Script> {
    let mut both = single();
    both.extend([
        Script::new("commandReady drops a command", 0, 1, 20_000)
            .write(0x0000, 0x02)
            .write(0x0018, 0x40)
            .write(0x0024, 0x00)
            .write(0x0018, 0x40),
        request_and_release(),
        whole("command of 34 bytes, answered", 34, 2_000),
        whole("command of 512 bytes, answered", 512, 200),
    ]);
    both
}
