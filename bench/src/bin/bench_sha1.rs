//! Times the proved SHA-1 and the ordinary one on 1 MiB, in turn, and prints the medians with their ratio.
use std::hint::black_box;
use std::time::Instant;
use yardstick::sha1::{sha1, Sha1};

const RUNS: usize = 31;

// A slice is a pointer and then a length. The proved functions answer false where `out` has not 20 bytes.
#[link(name = "sha1_exports", kind = "static")]
extern "C" {
    fn sha1_at_once(m: *const u8, m_len: usize, out: *mut u8, out_len: usize) -> bool;
    fn sha1_by_byte(m: *const u8, m_len: usize, out: *mut u8, out_len: usize) -> bool;
}

fn proved_at_once(m: &[u8]) -> [u8; 20] {
    let mut out = [0; 20];
    assert!(unsafe { sha1_at_once(m.as_ptr(), m.len(), out.as_mut_ptr(), out.len()) });
    out
}

fn proved_by_byte(m: &[u8]) -> [u8; 20] {
    let mut out = [0; 20];
    assert!(unsafe { sha1_by_byte(m.as_ptr(), m.len(), out.as_mut_ptr(), out.len()) });
    out
}

fn ordinary_by_byte(m: &[u8]) -> [u8; 20] {
    let mut stream = Sha1::new();
    m.iter().for_each(|&byte| stream.push(byte));
    stream.digest()
}

fn seconds(f: fn(&[u8]) -> [u8; 20], m: &[u8]) -> f64 {
    let began = Instant::now();
    black_box(f(black_box(m)));
    began.elapsed().as_secs_f64()
}

fn median(mut times: Vec<f64>) -> f64 {
    times.sort_by(f64::total_cmp);
    times[times.len() / 2]
}

fn compare(name: &str, proved: fn(&[u8]) -> [u8; 20], ordinary: fn(&[u8]) -> [u8; 20], m: &[u8]) {
    assert_eq!(proved(m), ordinary(m), "{name}: the two differ");
    let (mut ours, mut theirs) = (Vec::new(), Vec::new());
    for _ in 0..RUNS {
        ours.push(seconds(proved, m));
        theirs.push(seconds(ordinary, m));
    }
    let (ours, theirs) = (median(ours), median(theirs));
    let mb = m.len() as f64 / 1e6;
    println!(
        "{name:<20}{:>12.0}{:>12.0}{:>10.2}",
        mb / ours,
        mb / theirs,
        ours / theirs
    );
}

fn main() {
    let message: Vec<u8> = (0..1u32 << 20)
        .map(|n| (n.wrapping_mul(2_654_435_761) >> 24) as u8)
        .collect();
    println!("SHA-1 of 1 MiB, median of {RUNS} runs; ratio of times, proved to ordinary");
    println!(
        "{:<20}{:>12}{:>12}{:>10}",
        "", "proved MB/s", "Rust MB/s", "ratio"
    );
    compare("at once", proved_at_once, sha1, &message);
    compare("byte by byte", proved_by_byte, ordinary_by_byte, &message);
}
