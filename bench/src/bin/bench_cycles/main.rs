//! Times bus cycles of the proved front beside the yardstick's, in turn, and prints the medians with their ratio and its spread.
//!
//! Both play the same script of cycles over and over on a device of their own, and both give a sum of what they read and were refused, which
//! has to be the same. A second table has what the length of the FIFOs costs. `bench_cycles same` looks at the sums and times nothing.
//! `bench_cycles once NAME C proved|ordinary N` plays one script N times with FIFOs of C bytes and prints the sum: a tracer's way in.
mod scripts;

use scripts::{Script, GREATEST, LEAST};
use std::hint::black_box;
use std::process;
use std::time::Instant;
use yardstick::Device;

const RUNS: usize = 31;

#[link(name = "tis_exports", kind = "static")]
extern "C" {
    // A slice is a pointer and then a length.
    fn tis_play(
        script: *const u8,
        script_len: usize,
        answer: *const u8,
        answer_len: usize,
        write_fifo: *mut u8,
        write_fifo_len: usize,
        read_fifo: *mut u8,
        read_fifo_len: usize,
        times: u64,
    ) -> u64;
}

fn proved(s: &Script, times: u64) -> u64 {
    let (mut w, mut r) = (vec![0; s.c], vec![0; s.c]);
    unsafe {
        tis_play(
            s.cycles.as_ptr(),
            s.cycles.len(),
            s.answer.as_ptr(),
            s.answer.len(),
            w.as_mut_ptr(),
            w.len(),
            r.as_mut_ptr(),
            r.len(),
            times,
        )
    }
}

fn ordinary(s: &Script, times: u64) -> u64 {
    let (mut w, mut r) = (vec![0; s.c], vec![0; s.c]);
    let (_, mut device) = Device::power_on(false, [0; 5], &mut w, &mut r);
    let mut sum = 0u64;
    for _ in 0..times {
        for cycle in s.cycles.chunks_exact(4) {
            let offset = u64::from(u16::from_be_bytes([cycle[1], cycle[2]]));
            let said = match cycle[0] {
                0 => device.read(&w, &r, offset).1,
                1 => device.write(&mut w, &mut r, offset, cycle[3]) as u8,
                _ => device.respond(&mut w, &mut r, device.run, &s.answer) as u8,
            };
            sum = sum.wrapping_add(u64::from(said));
        }
    }
    sum
}

type Play = fn(&Script, u64) -> u64;

fn seconds(play: Play, s: &Script) -> f64 {
    let began = Instant::now();
    black_box(play(black_box(s), s.times));
    began.elapsed().as_secs_f64()
}

/// Two plays in turn, so that both meet the same machine: nanoseconds for each unit.
fn in_turn(first: (Play, &Script), second: (Play, &Script)) -> Vec<(f64, f64)> {
    let each =
        |(play, s): (Play, &Script)| seconds(play, s) * 1e9 / (s.units as f64 * s.times as f64);
    (0..RUNS).map(|_| (each(first), each(second))).collect()
}

/// Median, and the middle half: a quarter of the values lies below it and a quarter above.
struct Spread {
    low: f64,
    median: f64,
    high: f64,
}

impl Spread {
    fn of(values: impl Iterator<Item = f64>) -> Self {
        let mut values: Vec<f64> = values.collect();
        values.sort_by(f64::total_cmp);
        let n = values.len();
        Spread {
            low: values[n / 4],
            median: values[n / 2],
            high: values[n - 1 - n / 4],
        }
    }
}

/// The script followed by reads that show what it left: writes alone show only that they were accepted.
fn probed(s: &Script) -> Script {
    const SHOWN: [u16; 7] = [0x000, 0x008, 0x010, 0x018, 0x019, 0x01a, 0x024];
    let mut probe = s.clone();
    for page in 0..5 {
        for within in SHOWN {
            probe = probe.read(page << 12 | within, 1);
        }
    }
    probe
}

fn same(s: &Script) {
    let s = probed(s);
    let (ours, theirs) = (proved(&s, s.times), ordinary(&s, s.times));
    assert_eq!(ours, theirs, "{}: the two differ", s.name);
}

fn compare(s: &Script) {
    same(s);
    let times = in_turn((proved, s), (ordinary, s));
    let ratio = Spread::of(times.iter().map(|(ours, theirs)| ours / theirs));
    println!(
        "| {} | {:.1} | {:.1} | {:.2} | {:.2} to {:.2} |",
        s.name,
        Spread::of(times.iter().map(|(ours, _)| *ours)).median,
        Spread::of(times.iter().map(|(_, theirs)| *theirs)).median,
        ratio.median,
        ratio.low,
        ratio.high
    );
}

fn compare_all() {
    println!(
        "Medians of {RUNS} runs, the two in turn: nanoseconds each, the ratio of times, proved to ordinary, and its middle half\n"
    );
    println!("| | proved, ns | Rust, ns | ratio | middle half |\n|---|---|---|---|---|");
    scripts::all().iter().for_each(compare);
}

/// One side with FIFOs of the least and of the greatest length.
fn lengths_cost(play: Play, s: &Script) -> String {
    let (short, long) = (s.clone().lent(LEAST), s.clone().lent(GREATEST));
    let times = in_turn((play, &short), (play, &long));
    let more = Spread::of(times.iter().map(|(least, greatest)| greatest - least));
    format!(
        "{:.1} | {:.1} | {:.1} | {:.1} to {:.1}",
        Spread::of(times.iter().map(|(least, _)| *least)).median,
        Spread::of(times.iter().map(|(_, greatest)| *greatest)).median,
        more.median,
        more.low,
        more.high
    )
}

fn compare_lengths() {
    println!("\nThe same cycles with FIFOs of {LEAST} and of {GREATEST} bytes, in turn: nanoseconds each, the difference, and its middle half\n");
    println!("| | C = {LEAST} | C = {GREATEST} | more | middle half |\n|---|---|---|---|---|");
    for s in scripts::at_both_lengths() {
        same(&s.clone().lent(GREATEST));
        println!("| {}, proved | {} |", s.name, lengths_cost(proved, &s));
        println!("| {}, Rust | {} |", s.name, lengths_cost(ordinary, &s));
    }
}

/// The script of that name.
fn named(name: &str) -> Option<Script> {
    let mut all = scripts::all();
    all.extend(scripts::at_both_lengths());
    all.into_iter().find(|s| s.name == name)
}

/// The sum of one script, where the words name one.
fn once(name: &str, c: &str, side: &str, times: &str) -> Option<u64> {
    let script = named(name)?.lent(c.parse().ok()?);
    let times = times.parse().ok()?;
    match side {
        "proved" => Some(proved(&script, times)),
        "ordinary" => Some(ordinary(&script, times)),
        _ => None,
    }
}

fn same_all() {
    scripts::all().iter().for_each(same);
    for s in scripts::at_both_lengths() {
        same(&s.clone().lent(GREATEST));
        same(&s);
    }
}

fn main() {
    let words: Vec<String> = std::env::args().skip(1).collect();
    let words: Vec<&str> = words.iter().map(String::as_str).collect();
    match words[..] {
        [] => {
            compare_all();
            return compare_lengths();
        }
        ["same"] => return same_all(),
        ["once", name, c, side, times] => {
            if let Some(sum) = once(name, c, side, times) {
                return println!("{sum}");
            }
        }
        _ => {}
    }
    eprintln!("usage: bench_cycles [same | once NAME C proved|ordinary N]");
    process::exit(2);
}
