//! Times the calls of the device: `cargo run --release --example speed`.

use std::hint::black_box;
use std::time::Instant;

use yardstick::sha1::sha1;
use yardstick::Device;

const C: usize = 4096;
const ROUNDS: usize = 500;
const TRIES: usize = 9;

/// Prints the best of several tries, as other work on the machine only ever adds time.
fn time(what: &str, count: usize, mut work: impl FnMut()) {
    let best = (0..TRIES)
        .map(|_| {
            let start = Instant::now();
            work();
            start.elapsed().as_secs_f64()
        })
        .fold(f64::INFINITY, f64::min);
    println!("{what:<24} {:7.2} ns", best * 1e9 / count as f64);
}

fn main() {
    let (mut w, mut r) = (vec![0; C], vec![0; C]);
    let (_, mut device) = Device::power_on(false, [0; 5], &mut w, &mut r);
    let mut command = vec![0xa5; C];
    command[2..6].copy_from_slice(&(C as u32).to_be_bytes());

    let message = vec![0xa5; 1 << 20];
    time("SHA-1, one byte", message.len(), || {
        black_box(sha1(black_box(&message)));
    });
    time("hash data write", message.len(), || {
        device.write(&mut w, &mut r, 0x4028, 0);
        for byte in &message {
            black_box(device.write(&mut w, &mut r, black_box(0x4024), *byte));
        }
        device.write(&mut w, &mut r, 0x4020, 0);
    });
    device.write(&mut w, &mut r, 0x0000, 0x02);
    for (what, offset) in [("ACCESS read", 0x0000), ("STS read", 0x0018)] {
        time(what, ROUNDS * C, || {
            for _ in 0..ROUNDS * C {
                black_box(device.read(&w, &r, black_box(offset)));
            }
        });
    }
    time("FIFO write", ROUNDS * C, || {
        for _ in 0..ROUNDS {
            // Once to drop the last command, once to be ready.
            device.write(&mut w, &mut r, 0x0018, 0x40);
            device.write(&mut w, &mut r, 0x0018, 0x40);
            for byte in &command {
                black_box(device.write(&mut w, &mut r, black_box(0x0024), *byte));
            }
        }
    });
    device.write(&mut w, &mut r, 0x0018, 0x20);
    time("engine answer, one byte", C, || {
        let mut running = device.clone();
        black_box(running.respond(&mut w, &mut r, device.run, &command));
    });
    device.respond(&mut w, &mut r, device.run, &command);
    time("FIFO read", ROUNDS * C, || {
        for _ in 0..ROUNDS {
            device.write(&mut w, &mut r, 0x0018, 0x02);
            for _ in 0..C {
                black_box(device.read(&w, &r, black_box(0x0024)));
            }
        }
    });
}
