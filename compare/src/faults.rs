//! Streams that are no list of calls: each gets one line, and nothing after the fault is played. And an input or an output that fails.

use crate::front;
use std::fs::File;
use std::io;
use std::path::Path;
use std::process::Stdio;

/// A load of a record of no flags with one byte changed, and FIFOs of these lengths, as far as there are bytes.
fn load(place: usize, byte: u8, write: u16, read: u16) -> Vec<u8> {
    let mut bytes = vec![b'S'];
    bytes.resize(1 + crate::state::IMAGE, 0);
    bytes[1 + place] = byte;
    bytes.extend(write.to_le_bytes());
    bytes.extend(read.to_le_bytes());
    bytes
}

/// The bytes after an interrupt line question, and what is said of them.
fn streams() -> Vec<(Vec<u8>, &'static str)> {
    let cut = "cut short";
    let mut streams: Vec<(Vec<u8>, &str)> = vec![
        (vec![b'X', b'L'], "unknown opcode"),
        (vec![0], "unknown opcode"),
        (
            vec![b'P', 2, 0, 0, 0, 0, 0],
            "a flag that is neither 0 nor 1",
        ),
        (vec![b'A', 0, 0, 0, 0, 0x29, 0x23], "a length above 9000"),
        (vec![b'A', 0, 0, 0, 0, 2, 0, 7], cut),
        (load(19, 2, 0, 0), "a flag that is neither 0 nor 1"),
        (load(21, 5, 0, 0), "a phase above 4"),
        (load(0, 0, 9001, 0), "a length above 9000"),
        (load(0, 0, 0, 9001), "a length above 9000"),
        (load(0, 0, 1, 0), cut),
        (load(0, 0, 0, 9000), cut),
    ];
    let whole: [&[u8]; 6] = [
        b"P\0\0\0\0\0\0",
        b"R\0\0\0\0\0\0\0\0",
        b"W\0\0\0\0\0\0\0\0\0",
        b"V\0",
        b"C\0\0",
        b"E\0\0",
    ];
    for call in whole {
        streams.extend((1..call.len()).map(|size| (call[..size].to_vec(), cut)));
    }
    let load = load(0, 0, 0, 0);
    streams.extend([1, 20, 603, 607].map(|size| (load[..size].to_vec(), cut)));
    streams
}

/// What is said of an input that cannot be read, a directory, and of an output that cannot be written, a full device.
fn failures(program: &Path) -> io::Result<[(String, &'static str); 2]> {
    let directory = File::open("/")?;
    let full = File::options().write(true).open("/dev/full")?;
    Ok([
        (
            front::complaint(program, directory.into(), Stdio::null(), b"")?,
            "replay: call 1: standard input cannot be read\n",
        ),
        (
            front::complaint(program, Stdio::piped(), full.into(), b"L")?,
            "replay: call 2: standard output cannot be written\n",
        ),
    ])
}

/// Whether each is answered as it must be; a stream that is not is named.
pub fn check(program: &Path) -> io::Result<Result<usize, String>> {
    let streams = streams();
    for (bytes, fault) in &streams {
        let mut input = vec![b'L'];
        input.extend(bytes);
        let (output, errors) = front::run(program, &input)?;
        let expected = format!("replay: call 2: {fault}\n");
        if output != [0] || errors != expected {
            let head = crate::turn::hex(bytes);
            return Ok(Err(format!(
                "{head}: output {output:02x?}, said {errors:?}, not {expected:?}"
            )));
        }
    }
    for (said, expected) in failures(program)? {
        if said != expected {
            return Ok(Err(format!("said {said:?}, not {expected:?}")));
        }
    }
    Ok(Ok(streams.len() + 2))
}
