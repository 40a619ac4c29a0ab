//! A turn of a list, a call or a load: in the form that `replay` takes, and as a line of text.

use crate::records::Clause;
use crate::state::State;
use std::fmt;
use yardstick::call::Call;

/// What a list is made of.
#[derive(Clone, Debug, PartialEq, Eq)]
pub enum Turn {
    Made(Call),
    /// No call of the front: any record and FIFOs. The note says which clause of the shape rule the record just meets or breaks.
    Load {
        state: Box<State>,
        note: Option<(Clause, bool)>,
    },
}

impl From<Call> for Turn {
    fn from(call: Call) -> Turn {
        Turn::Made(call)
    }
}

/// The calls by name, in the order of `Turn::kind`.
pub const KINDS: [&str; 11] = [
    "power_on",
    "reset",
    "read",
    "write",
    "respond",
    "pcr_value",
    "interrupt_line",
    "may_reset",
    "may_extend",
    "window",
    "load",
];

/// The refusal numbers that document 01 lets each call give.
pub const REFUSALS: [&[u8]; 11] = [
    &[0, 2],
    &[0, 2, 6],
    &[0, 1, 2, 6],
    &[0, 1, 2, 6, 7],
    &[0, 2, 3, 4, 6],
    &[0, 5, 6],
    &[0],
    &[0, 5],
    &[0, 5],
    &[0, 2, 6],
    &[0],
];

impl Turn {
    pub fn kind(&self) -> usize {
        match self {
            Turn::Made(Call::PowerOn { .. }) => 0,
            Turn::Made(Call::Reset) => 1,
            Turn::Made(Call::Read { .. }) => 2,
            Turn::Made(Call::Write { .. }) => 3,
            Turn::Made(Call::Respond { .. }) => 4,
            Turn::Made(Call::PcrValue { .. }) => 5,
            Turn::Made(Call::InterruptLine) => 6,
            Turn::Made(Call::MayReset { .. }) => 7,
            Turn::Made(Call::MayExtend { .. }) => 8,
            Turn::Made(Call::Window) => 9,
            Turn::Load { .. } => 10,
        }
    }

    /// The bytes of the turn, opcode first.
    pub fn encode(&self, out: &mut Vec<u8>) {
        match self {
            Turn::Made(call) => encode(call, out),
            Turn::Load { state, .. } => {
                out.push(b'S');
                state.dump(out);
            }
        }
    }
}

fn encode(call: &Call, out: &mut Vec<u8>) {
    match call {
        Call::PowerOn {
            established,
            identity,
        } => {
            out.extend([b'P', u8::from(*established)]);
            out.extend(identity);
        }
        Call::Reset => out.push(b'Z'),
        Call::Read { offset } => {
            out.push(b'R');
            out.extend(offset.to_le_bytes());
        }
        Call::Write { offset, byte } => {
            out.push(b'W');
            out.extend(offset.to_le_bytes());
            out.push(*byte);
        }
        Call::Respond { run, answer } => {
            out.push(b'A');
            out.extend(run.to_le_bytes());
            out.extend((answer.len() as u16).to_le_bytes());
            out.extend_from_slice(answer);
        }
        Call::PcrValue { pcr } => out.extend([b'V', *pcr]),
        Call::InterruptLine => out.push(b'L'),
        Call::MayReset { pcr, locality } => out.extend([b'C', *pcr, *locality]),
        Call::MayExtend { pcr, locality } => out.extend([b'E', *pcr, *locality]),
        Call::Window => out.push(b'M'),
    }
}

pub fn hex(bytes: &[u8]) -> String {
    let digits: String = bytes
        .iter()
        .take(24)
        .map(|byte| format!("{byte:02x}"))
        .collect();
    if bytes.len() > 24 {
        format!("{digits}.. ({} bytes)", bytes.len())
    } else {
        digits
    }
}

impl fmt::Display for Turn {
    fn fmt(&self, f: &mut fmt::Formatter<'_>) -> fmt::Result {
        match self {
            Turn::Made(call) => show_call(f, call),
            Turn::Load { state, note } => show_load(f, state, *note),
        }
    }
}

fn show_call(f: &mut fmt::Formatter<'_>, call: &Call) -> fmt::Result {
    match call {
        Call::PowerOn {
            established,
            identity,
        } => write!(
            f,
            "power_on, established {}, identity {}",
            u8::from(*established),
            hex(identity)
        ),
        Call::Reset => write!(f, "reset"),
        Call::Read { offset } => write!(f, "read {offset:04x}"),
        Call::Write { offset, byte } => write!(f, "write {byte:02x} at {offset:04x}"),
        Call::Respond { run, answer } => {
            write!(
                f,
                "respond, run {run}, {} bytes {}",
                answer.len(),
                hex(answer)
            )
        }
        Call::PcrValue { pcr } => write!(f, "pcr_value {pcr}"),
        Call::InterruptLine => write!(f, "interrupt_line"),
        Call::MayReset { pcr, locality } => write!(f, "may_reset {pcr} from {locality}"),
        Call::MayExtend { pcr, locality } => write!(f, "may_extend {pcr} from {locality}"),
        Call::Window => write!(f, "window"),
    }
}

/// What of the record is not as a power-on leaves it, and the FIFOs.
fn show_load(
    f: &mut fmt::Formatter<'_>,
    state: &State,
    note: Option<(Clause, bool)>,
) -> fmt::Result {
    let fresh = State::start().device;
    let d = &state.device;
    write!(f, "load")?;
    if let Some((clause, met)) = note {
        write!(
            f,
            " ({} {clause})",
            if met { "just meets:" } else { "just breaks:" }
        )?;
    }
    let parts = [
        (
            d.active.is_some(),
            format!("active {}", d.active.unwrap_or(0)),
        ),
        (
            d.waiting != fresh.waiting,
            format!("waiting {:?}", d.waiting.map(u8::from)),
        ),
        (
            d.seized != fresh.seized,
            format!("seized {:?}", d.seized.map(u8::from)),
        ),
        (d.phase != fresh.phase, format!("{:?}", d.phase)),
        (d.enable != fresh.enable, format!("{:?}", d.enable)),
        (d.status != fresh.status, format!("status {:?}", d.status)),
        (d.established, "established".to_string()),
        (
            d.identity != fresh.identity,
            format!("identity {}", hex(&d.identity)),
        ),
        (d.run != fresh.run, format!("run {}", d.run)),
        (d.hash.open, "sequence open".to_string()),
        (
            d.hash.stream.count != 0,
            format!("{} hash bytes", d.hash.stream.count),
        ),
        (
            d.hash.stream.chaining != [0; 5],
            format!("hash words {:08x?}", d.hash.stream.chaining),
        ),
        (
            d.hash.stream.tail != [0; 64],
            format!("hash tail {}", hex(&d.hash.stream.tail)),
        ),
        (d.pcrs != fresh.pcrs, "other PCRs".to_string()),
    ];
    for (_, text) in parts.into_iter().filter(|(shown, _)| *shown) {
        write!(f, ", {text}")?;
    }
    show_fifo(f, "WriteFIFO", &state.write)?;
    show_fifo(f, "ReadFIFO", &state.read)
}

fn show_fifo(f: &mut fmt::Formatter<'_>, name: &str, bytes: &[u8]) -> fmt::Result {
    write!(f, ", {name} {} bytes", bytes.len())?;
    match bytes.first() {
        Some(first) if bytes.iter().all(|byte| byte == first) => write!(f, " all {first:02x}"),
        Some(_) => write!(f, " {}", hex(bytes)),
        None => Ok(()),
    }
}
