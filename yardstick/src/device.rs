//! The device record, its calls, and the order in which they refuse.

mod access;
mod command;
mod interrupts;
mod launch;
mod pages;
mod permissions;
mod shape;

use crate::sha1::Sha1;
use pages::{Register, HASH_LOCALITY};

/// Number of localities.
pub const LOCALITIES: usize = 5;

/// Number of PCRs.
pub const PCRS: usize = 24;

/// Bytes in a PCR.
pub const PCR_BYTES: usize = 20;

/// Least and greatest length C of each FIFO, the greatest as request W6 of document 02 has it.
pub const FIFO_LENGTHS: std::ops::RangeInclusive<usize> = 1024..=8192;

/// The greatest allowed FIFO length, taken for C where no FIFO is lent.
pub const GREATEST_C: usize = *FIFO_LENGTHS.end();

/// Most bytes one hash sequence takes.
pub const MOST_HASH_BYTES: u32 = 1_048_576;

/// What a read gives where nothing answers.
const NOTHING_ANSWERS: u8 = 0xff;

/// PCRs 17 to 22: all FFh at power-on and all 00h at hash start (TIS Table 5).
const LAUNCH_PCRS: std::ops::RangeInclusive<usize> = 17..=22;

/// The command phase with its counts.
///
/// The alignment keeps the answer length and the bytes read out of one machine word: a FIFO read
/// stores the latter alone, and a wide load of both right behind it would stall.
#[derive(Clone, Copy, Debug, PartialEq, Eq)]
#[repr(align(4))]
pub enum Phase {
    Idle,
    Ready,
    /// Bytes received.
    Reception(u16),
    /// Bytes received.
    Execution(u16),
    /// Answer length, bytes read.
    Completion(u16, u16),
}

/// The three interrupt causes.
#[derive(Clone, Copy, Debug, Default, PartialEq, Eq)]
pub struct Causes {
    pub command_ready: bool,
    pub locality_change: bool,
    pub data_avail: bool,
}

/// TPM_INT_ENABLE: the global bit and one bit for each cause.
#[derive(Clone, Copy, Debug, Default, PartialEq, Eq)]
pub struct IntEnable {
    pub global: bool,
    pub causes: Causes,
}

/// The launch hash; with no sequence open the stream is `Sha1::BLANK`.
#[derive(Clone, Copy, Debug, PartialEq, Eq)]
pub struct HashSequence {
    pub open: bool,
    pub stream: Sha1,
}

impl HashSequence {
    pub const CLOSED: HashSequence = HashSequence {
        open: false,
        stream: Sha1::BLANK,
    };
}

/// The device record. Any value may be handed to any call; those out of shape are refused.
#[derive(Clone, Debug, PartialEq, Eq)]
pub struct Device {
    pub active: Option<u8>,
    pub waiting: [bool; LOCALITIES],
    pub seized: [bool; LOCALITIES],
    pub phase: Phase,
    pub enable: IntEnable,
    pub status: Causes,
    pub established: bool,
    pub identity: [u8; 5],
    pub run: u32,
    pub hash: HashSequence,
    pub pcrs: [[u8; PCR_BYTES]; PCRS],
}

/// The reasons to say no, by their numbers; 0 is accepted.
#[derive(Clone, Copy, Debug, PartialEq, Eq)]
#[repr(u8)]
pub enum Refusal {
    BusOffset = 1,
    FifoLengths = 2,
    NotThisRun = 3,
    AnswerLength = 4,
    UnknownNumber = 5,
    OutOfShape = 6,
    HashBytes = 7,
}

/// The number for "accepted".
pub const ACCEPTED: u8 = 0;

fn number(outcome: Result<(), Refusal>) -> u8 {
    match outcome {
        Ok(()) => ACCEPTED,
        Err(refusal) => refusal as u8,
    }
}

impl Device {
    /// Power-on; refused or not, it gives the fresh record.
    pub fn power_on(
        established: bool,
        identity: [u8; 5],
        write: &mut [u8],
        read: &mut [u8],
    ) -> (u8, Device) {
        let outcome = capacity(write, read).map(|_| empty(write, read));
        (number(outcome), Device::fresh(established, identity, 0))
    }

    /// Reset: power-on that keeps the established flag, identity and run number.
    pub fn reset(&mut self, write: &mut [u8], read: &mut [u8]) -> u8 {
        number(self.admit(write, read).map(|_| {
            empty(write, read);
            *self = Device::fresh(self.established, self.identity, self.run);
        }))
    }

    /// A bus read cycle.
    #[inline]
    pub fn read(&mut self, write: &[u8], read: &[u8], offset: u64) -> (u8, u8) {
        match self.admit_cycle(write, read, offset) {
            Ok((locality, register)) => (
                ACCEPTED,
                self.read_register(write, read, locality, register),
            ),
            Err(refusal) => (refusal as u8, NOTHING_ANSWERS),
        }
    }

    /// A bus write cycle.
    #[inline]
    pub fn write(&mut self, write: &mut [u8], read: &mut [u8], offset: u64, byte: u8) -> u8 {
        number(
            self.admit_cycle(write, read, offset)
                .and_then(|(locality, register)| {
                    self.write_register(write, read, locality, register, byte)
                }),
        )
    }

    /// The engine's answer to run number `run`.
    pub fn respond(&mut self, write: &mut [u8], read: &mut [u8], run: u32, answer: &[u8]) -> u8 {
        number(self.try_respond(write, read, run, answer))
    }

    /// The value of one PCR; twenty 00h when refused.
    pub fn pcr_value(&self, pcr: u8) -> (u8, [u8; PCR_BYTES]) {
        if !self.in_shape(GREATEST_C) {
            return (Refusal::OutOfShape as u8, [0; PCR_BYTES]);
        }
        match self.pcrs.get(usize::from(pcr)) {
            Some(value) => (ACCEPTED, *value),
            None => (Refusal::UnknownNumber as u8, [0; PCR_BYTES]),
        }
    }

    /// The maintenance window: the part of a lent FIFO that is in use, in that FIFO's own memory.
    pub fn window<'a>(&self, write: &'a [u8], read: &'a [u8]) -> (u8, &'a [u8]) {
        match self.admit(write, read) {
            Ok(_) => (ACCEPTED, self.bytes_in_use(write, read)),
            Err(refusal) => (refusal as u8, &[]),
        }
    }

    fn fresh(established: bool, identity: [u8; 5], run: u32) -> Device {
        let mut pcrs = [[0; PCR_BYTES]; PCRS];
        pcrs[LAUNCH_PCRS].fill([0xff; PCR_BYTES]);
        Device {
            active: None,
            waiting: [false; LOCALITIES],
            seized: [false; LOCALITIES],
            phase: Phase::Idle,
            enable: IntEnable::default(),
            status: Causes::default(),
            established,
            identity,
            run,
            hash: HashSequence::CLOSED,
            pcrs,
        }
    }

    /// Refusals 2 and 6, in that order.
    #[inline(always)]
    fn admit(&self, write: &[u8], read: &[u8]) -> Result<(), Refusal> {
        let capacity = capacity(write, read)?;
        if self.in_shape(capacity) {
            Ok(())
        } else {
            Err(Refusal::OutOfShape)
        }
    }

    /// Refusals 2, 6 and 1, in that order; the locality is below `LOCALITIES` when admitted.
    ///
    /// The path of a bus cycle is inlined whole, so that decoding an offset and acting on its
    /// register become one branch.
    #[inline(always)]
    fn admit_cycle(
        &self,
        write: &[u8],
        read: &[u8],
        offset: u64,
    ) -> Result<(u8, Register), Refusal> {
        self.admit(write, read)?;
        pages::decode(offset).ok_or(Refusal::BusOffset)
    }

    #[inline]
    fn is_active(&self, locality: u8) -> bool {
        self.active == Some(locality)
    }

    #[inline(always)]
    fn read_register(&mut self, write: &[u8], read: &[u8], locality: u8, register: Register) -> u8 {
        match register {
            Register::Access => self.read_access(locality),
            Register::IntEnable(byte) => self.read_int_enable(byte),
            Register::IntVector => 0,
            Register::IntStatus(byte) => self.read_int_status(byte),
            Register::IntfCapability(byte) => interrupts::INTF_CAPABILITY[usize::from(byte)],
            Register::Sts(byte) if self.is_active(locality) => self.read_sts(write, byte),
            Register::DataFifo if self.is_active(locality) => self.read_data_fifo(read),
            Register::Identity(byte) => self.identity[usize::from(byte)],
            _ => NOTHING_ANSWERS,
        }
    }

    #[inline(always)]
    fn write_register(
        &mut self,
        write: &mut [u8],
        read: &mut [u8],
        locality: u8,
        register: Register,
        byte: u8,
    ) -> Result<(), Refusal> {
        if self.hash.open && locality == HASH_LOCALITY {
            return self.write_while_open(write, read, register, byte);
        }
        match register {
            Register::Access => self.write_access(write, read, locality, byte),
            Register::HashStart => self.hash_start(write, read),
            Register::IntEnable(at) if self.is_active(locality) => self.write_int_enable(at, byte),
            Register::IntStatus(at) if self.is_active(locality) => self.write_int_status(at, byte),
            Register::Sts(0) if self.is_active(locality) => self.write_sts(write, read, byte),
            Register::DataFifo if self.is_active(locality) => self.write_data_fifo(write, byte),
            _ => {}
        }
        Ok(())
    }
}

/// Refusal 2, else the length C of both FIFOs.
#[inline(always)]
fn capacity(write: &[u8], read: &[u8]) -> Result<usize, Refusal> {
    if write.len() == read.len() && FIFO_LENGTHS.contains(&write.len()) {
        Ok(write.len())
    } else {
        Err(Refusal::FifoLengths)
    }
}

/// Empties both FIFOs, so that no owner's byte outlives its command.
fn empty(write: &mut [u8], read: &mut [u8]) {
    write.fill(0);
    read.fill(0);
}
