//! TPM_STS and TPM_DATA_FIFO: a command in, its run, its answer out (TIS 11.3.11 and 11.5).

use super::access::bit;
use super::shape::HEADER;
use super::{Device, Phase, Refusal, NOTHING_ANSWERS};

const STS_VALID: u8 = 0x80;
const COMMAND_READY: u8 = 0x40;
const TPM_GO: u8 = 0x20;
const DATA_AVAIL: u8 = 0x10;
const EXPECT: u8 = 0x08;
const RESPONSE_RETRY: u8 = 0x02;

/// The bits that count in a write.
const WRITABLE: u8 = COMMAND_READY | TPM_GO | RESPONSE_RETRY;

/// The most that burstCount promises, as request W6 of document 02 has it.
const BURST: u16 = 512;

/// Bytes of a command up to and with its declared size.
const SIZE_END: usize = 6;

/// The answer to a command whose declared size cannot run.
const BAD_SIZE_ANSWER: [u8; HEADER] = [0x00, 0xc4, 0x00, 0x00, 0x00, 0x0a, 0x00, 0x00, 0x00, 0x19];

/// The size a command declares in its bytes 2 to 5, high byte first.
#[inline]
fn declared_size(write: &[u8]) -> usize {
    u32::from_be_bytes([write[2], write[3], write[4], write[5]]) as usize
}

/// Whether a command of which `received` bytes came still lacks some.
#[inline]
fn more_expected(write: &[u8], received: u16) -> bool {
    let received = usize::from(received);
    received < SIZE_END || (received < declared_size(write) && received < write.len())
}

impl Device {
    #[inline]
    pub(super) fn read_sts(&self, write: &[u8], byte: u8) -> u8 {
        match byte {
            0 => self.status_bits(write),
            1 => self.burst_count(write).to_le_bytes()[0],
            _ => self.burst_count(write).to_le_bytes()[1],
        }
    }

    fn status_bits(&self, write: &[u8]) -> u8 {
        STS_VALID
            | match self.phase {
                Phase::Ready => COMMAND_READY,
                Phase::Reception(received) => bit(more_expected(write, received), EXPECT),
                Phase::Completion(length, read) => bit(read < length, DATA_AVAIL),
                Phase::Idle | Phase::Execution(_) => 0,
            }
    }

    fn burst_count(&self, write: &[u8]) -> u16 {
        match self.phase {
            Phase::Ready => BURST,
            Phase::Reception(received) if more_expected(write, received) => {
                // Refusal 2 keeps the FIFO length within 16 bits, the shape rule `received` within it.
                BURST.min(write.len() as u16 - received)
            }
            Phase::Completion(length, read) => BURST.min(length - read),
            _ => 0,
        }
    }

    pub(super) fn write_sts(&mut self, write: &mut [u8], read: &mut [u8], byte: u8) {
        // Two counted bits make none of these values, so such a write falls through.
        match byte & WRITABLE {
            COMMAND_READY => self.command_ready(write, read),
            TPM_GO => self.tpm_go(write, read),
            RESPONSE_RETRY => self.response_retry(),
            _ => {}
        }
    }

    fn command_ready(&mut self, write: &mut [u8], read: &mut [u8]) {
        match self.phase {
            Phase::Idle => {
                self.phase = Phase::Ready;
                self.status.command_ready = true;
            }
            Phase::Ready => {}
            Phase::Reception(_) | Phase::Execution(_) | Phase::Completion(..) => {
                self.drop_command(write, read);
            }
        }
    }

    fn tpm_go(&mut self, write: &mut [u8], read: &mut [u8]) {
        let Phase::Reception(received) = self.phase else {
            return;
        };
        if more_expected(write, received) {
            return;
        }
        if (HEADER..=write.len()).contains(&declared_size(write)) {
            self.phase = Phase::Execution(received);
            self.run = self.run.wrapping_add(1);
        } else {
            self.complete(write, read, &BAD_SIZE_ANSWER);
        }
    }

    fn response_retry(&mut self) {
        if let Phase::Completion(_, read) = &mut self.phase {
            *read = 0;
        }
    }

    #[inline]
    pub(super) fn write_data_fifo(&mut self, write: &mut [u8], byte: u8) {
        let received = match self.phase {
            Phase::Ready => 0,
            Phase::Reception(received) if more_expected(write, received) => received,
            _ => return,
        };
        write[usize::from(received)] = byte;
        self.phase = Phase::Reception(received + 1);
    }

    #[inline]
    pub(super) fn read_data_fifo(&mut self, fifo: &[u8]) -> u8 {
        match self.phase {
            Phase::Completion(length, read) if read < length => {
                self.phase = Phase::Completion(length, read + 1);
                fifo[usize::from(read)]
            }
            _ => NOTHING_ANSWERS,
        }
    }

    /// Refusals 2, 6, 3 and 4, in that order.
    pub(super) fn try_respond(
        &mut self,
        write: &mut [u8],
        read: &mut [u8],
        run: u32,
        answer: &[u8],
    ) -> Result<(), Refusal> {
        self.admit(write, read)?;
        if !matches!(self.phase, Phase::Execution(_)) || run != self.run {
            return Err(Refusal::NotThisRun);
        }
        if !(HEADER..=read.len()).contains(&answer.len()) {
            return Err(Refusal::AnswerLength);
        }
        self.complete(write, read, answer);
        Ok(())
    }

    /// Enters Completion; the answer is no longer than the ReadFIFO.
    fn complete(&mut self, write: &mut [u8], read: &mut [u8], answer: &[u8]) {
        write.fill(0);
        let (front, behind) = read.split_at_mut(answer.len());
        front.copy_from_slice(answer);
        behind.fill(0);
        self.phase = Phase::Completion(answer.len() as u16, 0);
        self.status.data_avail = true;
    }

    /// What the maintenance window shows of a record in shape.
    pub(super) fn bytes_in_use<'a>(&self, write: &'a [u8], read: &'a [u8]) -> &'a [u8] {
        match self.phase {
            Phase::Idle | Phase::Ready => &[],
            Phase::Reception(received) | Phase::Execution(received) => {
                &write[..usize::from(received)]
            }
            Phase::Completion(length, done) => &read[usize::from(done)..usize::from(length)],
        }
    }
}
