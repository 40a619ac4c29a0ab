//! The launch hash of locality 4: start, data, end (TIS 8).

use super::pages::{Register, HASH_LOCALITY};
use super::{Device, HashSequence, Refusal, LAUNCH_PCRS, MOST_HASH_BYTES, PCR_BYTES};
use crate::sha1::Sha1;

/// The PCR that takes the launch digest.
const LOCALITY_4_PCR: usize = 17;

impl Device {
    /// A write in page 4 while a sequence is open: start, data and end count, nothing else does.
    #[inline]
    pub(super) fn write_while_open(
        &mut self,
        write: &mut [u8],
        read: &mut [u8],
        register: Register,
        byte: u8,
    ) -> Result<(), Refusal> {
        match register {
            Register::HashStart => self.hash_start(write, read),
            Register::DataFifo => return self.hash_data(byte),
            Register::HashEnd => self.hash_end(write, read),
            _ => {}
        }
        Ok(())
    }

    /// Counts if the device is free or 4 is active already, also with a sequence open.
    pub(super) fn hash_start(&mut self, write: &mut [u8], read: &mut [u8]) {
        if self.active.is_some_and(|active| active != HASH_LOCALITY) {
            return;
        }
        self.drop_command(write, read);
        self.active = Some(HASH_LOCALITY);
        self.established = true;
        self.pcrs[LAUNCH_PCRS].fill([0; PCR_BYTES]);
        self.hash = HashSequence {
            open: true,
            stream: Sha1::new(),
        };
    }

    #[inline]
    fn hash_data(&mut self, byte: u8) -> Result<(), Refusal> {
        if self.hash.stream.count >= MOST_HASH_BYTES {
            return Err(Refusal::HashBytes);
        }
        self.hash.stream.push(byte);
        Ok(())
    }

    /// Only reached with a sequence open; a closed one must never extend PCR 17.
    fn hash_end(&mut self, write: &mut [u8], read: &mut [u8]) {
        let mut extend = Sha1::new();
        extend.update(&self.pcrs[LOCALITY_4_PCR]);
        extend.update(&self.hash.stream.digest());
        self.pcrs[LOCALITY_4_PCR] = extend.digest();
        self.hash = HashSequence::CLOSED;
        self.hand_over(write, read);
    }
}
