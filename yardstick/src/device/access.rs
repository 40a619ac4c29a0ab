//! TPM_ACCESS: who holds the device, who waits for it and who lost it (TIS 11.3.10).

use super::{empty, Device, Phase, LOCALITIES};

const TPM_REG_VALID_STS: u8 = 0x80;
const ACTIVE_LOCALITY: u8 = 0x20;
const BEEN_SEIZED: u8 = 0x10;
const SEIZE: u8 = 0x08;
const PENDING_REQUEST: u8 = 0x04;
const REQUEST_USE: u8 = 0x02;
const TPM_ESTABLISHMENT: u8 = 0x01;

/// The bits that count in a write.
const WRITABLE: u8 = ACTIVE_LOCALITY | BEEN_SEIZED | SEIZE | REQUEST_USE;

/// A bit that is there if `set`.
#[inline]
pub(super) fn bit(set: bool, mask: u8) -> u8 {
    if set {
        mask
    } else {
        0
    }
}

impl Device {
    #[inline]
    pub(super) fn read_access(&self, locality: u8) -> u8 {
        let x = usize::from(locality);
        TPM_REG_VALID_STS
            | bit(self.is_active(locality), ACTIVE_LOCALITY)
            | bit(self.seized[x], BEEN_SEIZED)
            | bit(self.another_waits(locality), PENDING_REQUEST)
            | bit(self.waiting[x], REQUEST_USE)
            | bit(!self.established, TPM_ESTABLISHMENT)
    }

    /// Whether a locality other than this one waits: more wait than this one alone. Counting was quicker than a search.
    #[inline]
    fn another_waits(&self, locality: u8) -> bool {
        let waiting = self.waiting.iter().filter(|waits| **waits).count();
        waiting > usize::from(self.waiting[usize::from(locality)])
    }

    pub(super) fn write_access(
        &mut self,
        write: &mut [u8],
        read: &mut [u8],
        locality: u8,
        byte: u8,
    ) {
        // Two counted bits make none of these values, so such a write falls through.
        match byte & WRITABLE {
            REQUEST_USE => self.request_use(locality),
            ACTIVE_LOCALITY => self.relinquish(write, read, locality),
            SEIZE => self.seize(write, read, locality),
            BEEN_SEIZED => self.seized[usize::from(locality)] = false,
            _ => {}
        }
    }

    fn request_use(&mut self, locality: u8) {
        match self.active {
            None => self.active = Some(locality),
            Some(active) if active == locality => {}
            Some(_) => self.waiting[usize::from(locality)] = true,
        }
    }

    fn relinquish(&mut self, write: &mut [u8], read: &mut [u8], locality: u8) {
        if self.is_active(locality) {
            self.hand_over(write, read);
        } else {
            self.waiting[usize::from(locality)] = false;
        }
    }

    fn seize(&mut self, write: &mut [u8], read: &mut [u8], locality: u8) {
        match self.active {
            None => self.request_use(locality),
            Some(active) if active < locality => {
                self.drop_command(write, read);
                self.seized[usize::from(active)] = true;
                self.active = Some(locality);
                self.waiting[usize::from(locality)] = false;
            }
            Some(_) => {}
        }
    }

    /// Serves the highest waiting locality in this very step, else frees the device.
    pub(super) fn hand_over(&mut self, write: &mut [u8], read: &mut [u8]) {
        self.drop_command(write, read);
        self.active = (0..LOCALITIES as u8)
            .rev()
            .find(|x| self.waiting[usize::from(*x)]);
        if let Some(next) = self.active {
            self.waiting[usize::from(next)] = false;
            self.status.locality_change = true;
        }
    }

    /// Idle with empty FIFOs, so that the next owner finds nothing of the last one's.
    pub(super) fn drop_command(&mut self, write: &mut [u8], read: &mut [u8]) {
        empty(write, read);
        self.phase = Phase::Idle;
    }
}
