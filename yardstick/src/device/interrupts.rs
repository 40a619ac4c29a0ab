//! TPM_INT_ENABLE, TPM_INT_STATUS, TPM_INTF_CAPABILITY and the interrupt line (TIS 12).

use super::access::bit;
use super::{Causes, Device};

const COMMAND_READY: u8 = 0x80;
const LOCALITY_CHANGE: u8 = 0x04;
const DATA_AVAIL: u8 = 0x01;

/// typePolarity 01, low level, the one scheme offered.
const LOW_LEVEL: u8 = 0x08;

/// globalIntEnable is bit 31, so the top bit of the last byte.
const GLOBAL_BYTE: u8 = 3;
const GLOBAL_INT_ENABLE: u8 = 0x80;

/// The three causes, low level only, dynamic burstCount.
pub(super) const INTF_CAPABILITY: [u8; 4] = [0x95, 0, 0, 0];

impl Causes {
    fn from_bits(byte: u8) -> Causes {
        Causes {
            command_ready: byte & COMMAND_READY != 0,
            locality_change: byte & LOCALITY_CHANGE != 0,
            data_avail: byte & DATA_AVAIL != 0,
        }
    }

    fn bits(self) -> u8 {
        bit(self.command_ready, COMMAND_READY)
            | bit(self.locality_change, LOCALITY_CHANGE)
            | bit(self.data_avail, DATA_AVAIL)
    }
}

impl Device {
    /// The interrupt line; it answers for any record, so it never refuses.
    pub fn interrupt_line(&self) -> bool {
        self.enable.global && self.status.bits() & self.enable.causes.bits() != 0
    }

    pub(super) fn read_int_enable(&self, byte: u8) -> u8 {
        match byte {
            0 => self.enable.causes.bits() | LOW_LEVEL,
            GLOBAL_BYTE => bit(self.enable.global, GLOBAL_INT_ENABLE),
            _ => 0,
        }
    }

    pub(super) fn write_int_enable(&mut self, at: u8, byte: u8) {
        match at {
            0 => self.enable.causes = Causes::from_bits(byte),
            GLOBAL_BYTE => self.enable.global = byte & GLOBAL_INT_ENABLE != 0,
            _ => {}
        }
    }

    pub(super) fn read_int_status(&self, byte: u8) -> u8 {
        match byte {
            0 => self.status.bits(),
            _ => 0,
        }
    }

    pub(super) fn write_int_status(&mut self, at: u8, byte: u8) {
        if at == 0 {
            self.status = Causes::from_bits(self.status.bits() & !byte);
        }
    }
}
