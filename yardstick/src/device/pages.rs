//! The pages: which register of which locality a bus offset names (TIS section 10).

/// The only locality with a hash start and a hash end.
pub(super) const HASH_LOCALITY: u8 = 4;

const LAST_OFFSET: u64 = 0x4fff;
const PAGE_BITS: u32 = 12;
const WITHIN_PAGE: u64 = 0xfff;

/// A register of one page; the number is the byte of a multi-byte register, low byte first.
#[derive(Clone, Copy, Debug, PartialEq, Eq)]
pub(super) enum Register {
    Access,
    IntEnable(u8),
    IntVector,
    IntStatus(u8),
    IntfCapability(u8),
    Sts(u8),
    /// In page 4 also the port for hash data.
    DataFifo,
    HashEnd,
    HashStart,
    /// DID, VID and RID.
    Identity(u8),
    Reserved,
}

/// Locality and register at an offset; none above 4FFFh.
#[inline(always)]
pub(super) fn decode(offset: u64) -> Option<(u8, Register)> {
    if offset > LAST_OFFSET {
        return None;
    }
    let locality = (offset >> PAGE_BITS) as u8;
    let within = (offset & WITHIN_PAGE) as u16;
    let byte = |first: u16| (within - first) as u8;
    let register = match within {
        0x000 => Register::Access,
        0x008..=0x00b => Register::IntEnable(byte(0x008)),
        0x00c => Register::IntVector,
        0x010..=0x013 => Register::IntStatus(byte(0x010)),
        0x014..=0x017 => Register::IntfCapability(byte(0x014)),
        0x018..=0x01a => Register::Sts(byte(0x018)),
        0x020..=0x023 if locality == HASH_LOCALITY => Register::HashEnd,
        0x024..=0x027 => Register::DataFifo,
        0x028..=0x02b if locality == HASH_LOCALITY => Register::HashStart,
        0xf00..=0xf04 => Register::Identity(byte(0xf00)),
        _ => Register::Reserved,
    };
    Some((locality, register))
}
