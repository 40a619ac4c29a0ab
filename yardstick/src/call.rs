//! A call of the front as a value: what a list of calls is made of.

/// One call with its arguments other than the record and the FIFOs.
#[derive(Clone, Debug, PartialEq, Eq)]
pub enum Call {
    PowerOn {
        established: bool,
        identity: [u8; 5],
    },
    Reset,
    Read {
        offset: u64,
    },
    Write {
        offset: u64,
        byte: u8,
    },
    Respond {
        run: u32,
        answer: Vec<u8>,
    },
    PcrValue {
        pcr: u8,
    },
    InterruptLine,
    MayReset {
        pcr: u8,
        locality: u8,
    },
    MayExtend {
        pcr: u8,
        locality: u8,
    },
    Window,
}
