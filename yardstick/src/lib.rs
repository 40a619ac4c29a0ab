//! The register front of a virtual TPM 1.2 in plain Rust: device, SHA-1 and waiting book.
#![forbid(unsafe_code)]

pub mod book;
pub mod call;
pub mod device;
pub mod sha1;

pub use device::{Causes, Device, HashSequence, IntEnable, Phase};
