//! Document 01 as plain functions: bytes, script and state in, an outcome out.
//! Nothing here looks at the Rust original or at its stand-in engine.

mod batch;
mod calls;
mod codec;
mod items;
mod keys;
mod recovery;
mod scan;
mod world;

pub use batch::{batch, ops};
pub use calls::{contains, delete, get, mount, put, space};
pub use keys::{entry_write, key_len, key_order, key_read, key_write};
pub use scan::scan;

/// A refusal: document 01's number and its values.
#[derive(Clone, Copy, Debug, PartialEq, Eq)]
pub(crate) struct No(pub u64, pub [u64; 3]);

impl No {
    pub const RESERVED: No = No(3, [0; 3]);
    pub const FULL: No = No(6, [0; 3]);
    pub const CORRUPTED: No = No(7, [0; 3]);
    pub const COMMITTED: No = No(15, [0; 3]);
    pub const UNCERTAIN: No = No(16, [0; 3]);
    pub const BAD_LIST: No = No(17, [0; 3]);

    pub fn key_too_long(got: usize) -> No {
        No(2, [0, got as u64, 96])
    }

    pub fn value_too_long(got: usize) -> No {
        No(2, [1, got as u64, 256])
    }
}

/// An answer that is no refusal.
#[derive(Clone, Copy, Debug, Default)]
pub(crate) struct Yes {
    pub answer: u64,
    pub count: u64,
    pub length: u64,
}

impl Yes {
    pub fn plain(answer: u64) -> Yes {
        Yes { answer, count: 0, length: 0 }
    }
}

/// The first byte of a bookkeeping key is 0.
pub(crate) fn reserved(key: &[u8]) -> bool {
    key.first() == Some(&0)
}
