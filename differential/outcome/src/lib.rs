//! One call's outcome in plain numbers, so that answers of different programs
//! can be compared field by field. The structs are laid out as the proved code
//! has them in its functions for C.

pub const CLEAN: u64 = 0;
pub const DEBRIS: u64 = 1;
pub const PENDING: u64 = 2;

/// The room of a region: bytes of all its records, bytes left, and the number
/// of user records.
#[repr(C)]
#[derive(Clone, Copy, Debug, Default, PartialEq, Eq)]
pub struct Space {
    pub used: u64,
    pub free: u64,
    pub takes: u64,
}

/// What a caller keeps between calls.
#[repr(C)]
#[derive(Clone, Copy, Debug, Default, PartialEq, Eq)]
pub struct State {
    pub health: u64,
    pub at: u64,
    pub cut: u64,
    pub space: Space,
}

/// Everything a call says but the bytes it leaves in region and output.
/// `answer` 0 is refused, with document 01's `number` and its values `v`.
/// Mount, put and batch: 1 ok. Get: 1 found, 2 absent. Contains and delete:
/// 1 yes, 2 no. Scan: 1 finished, 2 stopped, 3 no room.
/// `length` is a found value's length or the bytes of a scan's `count` records.
#[repr(C)]
#[derive(Clone, Copy, Debug, Default, PartialEq, Eq)]
pub struct Outcome {
    pub answer: u64,
    pub number: u64,
    pub v: [u64; 3],
    pub count: u64,
    pub length: u64,
    pub health: u64,
    pub at: u64,
    pub cut: u64,
    pub space: Space,
    pub calls: u64,
}

/// One operation of a batch, its key and its value as parts of a byte pool.
/// Kind 1 puts, 2 deletes.
#[repr(C)]
#[derive(Clone, Copy, Debug, Default, PartialEq, Eq)]
pub struct Op {
    pub kind: u8,
    pub key_at: usize,
    pub key_len: usize,
    pub value_at: usize,
    pub value_len: usize,
}

/// What a key's codec says: 1 with the bytes that it took, wrote or asks for, or
/// 0 with document 01's number and its values.
#[repr(C)]
#[derive(Clone, Copy, Debug, Default, PartialEq, Eq)]
pub struct Codec {
    pub answer: u64,
    pub number: u64,
    pub v: [u64; 3],
    pub length: u64,
}

impl Codec {
    pub fn done(length: usize) -> Self {
        Codec { answer: 1, length: length as u64, ..Codec::default() }
    }

    pub fn refused(number: u64, v: [u64; 3]) -> Self {
        Codec { number, v, ..Codec::default() }
    }
}

/// A key that was read: its bytes, then zeros; none where reading is refused.
#[repr(C)]
#[derive(Clone, Copy, Debug, PartialEq, Eq)]
pub struct KeyRead {
    pub said: Codec,
    pub bytes: [u8; 96],
    pub len: u64,
}

impl KeyRead {
    /// `key` is at most 96 bytes long.
    pub fn new(said: Codec, key: &[u8]) -> Self {
        let mut bytes = [0; 96];
        bytes[..key.len()].copy_from_slice(key);
        KeyRead { said, bytes, len: key.len() as u64 }
    }
}

/// Which of two keys comes first.
pub const LESS: u64 = 0;
pub const EQUAL: u64 = 1;
pub const GREATER: u64 = 2;
