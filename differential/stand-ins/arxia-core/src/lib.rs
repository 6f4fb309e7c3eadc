//! Stand-in for the error types that the two Rust sources import: exactly the
//! names and fields they use, and nothing more.

/// The one error both sources return.
#[derive(Clone, Copy, Debug, PartialEq, Eq)]
pub enum ArxiaError {
    Storage { fault: StorageFault },
}

#[derive(Clone, Copy, Debug, PartialEq, Eq)]
pub enum StorageFault {
    CapacityExceeded { what: CapacityKind, got: usize, limit: usize },
    ReservedKey,
    WouldBlock,
    Flash { fault: FlashFault },
    BatchCommitted,
    CommitUncertain,
    // The next three belong to parts of the storage source that no call of
    // document 01 reaches.
    LockPoisoned,
    ChecksumTooShort { got: usize },
    ChecksumMismatch,
}

#[derive(Clone, Copy, Debug, PartialEq, Eq)]
pub enum CapacityKind {
    Key,
    Value,
    BatchOperations,
}

#[derive(Clone, Copy, Debug, PartialEq, Eq)]
pub enum FlashFault {
    BadRegion { kind: RegionFaultKind },
    Driver { kind: DriverFaultKind },
    FullStorage,
    Corrupted,
    EngineBug,
    BufferTooBig,
    BufferTooSmall { needed: usize },
    Serialization { kind: SerializationFaultKind },
    ItemTooBig,
    JournalCorrupted { part: JournalPart },
    ScanStalled,
}

#[derive(Clone, Copy, Debug, PartialEq, Eq)]
pub enum RegionFaultKind {
    StartNotPageAligned,
    EndNotPageAligned,
    TooSmall,
}

#[derive(Clone, Copy, Debug, PartialEq, Eq)]
pub enum DriverFaultKind {
    NotAligned,
    OutOfBounds,
    Other,
}

#[derive(Clone, Copy, Debug, PartialEq, Eq)]
pub enum SerializationFaultKind {
    BufferTooSmall,
    InvalidData,
    InvalidFormat,
    Custom(i32),
}

#[derive(Clone, Copy, Debug, PartialEq, Eq)]
pub enum JournalPart {
    MarkerCount(u16),
    Entry(u16),
}
