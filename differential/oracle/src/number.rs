//! The original's errors as document 01's numbers and their values.

use crate::said::Said;
use arxia_core::{
    ArxiaError, CapacityKind, DriverFaultKind, FlashFault, JournalPart, RegionFaultKind,
    SerializationFaultKind, StorageFault,
};

pub const BAD_REGION: u64 = 1;
pub const CORRUPTED: u64 = 7;
pub const BAD_LIST: u64 = 17;
pub const OUTPUT_TOO_SMALL: u64 = 18;
/// The kind of BadRegion that the original cannot meet: its range has 32 bits.
pub const TOO_HIGH: u64 = 0;

pub fn said(error: ArxiaError) -> Said {
    let ArxiaError::Storage { fault } = error;
    let (number, v) = match fault {
        StorageFault::CapacityExceeded { what, got, limit } => {
            (2, [capacity(what), got as u64, limit as u64])
        }
        StorageFault::ReservedKey => (3, [0; 3]),
        StorageFault::WouldBlock => (4, [0; 3]),
        StorageFault::Flash { fault } => flash(fault),
        StorageFault::BatchCommitted => (15, [0; 3]),
        StorageFault::CommitUncertain => (16, [0; 3]),
        other => unreachable!("the flash store never gives {other:?}"),
    };
    Said::refused(number, v)
}

fn flash(fault: FlashFault) -> (u64, [u64; 3]) {
    match fault {
        FlashFault::BadRegion { kind } => (BAD_REGION, [region(kind), 0, 0]),
        FlashFault::Driver { kind } => (5, [driver(kind), 0, 0]),
        FlashFault::FullStorage => (6, [0; 3]),
        FlashFault::Corrupted => (CORRUPTED, [0; 3]),
        FlashFault::EngineBug => (8, [0; 3]),
        FlashFault::BufferTooBig => (9, [0; 3]),
        FlashFault::BufferTooSmall { needed } => (10, [needed as u64, 0, 0]),
        FlashFault::Serialization { kind } => (11, serialization(kind)),
        FlashFault::ItemTooBig => (12, [0; 3]),
        FlashFault::JournalCorrupted { part } => (13, journal(part)),
        FlashFault::ScanStalled => (14, [0; 3]),
    }
}

fn capacity(what: CapacityKind) -> u64 {
    match what {
        CapacityKind::Key => 0,
        CapacityKind::Value => 1,
        CapacityKind::BatchOperations => 2,
    }
}

fn region(kind: RegionFaultKind) -> u64 {
    match kind {
        RegionFaultKind::StartNotPageAligned => 1,
        RegionFaultKind::EndNotPageAligned => 2,
        RegionFaultKind::TooSmall => 3,
    }
}

fn driver(kind: DriverFaultKind) -> u64 {
    match kind {
        DriverFaultKind::NotAligned => 0,
        DriverFaultKind::OutOfBounds => 1,
        DriverFaultKind::Other => 2,
    }
}

pub fn serialization(kind: SerializationFaultKind) -> [u64; 3] {
    match kind {
        SerializationFaultKind::BufferTooSmall => [0, 0, 0],
        SerializationFaultKind::InvalidData => [1, 0, 0],
        SerializationFaultKind::InvalidFormat => [2, 0, 0],
        SerializationFaultKind::Custom(code) => [3, code as u64, 0],
    }
}

fn journal(part: JournalPart) -> [u64; 3] {
    match part {
        JournalPart::MarkerCount(count) => [0, u64::from(count), 0],
        JournalPart::Entry(index) => [1, u64::from(index), 0],
    }
}
