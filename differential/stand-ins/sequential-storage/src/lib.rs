//! Stand-in for the storage engine: document 01's item map over a region of
//! bytes, each item call under document 01's fault script.

pub mod cache;
pub mod flash;
pub mod image;
pub mod map;
mod verdict;

pub use map::SerializationError;

/// The engine's errors, in the shape the flash source takes apart. It has a
/// catch-all arm, which an exhaustive enum would make a warning.
#[derive(Clone, Copy, Debug, PartialEq, Eq)]
#[non_exhaustive]
pub enum Error<E> {
    Storage { value: E },
    FullStorage,
    Corrupted {},
    LogicBug {},
    BufferTooBig,
    BufferTooSmall(usize),
    SerializationError(SerializationError),
    ItemTooBig,
}

impl<E> From<SerializationError> for Error<E> {
    fn from(kind: SerializationError) -> Self {
        Error::SerializationError(kind)
    }
}
