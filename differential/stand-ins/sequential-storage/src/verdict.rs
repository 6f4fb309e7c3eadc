//! From a script byte to what becomes of the item call that spent it.

use crate::{Error, SerializationError};
use embedded_storage_async::nor_flash::{MultiwriteNorFlash, NorFlashErrorKind, Spent};

/// How a call fails: with an engine error, or by never completing, which the
/// flash source's single poll turns into WouldBlock.
pub enum Failure<E> {
    Pend,
    Error(Error<E>),
}

pub enum Verdict<E> {
    Pass,
    /// `effect`: a store or removal is done first, where it fits.
    Fail {
        failure: Failure<E>,
        effect: bool,
    },
}

impl<E> Failure<E> {
    /// End the call this way.
    pub async fn end<T>(self) -> Result<T, Error<E>> {
        match self {
            Failure::Pend => core::future::pending().await,
            Failure::Error(error) => Err(error),
        }
    }
}

/// Spend the next script byte and read it.
pub fn verdict<S: MultiwriteNorFlash>(flash: &mut S) -> Verdict<S::Error> {
    let driver = |kind| Error::Storage { value: S::error(kind) };
    let Spent::Code(code) = flash.spend() else {
        return Verdict::Fail {
            failure: Failure::Error(driver(NorFlashErrorKind::Other)),
            effect: false,
        };
    };
    let error = match code & 0x7f {
        0 => return Verdict::Pass,
        1 => driver(NorFlashErrorKind::NotAligned),
        2 => driver(NorFlashErrorKind::OutOfBounds),
        3 | 127 => driver(NorFlashErrorKind::Other),
        4 => Error::FullStorage,
        5 => Error::Corrupted {},
        6 => Error::LogicBug {},
        7 => Error::BufferTooBig,
        8 => Error::BufferTooSmall(0),
        9 => SerializationError::BufferTooSmall.into(),
        10 => SerializationError::InvalidData.into(),
        11 => SerializationError::InvalidFormat.into(),
        12 => SerializationError::Custom(0).into(),
        13 => Error::ItemTooBig,
        14 => return Verdict::Fail { failure: Failure::Pend, effect: code >= 0x80 },
        _ => Error::LogicBug {},
    };
    Verdict::Fail { failure: Failure::Error(error), effect: code >= 0x80 }
}
