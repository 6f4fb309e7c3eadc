//! The engine's map in the shape the flash source calls it: configuration,
//! keys, values, the item calls and the iteration.

use crate::image;
use crate::verdict::{verdict, Failure, Verdict};
use crate::Error;
use core::marker::PhantomData;
use core::ops::Range;
use embedded_storage_async::nor_flash::MultiwriteNorFlash;

#[derive(Clone, Copy, Debug, PartialEq, Eq)]
#[non_exhaustive]
pub enum SerializationError {
    BufferTooSmall,
    InvalidData,
    InvalidFormat,
    Custom(i32),
}

#[derive(Clone, Copy, Debug, PartialEq, Eq)]
pub enum MapConfigError {
    StartRangeNotAtPageBoundary,
    EndRangeNotAtPageBoundary,
    RangeTooSmall,
}

pub trait Key: Sized {
    fn serialize_into(&self, buffer: &mut [u8]) -> Result<usize, SerializationError>;
    fn deserialize_from(buffer: &[u8]) -> Result<(Self, usize), SerializationError>;
    fn get_len(buffer: &[u8]) -> Result<usize, SerializationError>;
}

/// Values are byte strings: the flash source stores nothing else.
pub trait Value<'d>: Sized {
    fn bytes(&self) -> &[u8];
    fn from_bytes(bytes: &'d [u8]) -> Self;
}

impl<'d> Value<'d> for &'d [u8] {
    fn bytes(&self) -> &[u8] {
        self
    }

    fn from_bytes(bytes: &'d [u8]) -> Self {
        bytes
    }
}

pub struct MapConfig<S> {
    start: u32,
    flash: PhantomData<S>,
}

impl<S: MultiwriteNorFlash> MapConfig<S> {
    /// Document 01's region tests, but for the one that needs more than 32 bits.
    pub fn try_new(range: Range<u32>) -> Result<Self, MapConfigError> {
        if !range.start.is_multiple_of(S::ERASE_SIZE) {
            return Err(MapConfigError::StartRangeNotAtPageBoundary);
        }
        if !range.end.is_multiple_of(S::ERASE_SIZE) {
            return Err(MapConfigError::EndRangeNotAtPageBoundary);
        }
        if range.end - range.start < 2 * S::ERASE_SIZE {
            return Err(MapConfigError::RangeTooSmall);
        }
        Ok(Self { start: range.start, flash: PhantomData })
    }
}

pub struct MapStorage<K, S, C> {
    flash: S,
    start: u32,
    cache: C,
    key: PhantomData<K>,
}

impl<K: Key, S: MultiwriteNorFlash, C> MapStorage<K, S, C> {
    pub fn new(flash: S, config: MapConfig<S>, cache: C) -> Self {
        Self { flash, start: config.start, cache, key: PhantomData }
    }

    pub fn flash(&mut self) -> &mut S {
        &mut self.flash
    }

    /// Reckoned from the bytes, not kept from the mount: document 01's L is
    /// always the length of the buffer lent to this call.
    pub fn flash_range(&self) -> Range<u32> {
        self.start..self.start + self.flash.region().len() as u32
    }

    pub fn destroy(self) -> (S, C) {
        (self.flash, self.cache)
    }

    pub async fn store_item<'d, V: Value<'d>>(
        &mut self,
        buffer: &mut [u8],
        key: &K,
        value: &V,
    ) -> Result<(), Error<S::Error>> {
        let key = serialized(key, buffer)?;
        let value = value.bytes();
        match verdict(&mut self.flash) {
            Verdict::Pass if image::store(self.flash.region_mut(), key, value) => Ok(()),
            Verdict::Pass => Err(Error::FullStorage),
            Verdict::Fail { failure, effect } => {
                if effect {
                    // One that does not fit keeps its coded fault.
                    image::store(self.flash.region_mut(), key, value);
                }
                failure.end().await
            }
        }
    }

    pub async fn remove_item(&mut self, buffer: &mut [u8], key: &K) -> Result<(), Error<S::Error>> {
        let key = serialized(key, buffer)?;
        match verdict(&mut self.flash) {
            Verdict::Pass => {
                image::remove(self.flash.region_mut(), key);
                Ok(())
            }
            Verdict::Fail { failure, effect } => {
                if effect {
                    image::remove(self.flash.region_mut(), key);
                }
                failure.end().await
            }
        }
    }

    pub async fn fetch_item<'d, V: Value<'d>>(
        &mut self,
        buffer: &'d mut [u8],
        key: &K,
    ) -> Result<Option<V>, Error<S::Error>> {
        passed(&mut self.flash).await?;
        let key = serialized(key, buffer)?;
        let region = self.flash.region();
        let Some(from) = image::find(region, key) else {
            return Ok(None);
        };
        Ok(image::record_at(region, from).map(|record| lend(buffer, record.value)))
    }

    pub async fn fetch_all_items<'m>(
        &'m mut self,
        _buffer: &'m mut [u8],
    ) -> Result<MapItemIter<'m, K, S>, Error<S::Error>> {
        passed(&mut self.flash).await?;
        Ok(self.items_from(0))
    }

    /// Go on with an iteration at a place, without a call of its own: for
    /// cases that take an iteration one step at a time.
    pub fn items_from(&mut self, at: usize) -> MapItemIter<'_, K, S> {
        MapItemIter { flash: &mut self.flash, at, key: PhantomData }
    }
}

/// An iteration in image order.
pub struct MapItemIter<'m, K, S> {
    flash: &'m mut S,
    at: usize,
    key: PhantomData<K>,
}

impl<K: Key, S: MultiwriteNorFlash> MapItemIter<'_, K, S> {
    /// Where the next item is looked for.
    pub fn place(&self) -> usize {
        self.at
    }

    pub async fn next<'d, V: Value<'d>>(
        &mut self,
        buffer: &'d mut [u8],
    ) -> Result<Option<(K, V)>, Error<S::Error>> {
        passed(self.flash).await?;
        let region = self.flash.region();
        let Some(record) = image::record_at(region, self.at) else {
            return Ok(None);
        };
        // The record's own bytes from the key length on are what the key
        // reader of the flash source reads.
        let (key, _) = K::deserialize_from(&region[self.at + image::HEAD - 1..])?;
        self.at += record.size();
        Ok(Some((key, lend(buffer, record.value))))
    }
}

/// Spend a read's script byte. A read has no effect to do first.
async fn passed<S: MultiwriteNorFlash>(flash: &mut S) -> Result<(), Error<S::Error>> {
    match verdict(flash) {
        Verdict::Pass => Ok(()),
        Verdict::Fail { failure, .. } => Failure::end(failure).await,
    }
}

/// The key's bytes without their length byte, written by the key's own writer.
fn serialized<'b, K: Key, E>(key: &K, buffer: &'b mut [u8]) -> Result<&'b [u8], Error<E>> {
    let len = key.serialize_into(buffer)?;
    Ok(&buffer[1..len])
}

/// Copy a value into the caller's buffer, where the caller reads it.
fn lend<'d, V: Value<'d>>(buffer: &'d mut [u8], value: &[u8]) -> V {
    buffer[..value.len()].copy_from_slice(value);
    V::from_bytes(&buffer[..value.len()])
}
