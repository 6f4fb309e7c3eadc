//! The original's key codec. Its keys are made by its own reader, the only way
//! from outside; a key that is too long for one is given to its batch, which
//! makes a key of it before anything else.

use crate::number::{said, serialization};
use crate::session::{erased, Session};
use arxia_core::SerializationFaultKind;
use arxia_storage::{BatchOp, StorageBackend};
use arxia_storage_flash::{FlashKey, MAX_KEY_LEN};
use outcome::{Codec, KeyRead, EQUAL, GREATER, LESS};
use sequential_storage::map::{Key, SerializationError};
use std::cmp::Ordering;

const SERIALIZATION: u64 = 11;

pub fn key_read(buffer: &[u8]) -> KeyRead {
    match FlashKey::deserialize_from(buffer) {
        Ok((key, taken)) => {
            let read = KeyRead::new(Codec::done(taken), key.as_slice());
            // The bytes behind the key show nowhere but in the Debug text.
            let shown = format!("FlashKey {{ bytes: {:?}, len: {} }}", read.bytes, read.len);
            assert_eq!(format!("{key:?}"), shown, "a key's other bytes are zeros");
            read
        }
        Err(error) => KeyRead::new(refused(error), &[]),
    }
}

pub fn key_write(key: &[u8], out: &mut [u8]) -> Codec {
    if key.len() > MAX_KEY_LEN {
        return too_long(key);
    }
    answer(flash_key(key).serialize_into(out))
}

pub fn key_len(buffer: &[u8]) -> Codec {
    answer(FlashKey::get_len(buffer))
}

/// Of two keys that are not too long.
pub fn key_order(a: &[u8], b: &[u8]) -> u64 {
    let (a, b) = (flash_key(a), flash_key(b));
    let order = a.cmp(&b);
    assert_eq!((a == b, a.partial_cmp(&b)), (order == Ordering::Equal, Some(order)));
    match order {
        Ordering::Less => LESS,
        Ordering::Equal => EQUAL,
        Ordering::Greater => GREATER,
    }
}

fn flash_key(key: &[u8]) -> FlashKey {
    let written = [&[key.len() as u8], key].concat();
    FlashKey::deserialize_from(&written).expect("a short key is read").0
}

fn too_long(key: &[u8]) -> Codec {
    let mut session = Session::new(erased(8192));
    assert_eq!(session.mount(0, 0).answer, 1);
    let error = session.store().apply_batch(&[BatchOp::Delete { key }]).expect_err("a long key");
    let said = said(error);
    Codec::refused(said.number, said.v)
}

fn answer(result: Result<usize, SerializationError>) -> Codec {
    result.map_or_else(refused, Codec::done)
}

fn refused(error: SerializationError) -> Codec {
    let kind = match error {
        SerializationError::BufferTooSmall => SerializationFaultKind::BufferTooSmall,
        SerializationError::InvalidData => SerializationFaultKind::InvalidData,
        SerializationError::InvalidFormat => SerializationFaultKind::InvalidFormat,
        SerializationError::Custom(code) => SerializationFaultKind::Custom(code),
        other => unreachable!("the stand-in has no {other:?}"),
    };
    Codec::refused(SERIALIZATION, serialization(kind))
}
