//! Document 01's key codec, a length byte and then the bytes; and a journal
//! entry written.

use crate::codec::{entry, Op};
use crate::No;
use outcome::{Codec, KeyRead, EQUAL, GREATER, LESS};

const MOST: usize = 96;

fn too_small() -> Codec {
    Codec::refused(11, [0; 3])
}

fn invalid() -> Codec {
    Codec::refused(11, [1, 0, 0])
}

pub fn key_read(buffer: &[u8]) -> KeyRead {
    let Some((len, rest)) = buffer.split_first() else {
        return KeyRead::new(too_small(), &[]);
    };
    let len = usize::from(*len);
    if len > MOST || len > rest.len() {
        return KeyRead::new(invalid(), &[]);
    }
    KeyRead::new(Codec::done(1 + len), &rest[..len])
}

pub fn key_write(key: &[u8], out: &mut [u8]) -> Codec {
    if key.len() > MOST {
        return refused(No::key_too_long(key.len()));
    }
    lay(&[&[key.len() as u8], key].concat(), out)
}

/// Tested as a batch tests an operation, then the room.
pub fn entry_write(kind: u64, key: &[u8], value: &[u8], out: &mut [u8]) -> Codec {
    let deletes = kind == 2;
    if key.len() > MOST {
        return refused(No::key_too_long(key.len()));
    }
    if crate::reserved(key) {
        return refused(No::RESERVED);
    }
    if deletes {
        return lay(&entry(&Op::Delete(key.to_vec())), out);
    }
    if value.len() > 256 {
        return refused(No::value_too_long(value.len()));
    }
    lay(&entry(&Op::Put(key.to_vec(), value.to_vec())), out)
}

fn refused(No(number, v): No) -> Codec {
    Codec::refused(number, v)
}

fn lay(written: &[u8], out: &mut [u8]) -> Codec {
    let Some(place) = out.get_mut(..written.len()) else {
        return too_small();
    };
    place.copy_from_slice(written);
    Codec::done(written.len())
}

/// The length question tests only for emptiness.
pub fn key_len(buffer: &[u8]) -> Codec {
    buffer.first().map_or(too_small(), |len| Codec::done(usize::from(*len) + 1))
}

/// Byte by byte; a proper prefix is smaller.
pub fn key_order(a: &[u8], b: &[u8]) -> u64 {
    for (x, y) in a.iter().zip(b) {
        if x != y {
            return if x < y { LESS } else { GREATER };
        }
    }
    match (a.len() < b.len(), a.len() > b.len()) {
        (true, _) => LESS,
        (_, true) => GREATER,
        _ => EQUAL,
    }
}
