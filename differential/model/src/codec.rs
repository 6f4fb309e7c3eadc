//! Marker, journal key and journal entry.

pub const MARKER_KEY: [u8; 2] = [0x00, 0x63];

pub fn journal_key(index: u64) -> [u8; 4] {
    [0x00, 0x6a, (index / 256) as u8, (index % 256) as u8]
}

pub fn is_journal_key(key: &[u8]) -> bool {
    key.len() == 4 && key.starts_with(&[0x00, 0x6a])
}

/// Count, then its complement, both big-endian.
pub fn marker(count: u64) -> [u8; 4] {
    let (high, low) = ((count / 256) as u8, (count % 256) as u8);
    [high, low, 255 - high, 255 - low]
}

/// The count of a marker; anything but four agreeing bytes is none.
pub fn marker_count(bytes: &[u8]) -> Option<u64> {
    let &[high, low, _, _] = bytes else {
        return None;
    };
    let count = u64::from(high) * 256 + u64::from(low);
    (bytes == marker(count)).then_some(count)
}

#[derive(Clone, Debug, PartialEq, Eq)]
pub enum Op {
    Put(Vec<u8>, Vec<u8>),
    Delete(Vec<u8>),
}

/// The entry of an allowed operation.
pub fn entry(op: &Op) -> Vec<u8> {
    let (code, key, value): (u8, &[u8], &[u8]) = match op {
        Op::Put(key, value) => (0, key, value),
        Op::Delete(key) => (1, key, &[]),
    };
    [&[code, key.len() as u8], key, value].concat()
}

/// The operation of an entry; nothing if the entry is corrupt.
pub fn operation(entry: &[u8]) -> Option<Op> {
    let (head, rest) = entry.split_at_checked(2)?;
    let (key, value) = rest.split_at_checked(usize::from(head[1]))?;
    if key.len() > 96 || crate::reserved(key) {
        return None;
    }
    match head[0] {
        0 if value.len() <= 256 => Some(Op::Put(key.to_vec(), value.to_vec())),
        1 => Some(Op::Delete(key.to_vec())),
        _ => None,
    }
}
