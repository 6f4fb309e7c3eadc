//! Document 01's region image, worked on in place: records from offset 0, then
//! only 0xFF.

use std::collections::HashSet;

/// Bytes of a record before its key.
pub const HEAD: usize = 9;
/// Longest key a good image holds.
pub const KEY_MAX: usize = 96;
/// Most that key length byte, key and value may take together.
pub const ITEM_MAX: usize = 482;
/// What an unused byte holds.
pub const ERASED: u8 = 0xff;

pub struct Record<'a> {
    pub key: &'a [u8],
    pub value: &'a [u8],
}

impl Record<'_> {
    /// The whole length, as the first field says it.
    pub fn size(&self) -> usize {
        HEAD + self.key.len() + self.value.len()
    }
}

/// The record that begins at `from`, if one stands there that agrees with
/// itself. Four bytes 0xFF are no length, so an erased place holds none.
pub fn record_at(region: &[u8], from: usize) -> Option<Record<'_>> {
    let rest = region.get(from..)?;
    let head = rest.get(..HEAD)?;
    let size = u32::from_le_bytes([head[0], head[1], head[2], head[3]]) as usize;
    let kind = u16::from_le_bytes([head[4], head[5]]);
    let value_len = usize::from(u16::from_le_bytes([head[6], head[7]]));
    let key_len = usize::from(head[8]);
    let agrees = kind == 1 && size == HEAD + key_len + value_len;
    let allowed = key_len <= KEY_MAX && 1 + key_len + value_len <= ITEM_MAX;
    if !agrees || !allowed {
        return None;
    }
    let body = rest.get(HEAD..size)?;
    let (key, value) = body.split_at(key_len);
    Some(Record { key, value })
}

/// Where the records end.
pub fn used(region: &[u8]) -> usize {
    let mut at = 0;
    while let Some(record) = record_at(region, at) {
        at += record.size();
    }
    at
}

/// Document 01's image test.
pub fn is_good(region: &[u8]) -> bool {
    let mut seen = HashSet::new();
    let mut at = 0;
    while let Some(record) = record_at(region, at) {
        if !seen.insert(record.key) {
            return false;
        }
        at += record.size();
    }
    region[at..].iter().all(|&byte| byte == ERASED)
}

/// Where the record with this key begins, in a good image.
pub fn find(region: &[u8], key: &[u8]) -> Option<usize> {
    let mut at = 0;
    while let Some(record) = record_at(region, at) {
        if record.key == key {
            return Some(at);
        }
        at += record.size();
    }
    None
}

/// Drop the record with this key and close the gap; nothing if there is none.
pub fn remove(region: &mut [u8], key: &[u8]) {
    let Some(from) = find(region, key) else {
        return;
    };
    let size = record_at(region, from).map_or(0, |record| record.size());
    let end = used(region);
    region.copy_within(from + size..end, from);
    region[end - size..end].fill(ERASED);
}

/// Drop the record with this key, close the gap, append the new one. False,
/// with nothing changed, exactly if it does not fit.
pub fn store(region: &mut [u8], key: &[u8], value: &[u8]) -> bool {
    let new = HEAD + key.len() + value.len();
    let old = find(region, key)
        .and_then(|from| record_at(region, from))
        .map_or(0, |record| record.size());
    if used(region) - old + new > region.len() {
        return false;
    }
    remove(region, key);
    let from = used(region);
    write_record(&mut region[from..from + new], key, value);
    true
}

/// Fill `place`, which has exactly the record's size.
pub fn write_record(place: &mut [u8], key: &[u8], value: &[u8]) {
    let size = place.len() as u32;
    place[0..4].copy_from_slice(&size.to_le_bytes());
    place[4..6].copy_from_slice(&1u16.to_le_bytes());
    place[6..8].copy_from_slice(&(value.len() as u16).to_le_bytes());
    place[8] = key.len() as u8;
    place[HEAD..HEAD + key.len()].copy_from_slice(key);
    place[HEAD + key.len()..].copy_from_slice(value);
}
