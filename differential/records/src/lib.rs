//! Building records, journal items, lists and regions for tests.

/// One record of any kind, with whatever lengths the parts have.
pub fn record(kind: u16, key: &[u8], value: &[u8]) -> Vec<u8> {
    let mut bytes = Vec::with_capacity(9 + key.len() + value.len());
    bytes.extend((9 + key.len() as u32 + value.len() as u32).to_le_bytes());
    bytes.extend(kind.to_le_bytes());
    bytes.extend((value.len() as u16).to_le_bytes());
    bytes.push(key.len() as u8);
    bytes.extend(key);
    bytes.extend(value);
    bytes
}

pub fn item(key: &[u8], value: &[u8]) -> Vec<u8> {
    record(1, key, value)
}

/// The records, as many as fit, then erased bytes.
pub fn region(len: usize, records: &[Vec<u8>]) -> Vec<u8> {
    let mut bytes = Vec::with_capacity(len);
    for record in records {
        if bytes.len() + record.len() <= len {
            bytes.extend(record);
        }
    }
    bytes.resize(len, 0xff);
    bytes
}

/// Items with keys `x` and two bytes more that use exactly `used` bytes.
pub fn filling(used: usize) -> Vec<Vec<u8>> {
    let mut items = Vec::new();
    let mut left = used;
    while left > 0 {
        // A record takes 12 bytes at the least, so leave no smaller rest.
        let size = match left {
            12..=268 => left,
            269..=280 => left - 12,
            _ => 268,
        };
        let number = (items.len() as u16).to_be_bytes();
        let key = [b'x', number[0], number[1]];
        items.push(item(&key, &vec![b'v'; size - 12]));
        left -= size;
    }
    items
}

pub fn marker(count: u16) -> Vec<u8> {
    let value = [count.to_be_bytes(), (!count).to_be_bytes()].concat();
    item(&[0, 0x63], &value)
}

pub fn journal(index: u16, entry: &[u8]) -> Vec<u8> {
    let [high, low] = index.to_be_bytes();
    item(&[0, 0x6a, high, low], entry)
}

pub fn entry(code: u8, key: &[u8], value: &[u8]) -> Vec<u8> {
    [&[code, key.len() as u8], key, value].concat()
}
