//! The region as a list of items, and back to bytes.

use outcome::Space;

#[derive(Clone, Debug, PartialEq, Eq)]
pub struct Item {
    pub key: Vec<u8>,
    pub value: Vec<u8>,
}

impl Item {
    pub fn size(&self) -> usize {
        9 + self.key.len() + self.value.len()
    }

    /// As a record with kind 1.
    pub fn record(&self) -> Vec<u8> {
        let mut bytes = (self.size() as u32).to_le_bytes().to_vec();
        bytes.extend([1, 0]);
        bytes.extend((self.value.len() as u16).to_le_bytes());
        bytes.push(self.key.len() as u8);
        bytes.extend(&self.key);
        bytes.extend(&self.value);
        bytes
    }
}

/// A record taken off the front of some bytes: kind, key, value, what is left.
pub type Taken<'a> = (u64, &'a [u8], &'a [u8], &'a [u8]);

/// The first record, if its length field agrees with its key and value and
/// all of it is there. Region and operation list have this form in common.
pub fn take(bytes: &[u8]) -> Option<Taken<'_>> {
    if bytes.len() < 9 {
        return None;
    }
    let number = |from: usize, to: usize| {
        let little_end_last = bytes[from..to].iter().rev();
        little_end_last.fold(0u64, |sum, byte| sum * 256 + u64::from(*byte))
    };
    let (whole, kind, value, key) = (number(0, 4), number(4, 6), number(6, 8), number(8, 9));
    if whole != 9 + key + value || whole > bytes.len() as u64 {
        return None;
    }
    let (record, rest) = bytes.split_at(whole as usize);
    let (key, value) = record[9..].split_at(key as usize);
    Some((kind, key, value, rest))
}

/// The items at the front of any bytes, up to the first place that has none,
/// and what stands there.
fn front(region: &[u8]) -> (Vec<Item>, &[u8]) {
    let mut items = Vec::new();
    let mut rest = region;
    while let Some((1, key, value, after)) = take(rest) {
        if key.len() > 96 || 1 + key.len() + value.len() > 482 {
            break;
        }
        items.push(Item { key: key.to_vec(), value: value.to_vec() });
        rest = after;
    }
    (items, rest)
}

/// The items of a good image; nothing if the image is bad.
pub fn items(region: &[u8]) -> Option<Vec<Item>> {
    let (items, rest) = front(region);
    let mut keys: Vec<&[u8]> = items.iter().map(|item| item.key.as_slice()).collect();
    keys.sort_unstable();
    let twice = keys.windows(2).any(|pair| pair[0] == pair[1]);
    let ends = rest.iter().all(|byte| *byte == 0xff);
    (ends && !twice).then_some(items)
}

/// The room that these items leave in a region of so many bytes.
pub fn space(items: &[Item], bytes: usize) -> Space {
    let used: usize = items.iter().map(Item::size).sum();
    let takes = items.iter().filter(|item| !crate::reserved(&item.key)).count();
    Space { used: used as u64, free: (bytes - used) as u64, takes: takes as u64 }
}

/// The room of a region as it is found, good or bad.
pub fn space_of(region: &[u8]) -> Space {
    space(&front(region).0, region.len())
}

/// Write the image of these items, which fit.
pub fn render(items: &[Item], region: &mut [u8]) {
    let mut bytes: Vec<u8> = items.iter().flat_map(Item::record).collect();
    bytes.resize(region.len(), 0xff);
    region.copy_from_slice(&bytes);
}
