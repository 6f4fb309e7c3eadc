//! The regions that are measured, and the calls on each.

use super::keys::{prefixes, Keys};
use crate::call::Call;
use records::{entry, item, journal, marker, record, region};

/// A region with so many records of one size.
pub struct Shape {
    pub len: usize,
    pub records: usize,
    pub keys: Keys,
    value: usize,
}

/// A call and the bytes that it finds.
pub struct Case {
    pub name: &'static str,
    pub image: Vec<u8>,
    pub call: Call,
}

const BATCHES: [(usize, &str); 3] = [(1, "batch of 1"), (16, "batch of 16"), (200, "batch of 200")];
const PENDING: usize = 16;
/// Bytes of a record of these regions without its value.
const RECORD: usize = 9 + 12;

const fn plain(len: usize, records: usize, value: usize) -> Shape {
    Shape { len, records, keys: Keys::Plain, value }
}

/// Few large records, and many small ones, in each region; then the keys that
/// are the worst for the image test.
pub const SHAPES: [Shape; 14] = [
    plain(8 << 10, 10, 256),
    plain(8 << 10, 120, 4),
    plain(64 << 10, 200, 256),
    plain(64 << 10, 300, 160),
    plain(64 << 10, 600, 80),
    plain(64 << 10, 2400, 4),
    plain(128 << 10, 1000, 80),
    plain(1 << 20, 3000, 256),
    plain(1 << 20, 10_000, 80),
    plain(4 << 20, 12_000, 256),
    plain(4 << 20, 40_000, 80),
    Shape { keys: Keys::OneHash, ..plain(64 << 10, 600, 80) },
    Shape { keys: Keys::OneHash, ..plain(64 << 10, 2400, 4) },
    Shape { keys: Keys::OneHash, ..plain(1 << 20, 10_000, 80) },
];

/// A key that no region has, shorter than theirs.
fn new_key(number: usize) -> Vec<u8> {
    format!("n:{number:05}").into_bytes()
}

impl Shape {
    fn image(&self, items: &[Vec<u8>]) -> Vec<u8> {
        let used: usize = items.iter().map(Vec::len).sum();
        assert!(used <= self.len, "the records fit");
        region(self.len, items)
    }

    /// A call looks for the key in the middle of the region, or writes new ones.
    pub fn cases(&self) -> Vec<Case> {
        let keys = self.keys.all(self.records);
        let value = vec![b'v'; self.value];
        let items: Vec<Vec<u8>> = keys.iter().map(|key| item(key, &value)).collect();
        let image = self.image(&items);
        let mount = Call::Mount { start: 0, at: 0 };
        let mut calls = self.one_key(&keys[self.records / 2]);
        calls.extend(BATCHES.map(|(count, name)| (name, batch(count))));
        if self.keys == Keys::Plain {
            calls.extend(self.scans());
        }
        calls.push(("mount clean", mount.clone()));
        let with = |(name, call)| Case { name, image: image.clone(), call };
        let mut cases: Vec<Case> = calls.into_iter().map(with).collect();
        let image = self.image(&[items, pending()].concat());
        cases.push(Case { name: "mount pending", image, call: mount });
        cases
    }

    fn one_key(&self, key: &[u8]) -> Vec<(&'static str, Call)> {
        let key = key.to_vec();
        vec![
            ("get", Call::Get { key: key.clone(), out: self.value }),
            ("contains", Call::Contains { key: key.clone() }),
            ("put", Call::Put { key: key.clone(), value: vec![b'w'; self.value] }),
            ("delete", Call::Delete { key }),
        ]
    }

    fn scans(&self) -> Vec<(&'static str, Call)> {
        let scan = |(name, prefix, matches): (_, &[u8], usize)| {
            let out = matches * (RECORD + self.value);
            (name, Call::Scan { prefix: prefix.to_vec(), most: u64::MAX, out })
        };
        prefixes(self.records).into_iter().map(scan).collect()
    }
}

/// Puts of new keys.
fn batch(count: usize) -> Call {
    Call::Batch { list: (0..count).flat_map(|number| record(1, &new_key(number), b"v")).collect() }
}

/// A batch that is committed, and none of it applied.
fn pending() -> Vec<Vec<u8>> {
    let put = |number: usize| journal(number as u16, &entry(0, &new_key(number), b"v"));
    (0..PENDING).map(put).chain([marker(PENDING as u16)]).collect()
}
