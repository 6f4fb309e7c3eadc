//! The keys of the measured regions, twelve bytes each.

const FEW: usize = 10;
const MANY: usize = 1000;

/// Which keys a region has.
#[derive(Clone, Copy, PartialEq, Eq)]
pub enum Keys {
    Plain,
    /// All of one hash, as somebody would choose them who knows the code.
    OneHash,
}

impl Keys {
    pub fn name(self) -> &'static str {
        match self {
            Keys::Plain => "plain",
            Keys::OneHash => "one-hash",
        }
    }

    pub fn all(self, records: usize) -> Vec<Vec<u8>> {
        match self {
            Keys::Plain => (0..records).map(|number| plain(number, records)).collect(),
            Keys::OneHash => one_hash(records),
        }
    }
}

/// The prefixes of a shorter and a longer scan, and their matches: the longer
/// one where there are records enough.
pub fn prefixes(records: usize) -> Vec<(&'static str, &'static [u8], usize)> {
    let mut all = vec![("scan of 10", b"a" as &[u8], FEW)];
    if records >= 2 * MANY {
        all.push(("scan of 1000", b"b", MANY));
    }
    all
}

/// The matches of a scan stand evenly among the others, and the digits are in
/// no order.
fn plain(number: usize, records: usize) -> Vec<u8> {
    let (few, many) = (records / FEW, records / MANY);
    let prefix = if number.is_multiple_of(few) {
        'a'
    } else if many > 1 && number % many == 1 && number / many < MANY {
        'b'
    } else {
        'c'
    };
    format!("{prefix}:{:010}", number * 7919 % 100_000_000).into_bytes()
}

/// The image test's hash of a key, as `crates/prints` has it: two bytes at a
/// time, and a last step over all.
fn mix(hash: u64, two: u64) -> u64 {
    (hash + two) * SPREAD / 256 % WORD
}

const SPREAD: u64 = 2_654_435_769;
const WORD: u64 = 1 << 32;
const TWO: u64 = 1 << 16;

/// What the hash and the last two bytes of every key add up to, so that the rest
/// of the hash is the same.
const SUM: u64 = 2_000_000_000;

/// Eight bytes that count up, two that are tried, and the last two, solved for.
fn one_hash(records: usize) -> Vec<Vec<u8>> {
    let mut keys = Vec::new();
    for number in 0.. {
        if keys.len() == records {
            break;
        }
        let mut key = format!("x:{number:06}").into_bytes();
        let front = key.chunks(2).fold(12, |hash, two| mix(hash, le16(two)));
        let solved = (0..TWO).find_map(|two| {
            let last = SUM.checked_sub(mix(front, two))?;
            (last < TWO).then_some((two, last))
        });
        if let Some((two, last)) = solved {
            key.extend([two, last].map(|two| (two as u16).to_le_bytes()).concat());
            keys.push(key);
        }
    }
    keys
}

fn le16(two: &[u8]) -> u64 {
    u64::from(two[0]) + 256 * u64::from(two[1])
}

#[cfg(test)]
mod tests {
    use super::*;

    #[test]
    fn keys_of_one_hash_have_one() {
        let keys = Keys::OneHash.all(50);
        for key in &keys {
            assert_eq!(key.len(), 12);
            let hash = |key: &[u8]| key.chunks(2).fold(12, |hash, two| mix(hash, le16(two)));
            assert_eq!(hash(key), hash(&keys[0]));
        }
        let distinct: std::collections::HashSet<_> = keys.iter().collect();
        assert_eq!(distinct.len(), 50);
    }
}
