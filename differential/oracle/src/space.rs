//! The room of a region, by walking it: the original keeps no such numbers.

use outcome::Space;
use sequential_storage::image::record_at;

/// Of any bytes: the records up to the first place that has none. A key that
/// begins with byte 0 is no user's; an empty one is.
pub fn walk(region: &[u8]) -> Space {
    let (mut at, mut takes) = (0, 0);
    while let Some(record) = record_at(region, at) {
        at += record.size();
        takes += u64::from(record.key.first() != Some(&0));
    }
    Space { used: at as u64, free: (region.len() - at) as u64, takes }
}
