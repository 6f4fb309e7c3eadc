//! Images, good and bad, on both sides of each rule of the image test.

use crate::hex::hex;
use records::{item, record};

pub fn lines() -> Vec<String> {
    let mut lines = ends();
    lines.extend(sizes());
    lines.extend(disagreeing());
    lines.extend(twice());
    lines.extend(on_a_bad_image());
    lines
}

/// A region of `len` bytes and its test.
fn test(lines: &mut Vec<String>, len: usize, bytes: &[u8]) {
    lines.push(format!("region {len} {}", hex(bytes)));
    lines.push("good".to_string());
}

/// How an image may end.
fn ends() -> Vec<String> {
    let one = item(b"a", b"1");
    let mut lines = Vec::new();
    test(&mut lines, 0, &[]);
    lines.push("used".to_string());
    for len in [1, 8, 9, 600] {
        test(&mut lines, len, &[]);
    }
    // The record ends at the region's end, or tails of up to nine bytes follow.
    for tail in [0, 1, 8, 9] {
        test(&mut lines, one.len() + tail, &one);
        lines.push("used".to_string());
    }
    // The last record is cut short, within its body and within its head.
    for left in [10, 8, 4] {
        test(&mut lines, left, &one[..left]);
        test(&mut lines, 40, &one[..left]);
        test(&mut lines, 11 + left, &[&one, &one[..left]].concat());
    }
    // Something after erased bytes.
    test(&mut lines, 40, &[0xff, 0xff, 0xff, 0xff, 0]);
    test(&mut lines, 40, &[0xff, 0xff, 0xff, 0xff, 1, 0, 1, 0, 1, b'a', b'1']);
    test(&mut lines, 40, &[&[0xff; 4][..], &one].concat());
    test(&mut lines, 40, &[&one[..], &[0xff; 28], &[0xfe]].concat());
    test(&mut lines, 12, &[&one[..], &[0]].concat());
    test(&mut lines, 40, &[&one[..], &[0xff; 9], &item(b"b", b"2")].concat());
    lines
}

/// What one record may hold.
fn sizes() -> Vec<String> {
    let mut lines = Vec::new();
    // Key length byte, key and value may take 482 bytes, however divided.
    for (key, value) in [(0, 481), (0, 482), (1, 480), (1, 481), (96, 385), (96, 386)] {
        let one = item(&vec![b'k'; key], &vec![b'v'; value]);
        test(&mut lines, one.len(), &one);
    }
    for key in [95, 96, 97, 255] {
        test(&mut lines, 300, &item(&vec![b'k'; key], b"1"));
    }
    test(&mut lines, 9, &item(b"", b""));
    lines.extend(["fetch -", "open", "next", "next"].map(String::from));
    for value in [256, 257, 300] {
        test(&mut lines, 400, &item(b"f", &vec![b'v'; value]));
        lines.push("fetch 66".to_string());
    }
    lines
}

/// Records that do not agree with themselves.
fn disagreeing() -> Vec<String> {
    let mut lines = Vec::new();
    for kind in [0, 2, 0x0101] {
        test(&mut lines, 40, &record(kind, b"a", b"1"));
    }
    test(&mut lines, 40, &record(2, b"a", b""));
    let one = item(b"a", b"1");
    for (place, byte) in [
        (0, 10),
        (0, 12),
        (0, 0),
        (1, 1),
        (2, 1),
        (3, 0x80),
        (6, 0),
        (6, 2),
        (7, 1),
        (8, 0),
        (8, 2),
    ] {
        let mut changed = one.clone();
        changed[place] = byte;
        test(&mut lines, 600, &changed);
    }
    // Two lengths wrong in a way that keeps the sum: it is another record.
    let mut moved = one;
    (moved[6], moved[8]) = (2, 0);
    test(&mut lines, 11, &moved);
    lines.push("fetch -".to_string());
    lines
}

fn twice() -> Vec<String> {
    let mut lines = Vec::new();
    let same = [item(b"a", b"1"), item(b"b", b"1"), item(b"a", b"1")].concat();
    let other = [item(b"a", b"1"), item(b"a", b"22")].concat();
    let empty = [item(b"", b""), item(b"", b"1")].concat();
    let longer =
        [item(b"a", b"1"), item(b"a\0", b"1"), item(b"", b"1"), item(b"\xff", b"")].concat();
    for bytes in [same, other, empty, longer] {
        test(&mut lines, 100, &bytes);
        lines.push("used".to_string());
    }
    lines
}

fn on_a_bad_image() -> Vec<String> {
    let mut lines = vec!["region 30 00".to_string(), "script 0383".to_string()];
    for line in ["good", "store 61 31", "remove 61", "fetch 61", "open", "next", "used", "bytes"] {
        lines.push(line.to_string());
    }
    lines
}
