//! Script codes on every command, cuts, and batches with a fault at each step.

use crate::text::{script, Text};

/// Every code with a meaning but the cut, and two without.
const CODES: [u8; 17] = [0, 1, 2, 3, 4, 5, 6, 7, 8, 9, 10, 11, 12, 13, 14, 15, 126];

pub fn codes(text: &mut Text) {
    text.line("mount 8192");
    // One script for a row of puts; the numbers and the room show which took effect.
    for bit in [0, 0x80] {
        text.line(script(0, &CODES.map(|code| code + bit)));
        for code in CODES {
            text.line(format!("put a {}", code + bit));
            text.line("free");
        }
        text.line("get a");
    }
    text.line(script(0, &[8, 9, 10, 12, 13]));
    for _ in 0..5 {
        text.line("get a");
    }
    // Either case of hex digits.
    text.lines(&["script 8E 0e 0B", "put b 1", "get b", "has b", "get b"]);
}

pub fn commands(text: &mut Text) {
    text.lines(&["script", "mount 8192", "put a 1", "put b 2"]);
    // Pending, with bit 7: a store or removal is done all the same.
    text.lines(&["script 8e", "has a", "free", "has a", "script 8e", "del a", "free", "put a 1"]);
    text.lines(&["script 00 8e", "del a", "free", "put a 1", "free", "script 8e", "scan -"]);
    text.lines(&["script 00 00 8e", "scan -", "script 00 00 00 8e", "scan - 2", "scan - 0"]);
    text.lines(&["script 8e", "batch put b 3; del c", "free", "scan -", "batch del a", "free"]);
    for code in [0x05, 0xff] {
        for place in 0..3 {
            text.line(script(place, &[code]));
            text.line("mount 8192");
        }
    }
}

pub fn cuts(text: &mut Text) {
    text.lines(&["script", "mount 8192", "put a 1", "script 00 7f 00", "put b 2", "free"]);
    // The cut stands through anything but a mount, and each call is counted.
    for line in ["put c 3", "free", "get a", "has a", "del a", "scan -", "scan - 0"] {
        text.line(line);
    }
    text.lines(&[
        "script",
        "get a",
        "batch del a",
        "free",
        "scan -",
        "mount 8192",
        "free",
        "get a",
    ]);
    text.lines(&["script ff", "put a 1", "free", "get a", "script 00", "mount 4096", "get a"]);
    text.lines(&["script", "mount 8192", "put a 1", "script 7f", "mount 8192", "mount 8192"]);
    text.lines(&["put a 1", "script 00 00 7f", "batch put a 2; del b", "free", "get a", "scan -"]);
    text.lines(&["script", "mount 8192", "put a 1", "script 00 00 ff", "batch put a 2", "free"]);
    text.lines(&["get a", "batch del a", "free", "mount 8192"]);
    // Calls under the cut spend nothing: the mount meets 00 and then 05.
    text.lines(&["script 7f 00 05", "get a", "get a", "has a", "mount 8192"]);
}

/// A batch of two with a fault at each of its item calls, then what is seen.
pub fn batches(text: &mut Text) {
    text.lines(&["script", "mount 8192"]);
    for place in 0..8 {
        text.line(script(place, &[0x03]));
        text.line(format!("batch put a {place}; del b"));
        text.lines(&["free", "get a", "free"]);
    }
    for place in [2, 3, 6] {
        text.line(script(place, &[0x83, 0x04]));
        text.line(format!("batch put b {place}; del a"));
        text.lines(&["free", "scan -", "free"]);
    }
    text.lines(&["script 04", "batch put a x", "put b 1", "get b", "batch del b", "scan -"]);
    // The first journal item stands, though its store failed.
    text.lines(&["script 83", "batch put a x", "free", "get a", "free", "batch del q", "free"]);
    // A reserved delete in Pending does not recover; an over-long one does.
    text.lines(&["script 00 03 03", "batch put a y"]);
    text.words(&[b"del \0"]);
    text.line("free");
    text.words(&[b"del", &[b'k'; 97]]);
    text.line("free");
    text.lines(&["script 00 03 03", "batch put a z"]);
    text.words(&[b"get \0"]);
    text.lines(&["script 00 83 03", "batch put a z", "free", "scan - 0", "free", "get a"]);
}
