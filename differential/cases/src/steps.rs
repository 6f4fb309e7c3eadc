//! Item calls: order and room, the script's codes, effects and cuts.

use crate::hex::hex;
use records::item;

pub fn lines() -> Vec<String> {
    let mut lines = Vec::new();
    order(&mut lines);
    room(&mut lines);
    largest(&mut lines);
    codes(&mut lines);
    effects(&mut lines);
    cuts(&mut lines);
    lines
}

/// Lines with bars between them, so that a case can be read at a glance.
fn add(lines: &mut Vec<String>, new: &str) {
    lines.extend(new.split(" | ").map(str::to_string));
}

/// Where items go, and that a place is found again.
fn order(lines: &mut Vec<String>) {
    add(lines, "region 100 - | script - | open | next | next");
    add(lines, "store 61 31 | store 62 32 | store - 33 | store 6100 - | bytes");
    add(lines, "store 61 3434 | bytes | used");
    add(lines, "open | next | next | next | next | next | next | open | next");
    add(lines, "fetch 61 | fetch 6100 | fetch - | fetch 63 | fetch 00");
    add(lines, "remove - | bytes | remove 61 | remove 61 | remove 63 | bytes | used");
    add(lines, "remove 62 | remove 6100 | bytes | used");
    // Bookkeeping items are items like any other here.
    add(lines, "store 006a0001 0001 | store 0063 0001fffe | fetch 006a0001");
    add(lines, "open | next | next | next | remove 006a0001 | bytes | good");
}

/// The room rule, to the byte, with and without a record that is replaced.
fn room(lines: &mut Vec<String>) {
    let two = hex(&[item(b"a", b"1"), item(b"b", b"22")].concat());
    for len in [23, 24, 34, 35] {
        lines.push(format!("region {len} {two}"));
        add(lines, "script - | store 63 33 | used | store 61 3131 | store 62 323232");
        add(lines, "store 61 - | bytes | used");
    }
    add(lines, "region 0 - | script - | store - - | remove - | fetch - | open | next | bytes");
    add(lines, "region 8 - | script - | store - -");
    add(lines, "region 9 - | script - | store - - | good | store 61 - | store - 31");
    add(lines, "store - - | remove - | bytes");
}

/// The longest key, and items as large as a record may be.
fn largest(lines: &mut Vec<String>) {
    let key = "6b".repeat(96);
    let shorter = "6b".repeat(95);
    let value = "76".repeat(385);
    add(lines, "region 600 - | script -");
    add(lines, &format!("store {key} {value} | good | used | fetch {key} | fetch {shorter}"));
    add(lines, "open | next | next");
    add(lines, &format!("store {key} 31 | bytes | remove {key} | used"));
    add(lines, "region 490 - | script -");
    add(lines, &format!("store - {} | good | used", "77".repeat(481)));
    add(lines, "store 61 - | store - 31 | used");
}

/// Codes on a store and on a fetch; `cases codes` has all of them on both.
fn codes(lines: &mut Vec<String>) {
    let some = "000102030405060708090a0b0c0d0e0f7e";
    let with_effect = "808182838485868788898a8b8c8d8e8ffe";
    let count = some.len() / 2;
    for script in [some, with_effect] {
        add(lines, &format!("region 300 - | script {script}"));
        for number in 0..count {
            lines.push(format!("store {number:02x} {number:02x}"));
        }
        add(lines, "store 61 31 | bytes");
    }
    lines.push(format!("script {some}"));
    for number in 0..count {
        lines.push(format!("fetch {number:02x}"));
    }
}

/// A failing write that takes effect, and one that has no room to.
fn effects(lines: &mut Vec<String>) {
    let one = hex(&item(b"a", b"1"));
    add(lines, &format!("region 22 {one} | script 83818485008e"));
    add(lines, "store 62 32 | bytes | remove 61 | store 63 333333 | store 63 33");
    add(lines, "store 64 34 | remove 62 | bytes | remove 62");
    add(lines, "script 01028e0e | remove 63 | remove 7a | open | open | open");
    add(lines, "script 000e008300 | open | next | next | next | next | bytes");
    // A removal that fails without effect, and one of an absent key with it.
    add(lines, "script 0e83 | remove 63 | remove 7a | bytes");
}

/// The call that meets a cut spends its byte; those after it spend nothing.
fn cuts(lines: &mut Vec<String>) {
    add(lines, "region 60 - | script 007f00 | store 61 31 | store 62 32 | store 63 33");
    add(lines, "fetch 61 | remove 61 | open | next | good | used | bytes");
    add(lines, "script - | fetch 61 | store 62 32 | bytes");
    add(lines, "script ff83 | store 63 33 | store 64 34 | bytes");
    add(lines, "script ff | remove 61 | fetch 62 | script 7f | fetch 62 | fetch 62");
    add(lines, "script ff | open | next | script 00ff | open | next | next");
    add(lines, "script 00 | fetch 62 | fetch 62 | bytes");
}
