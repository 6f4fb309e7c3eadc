//! Document 01's own session, and each command with each answer it can give.

use crate::text::Text;

pub fn document_session(text: &mut Text) {
    text.lines(&[
        "mount 8192",
        "put a 1",
        "script 00 00 03 03",
        "batch put a 2; del b",
        "get a",
        "script 00 00 83 03",
        "batch put a 2; del b",
        "get a",
        "scan -",
    ]);
}

pub fn each_answer(text: &mut Text) {
    text.lines(&[
        "script",
        "mount 12288",
        "free",
        "scan -",
        "get a",
        "has a",
        "del a",
        "put a 1",
        "free",
        "put b 22",
        "free",
        "get a",
        "has a",
        "put a 333",
        "free",
        "get a",
        "scan -",
        "scan b",
        "scan c",
        "scan - 0",
        "scan - 1",
        "scan - 2",
        "scan - 3",
        "del a",
        "free",
        "del a",
        "free",
        "get a",
        "has a",
        "batch put c 1",
        "free",
        "batch del c",
        "batch del c",
        "free",
        "batch put c 1; put c 2; del b; put d 4; del d; put e 5",
        "free",
        "scan -",
        // A dash is a key like any other, but not as a prefix.
        "put - dash",
        "get -",
        "put -x dashed",
        "scan -",
        "scan -x",
        "scan -- 1",
        "del -",
        "scan - 00002",
        "scan - 18446744073709551615",
        "  put   f    6  ",
        "   free  ",
        "   get f",
        "batch   put  g  7  ;   del   f   ",
        "batch put g 8;del f;put h 9",
        "put p;q a;b",
        "get p;q",
        // It is also a key like any other.
        "put free free",
        "get free",
        "free",
        "mount 008192",
        "free",
        "scan -",
        "mount 65536",
        "put a 1",
        "free",
        "scan - 1",
    ]);
}

pub fn refused_mounts(text: &mut Text) {
    for bytes in ["0", "1", "4096", "8191", "8193", "65535"] {
        text.line(format!("mount {bytes}"));
    }
    text.lines(&["mount 4096", "get a", "free", "script", "scan -", "mount 8192", "get a", "free"]);
    // A refused mount spends what it met; the next goes on from there.
    text.lines(&[
        "script 03 00 04 00 00 8e",
        "mount 8192",
        "put a 1",
        "free",
        "mount 8192",
        "has a",
        "mount 4096",
        "mount 8192",
        "free",
        "mount 8192",
        "put a 1",
        "free",
        "get a",
    ]);
}
