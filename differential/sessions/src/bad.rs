//! Lines that the console cannot read, and lines that come too early.

use crate::text::Text;

pub fn before_a_mount(text: &mut Text) {
    text.lines(&["get a", "put a 1", "has a", "del a", "batch del a", "scan -", "", "script 00"]);
    text.lines(&["free", "script 0", "mount", "mount 70000"]);
}

pub fn lines(text: &mut Text) {
    text.lines(&["script", "mount 8192", "put a 1", "script 00 03"]);
    text.lines(&["", " ", "a", "Get a", "get", "get a b", "has"]);
    text.lines(&["has a b", "del", "del a b", "put", "put a", "put a b c", "scan", "scan - 1 2"]);
    text.lines(&["scan - -1", "scan - +1", "scan - x", "scan - 1x"]);
    text.lines(&["scan - 18446744073709551616"]);
    text.lines(&["mount", "mount x", "mount -1", "mount +8192", "mount 8192 0"]);
    text.lines(&["mount 65537", "mount 18446744073709551616"]);
    text.lines(&["mount 0x2000", "script 0", "script 000", "script 00 1", "script g0"]);
    text.lines(&["script 0000", "script 00 -"]);
    text.lines(&["batch", "batch ", "batch ;", "batch put a", "batch put a 1;", "batch ;del a"]);
    text.lines(&["batch put a 1;;del a", "batch put a 1; ; del a", "batch get a", "batch del"]);
    text.lines(&["batch del a b", "batch put a 1 del b", "batch put a 1; scan -", "batchdel a"]);
    text.lines(&["free x", "free 0", "free -", "Free", "fre", "frees", "batch free", "free;"]);
    text.lines(&["item 0b", "bad line", "mount ok 3 clean", "script\t00", "get\ta"]);
    text.words(&[b"mount 8192\r"]);
    text.words(&[b"script 00\r"]);
    text.words(&[b"scan - 1\r"]);
    text.words(&[b"free\r"]);
    text.words(&[b"free\0"]);
    text.words(&[b"free \t"]);
    text.words(&[b"\0get a"]);
    text.words(&[b"\xef\xbb\xbfget a"]);
    // None of them has changed anything: the script still has its fault.
    text.lines(&["free", "get a", "get a", "get a", "scan -"]);
}
