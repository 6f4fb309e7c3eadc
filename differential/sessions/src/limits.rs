//! Both sides of the key and value limits, reserved keys, and bytes that are
//! part of a word though they look otherwise.

use crate::text::Text;

pub fn keys_and_values(text: &mut Text) {
    text.line("mount 8192");
    for len in [96, 97] {
        let key = vec![b'k'; len];
        text.words(&[b"put", &key, b"1"]);
        text.line("free");
        text.words(&[b"get", &key]);
        text.words(&[b"has", &key]);
        text.words(&[b"scan", &key]);
        text.words(&[b"batch put", &key, b"2"]);
        text.words(&[b"del", &key]);
        text.words(&[b"batch del", &key]);
    }
    // A list record holds a key of 255 bytes; what it cannot hold is a bad line.
    text.words(&[b"batch del", &[b'k'; 255]]);
    text.words(&[b"batch del", &[b'k'; 256]]);
    text.words(&[b"del", &[b'k'; 256]]);
    for len in [256, 257] {
        let value = vec![b'v'; len];
        text.words(&[b"put a", &value]);
        text.words(&[b"batch put b", &value, b"; put c 1"]);
        text.line("free");
    }
    text.lines(&["get a", "get b", "scan c"]);
    // A good operation before a wrong one is not done.
    text.words(&[b"batch put good 1; put", &[b'k'; 97], b"1"]);
    text.words(&[b"batch put", &[b'k'; 97], b"1; put b", &[b'v'; 257]]);
    text.words(&[b"batch put b", &[b'v'; 257], b"; del", &[b'k'; 97]]);
    text.line("has good");
    reserved(text);
}

/// Which refusal comes first depends on the call.
fn reserved(text: &mut Text) {
    let long_value = [b'v'; 257];
    let mut long_key = [b'k'; 97];
    long_key[0] = 0;
    for key in [&b"\0c"[..], &long_key] {
        text.words(&[b"put", key, b"1"]);
        text.line("free");
        text.words(&[b"put", key, &long_value]);
        text.words(&[b"batch put", key, b"1"]);
        text.words(&[b"batch put", key, &long_value]);
        text.words(&[b"batch put good 1; del", key]);
        text.words(&[b"get", key]);
        text.words(&[b"has", key]);
        text.words(&[b"del", key]);
        text.words(&[b"scan", key]);
    }
}

pub fn odd_bytes(text: &mut Text) {
    text.line("mount 8192");
    for word in [&b"a\tb"[..], b"a\r", b"\t", b"a\0", b"\xff\xfe", b"\x80", b"\"q\"", b"#"] {
        text.words(&[b"put", word, word]);
        text.words(&[b"get", word]);
    }
    // 61 is below 61 00, and that is below 61 09.
    text.line("put a 1");
    text.line("free");
    text.line("scan a");
    text.line("scan -");
}
