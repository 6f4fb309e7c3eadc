//! All 256 script codes on a store and on a fetch.

use crate::hex::hex;

/// Four rows: each half of the codes, whose last is a cut, on each call. A
/// store's key and value are its code, so the bytes at the end of a row show
/// which stores took effect.
pub fn lines() -> String {
    let mut text = String::new();
    for half in [0u8..=127, 128..=255] {
        let script = hex(&half.clone().collect::<Vec<u8>>());
        text.push_str(&format!("region 1500 -\nscript {script}\n"));
        for code in half {
            text.push_str(&format!("store {code:02x} {code:02x}\n"));
        }
        text.push_str("store 61 31\nbytes\n");
        text.push_str(&format!("script {script}\n"));
        for code in script.as_bytes().chunks(2) {
            text.push_str(&format!("fetch {}\n", String::from_utf8_lossy(code)));
        }
        text.push_str("fetch 80\nbytes\n");
    }
    text
}
