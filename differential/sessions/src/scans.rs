//! Scans around the window of eight.

use crate::text::{script, Text};

pub fn matches(text: &mut Text) {
    text.lines(&["script", "mount 8192", "put a 1", "put z 1", "scan m"]);
    let mut held = 0;
    for matches in [7, 8, 9, 16, 17] {
        while held < matches {
            // In falling order, so that image order is never key order.
            text.line(format!("put m{} {held}", (b'z' - held) as char));
            held += 1;
        }
        text.line("scan m");
        for most in [matches, matches + 1] {
            text.line(format!("scan m {most}"));
        }
    }
    text.lines(&["scan - 8", "scan - 9", "scan mm", "scan mz", "scan mzz", "scan - 18"]);
}

/// Goes on with the 17 matches: the records of earlier passes stand.
pub fn faulted(text: &mut Text) {
    for place in [0, 20, 21, 42, 62, 63] {
        text.line(script(place, &[0x05]));
        text.line("scan m");
    }
    text.line(script(21, &[0x05]));
    text.line("scan m 8");
    text.line(script(30, &[0x7f]));
    text.lines(&["scan m", "free", "scan m", "script", "scan m", "mount 8192", "free"]);
}
