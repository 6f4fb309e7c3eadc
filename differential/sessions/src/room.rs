//! Regions with little room left or none.

use crate::text::{script, Text};

/// Mount and write until exactly `used` bytes of 8192 are used. The keys are
/// numbers, and a put of key and value takes nine bytes more than both.
fn fill(text: &mut Text, used: usize) {
    text.lines(&["script", "mount 8192"]);
    let mut left = used;
    let mut numbers = 10..;
    let mut put = |size: usize| {
        left -= size;
        let number = numbers.next().unwrap_or(10);
        (format!("put {number} {}", "v".repeat(size - 11)), left)
    };
    // Batches while there is room for their journal, then single puts.
    for _ in 0..6 {
        let four: Vec<String> = (0..4).map(|_| put(260).0).collect();
        text.line(format!("batch {}", four.join("; ")));
    }
    loop {
        let (line, left) = put(267);
        text.line(line);
        if left <= 534 {
            text.line(put(left / 2).0);
            text.line(put(left - left / 2).0);
            text.line("free");
            return;
        }
    }
}

/// The journal takes the last bytes, and then the put itself has no room: the
/// batch is committed and every call says full from there on.
pub fn committed_without_room(text: &mut Text) {
    fill(text, 8160);
    text.lines(&["batch put n 1", "free", "get n", "has 10", "put a 1", "del 10", "scan -"]);
    text.lines(&["batch del 10", "scan - 0", "free"]);
}

pub fn to_the_last_byte(text: &mut Text) {
    fill(text, 8192 - 11);
    // One byte too many, then just enough, then nothing fits any more.
    text.lines(&["put n 22", "free", "put n 1", "free", "put m 1", "put n 2", "put n 22", "get n"]);
    text.lines(&["batch del n", "batch put n 3", "free", "put 10 short", "free", "put m 1"]);
    text.line("put n 22");
    // A store that does not fit takes no effect and keeps its coded fault.
    text.lines(&["script 83 85", "put 10 3", "free", "put 11 22", "free", "get 10"]);
    text.lines(&["del 11", "free", "batch put 11 3; put 12 3; del 13; put q 1", "free"]);
    text.lines(&["scan q", "scan 11"]);
}

/// In Debris a full store clears the journal and tries once more.
pub fn debris_gives_way(text: &mut Text) {
    fill(text, 8192 - 40);
    text.line(script(1, &[0x03]));
    text.lines(&["batch put n 1; put o 1", "free", "put p 1", "free", "get n"]);
    text.line(script(1, &[0x03]));
    text.lines(&["batch put n 1; put o 1", "put q 1234567890123", "free", "has q"]);
    text.lines(&["script 03", "batch del n", "script 04 00 00 00 00 00 00", "put r 1", "free"]);
    text.lines(&["script 03", "batch del n", "script 04 05", "put r 1", "free", "script 04"]);
    text.lines(&["put 10 r", "free"]);
    text.lines(&["put big 12345678901234567890123456789", "has big"]);
}
