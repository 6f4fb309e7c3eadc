//! Random sessions with noise: whatever bytes come, a line is answered or bad, and none is lost.

use crate::random::Draw;

const LINES: u64 = 60;

/// A line longer than this is a bad one for `takes` alone (docs/DECISIONS.md), so none is made.
const LONGEST: u64 = 69632;

pub fn session(seed: u64) -> Vec<u8> {
    let mut draw = Draw::new(seed);
    let mut bytes = Vec::new();
    for number in 0..LINES {
        // A session of bad lines alone would show little.
        if number % 20 == 0 {
            bytes.extend(b"script\nmount 8192\n");
        }
        bytes.extend(line(&mut draw));
        bytes.push(b'\n');
    }
    // A last line without a newline counts.
    if draw.below(2) == 0 {
        bytes.pop();
    }
    bytes
}

/// Most lines are whole; some have noise in them, and a few are nothing else.
fn line(draw: &mut Draw) -> Vec<u8> {
    let mut line = if draw.below(6) == 0 { b"free".to_vec() } else { draw.line().into_bytes() };
    match draw.below(40) {
        0..=4 => noise(draw, &mut line),
        5 => line = (0..draw.below(200)).map(|_| draw.below(256) as u8).collect(),
        6 if draw.below(4) == 0 => line.resize((1 + draw.below(LONGEST)) as usize, b'x'),
        _ => {}
    }
    line
}

/// Some bytes changed, put in or left out: NUL, space, newline and others.
fn noise(draw: &mut Draw, line: &mut Vec<u8>) {
    for _ in 0..1 + draw.below(3) {
        let at = draw.below(line.len() as u64 + 1) as usize;
        let byte = [b' ', 0, b'\n', b'\r', b';', b'-', b'0', draw.below(256) as u8][draw.below(8) as usize];
        match draw.below(3) {
            0 => line.insert(at, byte),
            1 => line.truncate(at),
            _ if at < line.len() => line[at] = byte,
            _ => {}
        }
    }
}
