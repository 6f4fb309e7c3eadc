//! Random keys, values, scripts, batches and regions, drawn so that the rules'
//! edges come up often.

use crate::call::Call;
use crate::draw::Draw;
use outcome::Op;
use records::{entry, filling, item, journal, marker, record, region};

/// Few short keys, so that calls meet each other's items; and the odd ones.
pub fn key(draw: &mut Draw) -> Vec<u8> {
    match draw.below(24) {
        0..=8 => vec![b'a' + draw.below(4) as u8],
        9..=14 => vec![b'k', b'0' + draw.below(20) as u8],
        15 => vec![b'a', draw.pick(&[0, b'a', 0xff])],
        16 => Vec::new(),
        17 => vec![b'l'; draw.pick(&[95, 96, 96, 97, 98, 255])],
        18 => reserved_key(draw),
        19 => {
            let len = draw.between(1, 3);
            draw.bytes(len)
        }
        20 => vec![0xff; draw.between(1, 5)],
        21 => vec![b'm'; draw.between(80, 96)],
        _ => vec![b'a', b'b', b'c'],
    }
}

pub fn reserved_key(draw: &mut Draw) -> Vec<u8> {
    match draw.below(6) {
        0 => vec![0],
        1 => vec![0, 0x63],
        2 => vec![0, 0x6a, 0, draw.below(4) as u8],
        3 => vec![0, 0x6a, 0],
        4 => vec![0; draw.pick(&[96, 97])],
        _ => vec![0, 0x6a, 0, 0, 0],
    }
}

pub fn value(draw: &mut Draw) -> Vec<u8> {
    let len = match draw.below(10) {
        0 => 0,
        1 => draw.pick(&[255, 256, 257, 300]),
        2 => draw.between(30, 256),
        _ => draw.between(1, 6),
    };
    draw.bytes(len)
}

/// Mostly passing, with faults here and there; sometimes nothing but faults.
pub fn script(draw: &mut Draw) -> Vec<u8> {
    let len = match draw.below(6) {
        0 | 1 => 0,
        2 | 3 => draw.below(12),
        4 => draw.below(40),
        _ => draw.below(200),
    };
    let faults = draw.pick(&[2, 8, 8, 20, 60, 100]);
    (0..len).map(|_| code(draw, faults)).collect()
}

fn code(draw: &mut Draw, faults: usize) -> u8 {
    if !draw.chance(faults) {
        return 0;
    }
    let low = match draw.below(12) {
        0 => 127,
        1 => draw.byte() & 0x7f,
        2 | 3 => 4,
        _ => draw.below(15) as u8,
    };
    low | draw.pick(&[0, 0x80])
}

/// A position: at the start mostly, within or beyond the script otherwise.
pub fn position(draw: &mut Draw, script: &[u8]) -> u64 {
    match draw.below(12) {
        0 => draw.below(script.len() + 1) as u64,
        1 => script.len() as u64 + draw.below(5) as u64,
        2 => draw.pick(&[u64::MAX, u64::MAX - 1, 1 << 32]),
        _ => 0,
    }
}

pub fn list(draw: &mut Draw) -> Vec<u8> {
    let most = draw.pick(&[0, 1, 2, 3, 6, 12]);
    let strict = draw.chance(70);
    let mut list = Vec::new();
    for _ in 0..most {
        let key = if strict { short_key(draw) } else { key(draw) };
        if draw.chance(60) {
            let value = if strict { draw.bytes(3) } else { value(draw) };
            list.extend(record(1, &key, &value));
        } else {
            list.extend(record(2, &key, b""));
        }
    }
    if draw.chance(12) {
        break_list(draw, &mut list);
    }
    list
}

/// Structs over one pool: each names a key and a value somewhere in it, so that
/// parts lie over each other; now and then one is no operation.
pub fn ops(draw: &mut Draw) -> Call {
    let mut pool = [&b"abck0k1"[..], &[0, 0x63], &[b'v'; 300]].concat();
    pool.truncate(draw.pick(&[0, 7, 9, 100, 309]));
    let strict = draw.chance(60);
    let lengths = if strict { &[0, 1, 2, 3][..] } else { &[0, 1, 96, 97, 256, 257, 300] };
    let mut ops = Vec::new();
    for _ in 0..draw.pick(&[0, 1, 2, 3, 6, 12]) {
        let (key_at, key_len) = part(draw, &pool, lengths);
        let (value_at, value_len) = part(draw, &pool, lengths);
        let put = Op { kind: 1, key_at, key_len, value_at, value_len };
        ops.push(if draw.chance(60) { put } else { Op { kind: 2, value_len: 0, ..put } });
    }
    if draw.chance(15) && !ops.is_empty() {
        let at = draw.below(ops.len());
        break_op(draw, &mut ops[at], pool.len());
    }
    Call::Ops { ops, pool }
}

/// A part of one of these lengths, cut off at the pool's end.
fn part(draw: &mut Draw, pool: &[u8], lengths: &[usize]) -> (usize, usize) {
    let at = draw.below(pool.len() + 1);
    (at, draw.pick(lengths).min(pool.len() - at))
}

fn break_op(draw: &mut Draw, op: &mut Op, len: usize) {
    match draw.below(7) {
        0 => op.kind = draw.pick(&[0, 3, 255]),
        1 => *op = Op { kind: 2, value_len: 1, ..*op },
        2 => op.key_len = len - op.key_at.min(len) + 1,
        3 => op.value_len = len - op.value_at.min(len) + 1,
        4 => *op = Op { key_at: len + 1, key_len: 0, ..*op },
        5 => *op = Op { value_at: len + 1, value_len: 0, ..*op },
        _ => *op = Op { key_at: usize::MAX, key_len: draw.pick(&[0, 1, 2]), ..*op },
    }
}

fn short_key(draw: &mut Draw) -> Vec<u8> {
    draw.pick(&[&b"a"[..], b"b", b"c", b"k0", b"k1", b"", b"abc"]).to_vec()
}

fn break_list(draw: &mut Draw, list: &mut Vec<u8>) {
    match draw.below(6) {
        0 => list.push(draw.byte()),
        1 => {
            list.pop();
        }
        2 => list.extend(record(3, b"a", b"")),
        3 => list.extend(record(2, b"a", b"1")),
        4 => list.extend(record(0, b"a", b"1")),
        _ if !list.is_empty() => {
            let at = draw.below(list.len());
            list[at] = draw.byte();
        }
        _ => {}
    }
}

/// A random entry: mostly sound, else wrong in one of document 01's ways.
fn random_entry(draw: &mut Draw) -> Vec<u8> {
    let key = short_key(draw);
    match draw.below(16) {
        0 => draw.pick(&[Vec::new(), vec![0], vec![1]]),
        1 => vec![0, 5, b'a'],
        2 => entry(1, &[b'l'; 97], b""),
        3 => entry(0, &[0, 0x63], b"x"),
        4 => entry(draw.pick(&[2, 255]), &key, b""),
        5 => entry(0, &key, &[b'v'; 257]),
        6 => entry(1, &key, &vec![b't'; draw.between(1, 300)]),
        7 => entry(0, &key, &[b'v'; 256]),
        8 => entry(draw.pick(&[0, 1]), &[b'l'; 96], b"1"),
        9..=12 => entry(1, &key, b""),
        _ => entry(0, &key, &draw.bytes(2)),
    }
}

/// Bytes that are mostly a good image, of every sort that can be met.
pub fn any_region(draw: &mut Draw, len: usize) -> Vec<u8> {
    let mut bytes = match draw.below(10) {
        0..=2 => region(len, &[]),
        3 => nearly_full(draw, len),
        4 => noise(draw, len),
        _ => foreign(draw, len),
    };
    if draw.chance(8) && !bytes.is_empty() {
        damage(draw, &mut bytes);
    }
    bytes
}

/// A start that only by chance is a record.
fn noise(draw: &mut Draw, len: usize) -> Vec<u8> {
    let start = draw.below(40).min(len);
    let mut bytes = draw.bytes(start);
    bytes.resize(len, 0xff);
    bytes
}

/// Little room is left, often none, often just what a small batch needs.
fn nearly_full(draw: &mut Draw, len: usize) -> Vec<u8> {
    let left = draw.below(70);
    let mut records = Vec::new();
    let mut reserved = 0;
    if draw.chance(30) {
        let mine = bookkeeping(draw);
        reserved = mine.iter().map(Vec::len).sum();
        records.extend(mine);
    }
    if len >= left + reserved + 12 {
        records.extend(filling(len - left - reserved));
    }
    region(len, &records)
}

/// Marker and journal items, in any order.
fn bookkeeping(draw: &mut Draw) -> Vec<Vec<u8>> {
    let mut records = Vec::new();
    for index in 0..draw.below(6) as u16 {
        // A missing index is an entry that was already applied.
        if draw.chance(80) {
            records.push(journal(index, &random_entry(draw)));
        }
    }
    match draw.below(8) {
        0 | 1 => {}
        2 => records.push(item(&[0, 0x63], &[0, 2, 0xff, 0xfc])),
        3 => records.push(item(&[0, 0x63], &draw.bytes(3))),
        4 => records.push(marker(draw.pick(&[0, 545, 546, 547, 65534, 65535]))),
        _ => records.push(marker(draw.between(0, 6) as u16)),
    }
    if draw.chance(30) {
        // Bookkeeping keys that are no marker's and no journal item's.
        let odd = [&[0][..], &[0, 0x6a], &[0, 0x6a, 0], &[0, 0x6a, 0, 0, 0], &[0, 0x63, 0]];
        records.push(item(draw.pick(&odd), b"odd"));
    }
    if draw.chance(50) {
        records.reverse();
    }
    records
}

/// Items as a store leaves them and as it never would: bookkeeping, empty
/// keys, long values.
fn foreign(draw: &mut Draw, len: usize) -> Vec<u8> {
    let mut records = Vec::new();
    let mut keys: Vec<Vec<u8>> = Vec::new();
    for _ in 0..draw.pick(&[0, 3, 8, 25]) {
        let key = key(draw);
        if key.len() > 96 || key.starts_with(&[0]) || keys.contains(&key) {
            continue;
        }
        let most = 482 - 1 - key.len();
        let value = if draw.chance(2) { draw.bytes(most) } else { value(draw) };
        records.push(item(&key, &value[..value.len().min(most)]));
        keys.push(key);
    }
    if draw.chance(50) {
        let at = draw.below(records.len() + 1);
        records.splice(at..at, bookkeeping(draw));
    }
    region(len, &records)
}

/// One byte changed, where it is likely to matter.
pub fn damage(draw: &mut Draw, bytes: &mut [u8]) {
    let near = bytes.len().min(60);
    let at = if draw.chance(70) { draw.below(near) } else { draw.below(bytes.len()) };
    bytes[at] = draw.byte();
}
