//! Both sides of document 01's limits, each always compared.

use crate::bench::Bench;
use crate::call::Call;
use outcome::{Op, State};
use records::{entry, filling, item, journal, marker, record, region};

const HEALTHS: [u64; 3] = [0, 1, 2];

pub fn all(bench: &mut Bench) {
    regions(bench);
    marker_counts(bench);
    operation_counts(bench);
    key_and_value_lengths(bench);
    part_lengths(bench);
    part_bounds(bench);
    tight_regions(bench);
    standing_markers(bench);
    shorter_region_later(bench);
}

fn get(key: &[u8]) -> Call {
    Call::Get { key: key.to_vec(), out: 512 }
}

fn in_health(health: u64) -> State {
    State { health, ..State::default() }
}

/// Mount's region tests, alone and together, on good and bad bytes.
fn regions(bench: &mut Bench) {
    let starts = [0, 1, 4095, 4096, 0xffff_d000, 0xffff_e000, 0xffff_f000, u32::MAX];
    for len in [0, 1, 4095, 4096, 8191, 8192, 8193, 12287, 12288] {
        for start in starts {
            for first in [0xff, 0x00] {
                let mut bytes = region(len, &[]);
                if let Some(byte) = bytes.first_mut() {
                    *byte = first;
                }
                bench.insert(&bytes, &[3]);
                for at in [0, 1, 7, u64::MAX] {
                    bench.run(&Call::Mount { start, at });
                }
            }
        }
    }
}

/// The highest count a region takes and the first it refuses, by mount and by
/// a read in Pending.
fn marker_counts(bench: &mut Bench) {
    for (len, most) in [(8192, 546), (65536, 4369), (4 << 20, 65534)] {
        for count in [0, 1, most - 1, most, most + 1, 65534, 65535] {
            let last = journal(most - 1, &entry(0, b"a", b"2"));
            for records in [vec![marker(count)], vec![last, marker(count)]] {
                let bytes = region(len, &records);
                bench.insert(&bytes, &[]);
                bench.run(&Call::Mount { start: 0, at: 0 });
                bench.stand(&bytes, &[], in_health(2));
                bench.run(&get(b"a"));
            }
        }
    }
}

/// 65534 operations pass the count test, 65535 do not.
fn operation_counts(bench: &mut Bench) {
    for count in [1, 400, 512, 546, 65534, 65535, 65536] {
        let list = record(2, b"b", b"").repeat(count);
        bench.stand(&region(8192, &[]), &[], State::default());
        bench.run(&Call::Batch { list });
        bench.run(&get(b"b"));
        let delete = Op { kind: 2, key_len: 1, ..Op::default() };
        bench.stand(&region(8192, &[]), &[], State::default());
        bench.run(&Call::Ops { ops: vec![delete; count], pool: b"b".to_vec() });
        bench.run(&get(b"b"));
    }
}

/// Parts of a pool are judged by their true lengths, longer than a record's too.
fn part_lengths(bench: &mut Bench) {
    for first in [b'k', 0] {
        let mut pool = vec![b'k'; 70001];
        pool[0] = first;
        for kind in [1, 2] {
            for key_len in [0, 1, 96, 97, 255, 256, 70000] {
                for value_len in [0, 1, 256, 257, 65535, 65536, 70000] {
                    let op = Op { kind, key_at: 0, key_len, value_at: 1, value_len };
                    bench.stand(&region(8192, &[]), &[], State::default());
                    bench.run(&Call::Ops { ops: vec![op], pool: pool.clone() });
                }
            }
        }
    }
}

/// Every kind and every part of a small pool, and beyond it; a sound operation
/// before it, so that the whole list is seen to come first.
fn part_bounds(bench: &mut Bench) {
    let put = Op { kind: 1, key_at: 0, key_len: 1, value_at: 1, value_len: 1 };
    let places = [0, 1, 2, 3, 4, usize::MAX];
    for kind in [0, 1, 2, 3, 255] {
        for key_at in places {
            for value_at in places {
                for (key_len, value_len) in [(0, 0), (1, 0), (0, 1), (2, 1), (1, usize::MAX)] {
                    let op = Op { kind, key_at, key_len, value_at, value_len };
                    bench.stand(&region(8192, &[]), &[], in_health(1));
                    bench.run(&Call::Ops { ops: vec![put, op], pool: b"a1b".to_vec() });
                }
            }
        }
    }
}

/// Keys at 96 and 97, values at 256 and 257, reserved or not, everywhere.
fn key_and_value_lengths(bench: &mut Bench) {
    let mut keys = Vec::new();
    for len in [0, 1, 95, 96, 97, 98, 255] {
        for first in [b'k', 0] {
            let mut key = vec![b'k'; len];
            if let Some(byte) = key.first_mut() {
                *byte = first;
            }
            keys.push(key);
        }
    }
    let held = [item(&[b'k'; 96], b"1"), item(&[0; 96], b"2"), item(b"", b"3")];
    let bytes = region(8192, &held);
    for health in HEALTHS {
        for key in &keys {
            let mut calls = vec![
                get(key),
                Call::Contains { key: key.clone() },
                Call::Delete { key: key.clone() },
                Call::Batch { list: record(2, key, b"") },
                Call::Scan { prefix: key.clone(), most: u64::MAX, out: 1000 },
            ];
            for len in [0, 255, 256, 257, 65535] {
                let value = vec![b'v'; len];
                calls.push(Call::Batch { list: record(1, key, &value) });
                calls.push(Call::Put { key: key.clone(), value });
            }
            for call in calls {
                bench.stand(&bytes, &[], in_health(health));
                bench.run(&call);
            }
        }
    }
}

/// Every amount of room from none to more than a small batch needs, in every
/// health, with and without journal items that a recovery would free.
fn tight_regions(bench: &mut Bench) {
    let mut list = record(1, b"n", b"1");
    let single = list.clone();
    list.extend(record(2, b"q", b""));
    for left in 0..=70 {
        for debris in [false, true] {
            let freed = journal(0, &entry(0, b"z", b"z"));
            let mut records = filling(8192 - left - if debris { freed.len() } else { 0 });
            if debris {
                records.insert(1, freed);
            }
            let bytes = region(8192, &records);
            for health in HEALTHS {
                for list in [&single, &list] {
                    bench.stand(&bytes, &[], in_health(health));
                    bench.run(&Call::Batch { list: list.clone() });
                    bench.run(&get(b"n"));
                    bench.run(&Call::Contains { key: b"x".to_vec() });
                }
                bench.stand(&bytes, &[], in_health(health));
                let put = |key: &[u8]| Call::Put { key: key.to_vec(), value: b"12345".to_vec() };
                bench.run(&put(b"n"));
                bench.run(&put(&[b'x', 0, 0]));
                bench.run(&put(b"n"));
            }
        }
    }
}

/// A marker that stands though nothing was to be recovered, and a marker write
/// that fails: only a marker equal to the batch's own is a commit.
fn standing_markers(bench: &mut Bench) {
    let torn = item(&[0, 0x63], &[0, 2, 0xff, 0xfc]);
    for standing in [marker(1), marker(2), marker(3), torn] {
        let bytes = region(8192, &[item(b"a", b"1"), standing]);
        for operations in 1..=3 {
            let list = record(2, b"a", b"").repeat(operations);
            for code in [3, 0x83, 14, 0x8e, 0x7f, 0xff] {
                let script = [vec![0; operations], vec![code]].concat();
                for health in HEALTHS {
                    bench.stand(&bytes, &script, in_health(health));
                    bench.run(&Call::Batch { list: list.clone() });
                    bench.run(&get(b"a"));
                }
            }
        }
    }
}

/// A batch cut in the middle on one length of buffer, then a shorter one: the
/// marker's count may be beyond what the shorter one takes.
fn shorter_region_later(bench: &mut Bench) {
    let script = [vec![0; 1401], vec![0x7f]].concat();
    bench.insert(&region(16384, &[]), &[]);
    bench.run(&Call::Mount { start: 0, at: 0 });
    bench.set_script(&script, 0);
    let list = record(2, b"b", b"").repeat(600);
    bench.run(&Call::Batch { list });
    let short = bench.region()[..8192].to_vec();
    bench.set_region(&short);
    bench.run(&Call::Mount { start: 0, at: 1402 });
    bench.stand(&short, &[], in_health(2));
    bench.run(&get(b"b"));
}
