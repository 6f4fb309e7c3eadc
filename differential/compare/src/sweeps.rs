//! Every script code at every item call of small runs, and scans of every
//! interesting number of matches.

use crate::bench::Bench;
use crate::call::Call;
use outcome::{Op, State};
use records::{entry, item, journal, marker, record, region};

pub fn all(bench: &mut Bench) {
    batches(bench);
    recoveries(bench);
    single_calls(bench);
    scans(bench);
    faulted_scans(bench);
    record_limits(bench);
}

/// A script that passes until its last byte.
fn fault_at(place: usize, code: u8) -> Vec<u8> {
    let mut script = vec![0; place];
    script.push(code);
    script
}

fn get(key: &[u8]) -> Call {
    Call::Get { key: key.to_vec(), out: 512 }
}

fn scan(prefix: &[u8], most: u64, out: usize) -> Call {
    Call::Scan { prefix: prefix.to_vec(), most, out }
}

/// Document 01's batch with one fault anywhere, and with a second right after;
/// as a list and then as structs, and the other way round.
fn batches(bench: &mut Bench) {
    let bytes = region(8192, &[item(b"a", b"1")]);
    let list = Call::Batch { list: [record(1, b"a", b"2"), record(2, b"b", b"")].concat() };
    let put = Op { kind: 1, key_at: 0, key_len: 1, value_at: 1, value_len: 1 };
    let delete = Op { kind: 2, key_at: 2, key_len: 1, value_at: 3, value_len: 0 };
    let ops = Call::Ops { ops: vec![put, delete], pool: b"a2b".to_vec() };
    for code in 0..=255 {
        for place in 0..9 {
            for second in [None, Some(3), Some(0x83), Some(0x7f)] {
                let mut script = fault_at(place, code);
                script.extend(second);
                for (batch, again) in [(&list, &ops), (&ops, &list)] {
                    bench.insert(&bytes, &[]);
                    bench.run(&Call::Mount { start: 0, at: 0 });
                    bench.set_script(&script, 0);
                    bench.run(batch);
                    bench.run(&get(b"a"));
                    bench.run(again);
                    let at = bench.at();
                    if bench.run(&Call::Mount { start: 0, at }).answer == 1 {
                        bench.run(&scan(b"", u64::MAX, 500));
                    }
                }
            }
        }
    }
}

/// Recovery of each sort with one fault anywhere, by mount and by calls.
fn recoveries(bench: &mut Bench) {
    let put = journal(0, &entry(0, b"a", b"2"));
    let delete = journal(1, &entry(1, b"b", b""));
    let user = item(b"b", b"1");
    let torn = item(&[0, 0x63], &[0, 2, 0xff, 0xfc]);
    // Keys that begin like a journal key and are none are left alone.
    let odd = [&[0][..], &[0, 0x6a], &[0, 0x6a, 0], &[0, 0x6a, 0, 0, 0], &[0, 0x63, 0]];
    let odd = odd.map(|key| item(key, b"odd")).concat();
    let sorts = [
        vec![user.clone(), put.clone(), delete.clone()],
        vec![odd.clone(), put.clone(), user.clone(), delete.clone()],
        vec![put.clone(), user.clone(), delete.clone(), torn.clone()],
        vec![odd, torn, delete.clone()],
        vec![user.clone(), put, delete, marker(2)],
        vec![user.clone(), journal(0, &[2, 0]), marker(1)],
        vec![user, marker(5)],
    ];
    for records in sorts {
        let bytes = region(8192, &records);
        for code in [1, 4, 14, 0x81, 0x84, 0x8e, 0x7f, 0xff, 100] {
            for place in 0..11 {
                let script = fault_at(place, code);
                bench.insert(&bytes, &script);
                bench.run(&Call::Mount { start: 0, at: 0 });
                let at = bench.at();
                bench.run(&Call::Mount { start: 0, at });
                for health in [1, 2] {
                    let state = State { health, ..State::default() };
                    let calls = [
                        get(b"b"),
                        Call::Put { key: b"c".to_vec(), value: b"3".to_vec() },
                        Call::Delete { key: b"b".to_vec() },
                        Call::Delete { key: vec![b'l'; 97] },
                        Call::Batch { list: record(2, b"b", b"") },
                        scan(b"", 0, 100),
                        scan(b"", 9, 100),
                    ];
                    for call in calls {
                        bench.stand(&bytes, &script, state);
                        bench.run(&call);
                        bench.run(&get(b"a"));
                    }
                }
            }
        }
    }
}

/// Every code on the first two item calls of each small call.
fn single_calls(bench: &mut Bench) {
    let bytes = region(300, &[item(b"a", b"1")]);
    for code in 0..=255 {
        for place in 0..2 {
            for health in 0..3 {
                let calls = [
                    get(b"a"),
                    Call::Contains { key: b"b".to_vec() },
                    Call::Put { key: b"a".to_vec(), value: b"3".to_vec() },
                    Call::Delete { key: b"a".to_vec() },
                    scan(b"a", 5, 60),
                ];
                for call in calls {
                    let state = State { health, ..State::default() };
                    bench.stand(&bytes, &fault_at(place, code), state);
                    bench.run(&call);
                }
            }
        }
    }
}

/// `matches` keys under `m`, given in no order, among other items.
fn matching(matches: usize) -> Vec<u8> {
    let mut records = vec![item(b"a", b"1"), item(&[0, 1], b"2"), item(b"z", b"3")];
    for place in 0..matches {
        // No count asked for has a factor of 11, so this takes every number
        // once, in no order.
        let number = (place * 11 + 3) % matches;
        records.push(item(&[b'm', number as u8], &vec![b'v'; number]));
    }
    region(8192, &records)
}

/// Ends of a scan: the number of matches, the limit and the room around each
/// other.
fn scans(bench: &mut Bench) {
    for matches in [0, 1, 7, 8, 9, 15, 16, 17, 24] {
        let bytes = matching(matches);
        let whole: usize = (0..matches).map(|number| 11 + number).sum();
        let limits = [0, 1, 7, 8, 9, 16, 17, matches as u64, matches as u64 + 1, u64::MAX];
        for most in limits {
            for out in [whole + 1, whole, whole.saturating_sub(1), whole / 2, 0] {
                bench.stand(&bytes, &[], State::default());
                bench.run(&scan(b"m", most, out));
            }
        }
        for prefix in [&b""[..], b"m", b"ma", b"\0", &[b'm'; 97]] {
            bench.stand(&bytes, &[], State::default());
            bench.run(&scan(prefix, u64::MAX, 8192));
        }
    }
}

/// A fault at every item call of a scan of several passes.
fn faulted_scans(bench: &mut Bench) {
    for matches in [8, 9, 17] {
        let bytes = matching(matches);
        for place in 0..80 {
            for code in [1, 0x85, 14, 0x7f] {
                bench.stand(&bytes, &fault_at(place, code), State::default());
                bench.run(&scan(b"m", u64::MAX, 8192));
                bench.run(&scan(b"m", 3, 8192));
            }
        }
        // A foreign value over the limit, before and after matches.
        let long = item(b"mm", &[b'w'; 257]);
        for front in [false, true] {
            let mut foreign = bytes.clone();
            let used = foreign.iter().rposition(|byte| *byte != 0xff).map_or(0, |at| at + 1);
            foreign.truncate(used);
            let at = if front { 0 } else { foreign.len() };
            foreign.splice(at..at, long.clone());
            foreign.resize(8192, 0xff);
            bench.stand(&foreign, &[], State::default());
            bench.run(&scan(b"", u64::MAX, 8192));
            bench.run(&scan(b"m", 2, 8192));
            bench.run(&scan(b"mmm", 2, 8192));
            bench.run(&get(b"mm"));
        }
    }
}

/// The image test's limits: what a record may hold, and how an image may end.
fn record_limits(bench: &mut Bench) {
    let mut images = Vec::new();
    for key in [0, 1, 95, 96, 97, 255] {
        for item_len in [481, 482, 483] {
            let value = vec![b'v'; item_len - 1 - key];
            let one = item(&vec![b'k'; key], &value);
            images.push(one.clone());
            images.push([one, item(b"q", b"1")].concat());
        }
    }
    let one = item(b"a", b"1");
    for kind in [0, 2, 3, 0x100, 0xffff] {
        images.push(record(kind, b"a", b"1"));
    }
    for cut in 0..one.len() {
        images.push(one[..cut].to_vec());
    }
    for place in 0..one.len() {
        for change in [1, 0x80, 0xff] {
            let mut changed = one.clone();
            changed[place] ^= change;
            images.push(changed);
        }
    }
    images.push([one.clone(), one.clone()].concat());
    images.push([item(b"", b""), item(b"", b"")].concat());
    images.push([one.clone(), vec![0xff, 0xff, 0xff, 0xff, 1]].concat());
    images.push([one.clone(), vec![0xff; 40], vec![0]].concat());
    for image in images {
        for spare in [0, 1, 8, 9, 100] {
            let mut bytes = image.clone();
            bytes.resize(image.len() + spare, 0xff);
            bench.stand(&bytes, &[3], State::default());
            bench.run(&get(b"q"));
            bench.run(&Call::Batch { list: vec![1] });
            bench.run(&Call::Batch { list: Vec::new() });
            bench.run(&scan(b"", 0, 10));
            bench.run(&Call::Delete { key: vec![0] });
        }
    }
}
