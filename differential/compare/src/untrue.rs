//! States whose numbers are not their region's: a call without an effect hands
//! them on, and the first item call with one makes them true.

use crate::bench::Bench;
use crate::call::Call;
use outcome::{State, CLEAN, DEBRIS, PENDING};
use records::{entry, item, journal, marker, record, region};

/// Health, script and call.
type Case = (u64, &'static [u8], Call);

pub fn all(bench: &mut Bench) {
    let sound = region(100, &[item(b"a", b"1"), item(b"b", b"2")]);
    handed_on(bench, &sound, without_effect());
    made_true(bench, &sound, with_effect());
    // A recovery makes them true by what it removes or applies.
    let debris = region(100, &[item(b"a", b"1"), journal(0, &entry(1, b"a", b""))]);
    let pending = region(100, &[journal(0, &entry(0, b"a", b"1")), marker(1)]);
    for bytes in [debris, pending] {
        handed_on(bench, &bytes, vec![(DEBRIS, &[], get()), (PENDING, &[3], get())]);
        made_true(bench, &bytes, vec![(PENDING, &[], get()), (DEBRIS, &[], batch())]);
    }
    // A bad image: records, and then no record.
    let bad = [item(b"a", b"1"), vec![1; 20]].concat();
    handed_on(bench, &bad, [without_effect(), with_effect()].concat());
}

fn get() -> Call {
    Call::Get { key: b"a".to_vec(), out: 10 }
}

fn put(key: &[u8], value: &[u8]) -> Call {
    Call::Put { key: key.to_vec(), value: value.to_vec() }
}

fn delete(key: &[u8]) -> Call {
    Call::Delete { key: key.to_vec() }
}

/// Of a key that is not there.
fn batch() -> Call {
    Call::Batch { list: record(2, b"q", b"") }
}

fn without_effect() -> Vec<Case> {
    let scan = || Call::Scan { prefix: Vec::new(), most: 9, out: 100 };
    vec![
        (CLEAN, &[], get()),
        (CLEAN, &[0x83], get()),
        (DEBRIS, &[], get()),
        // A recovery with nothing to remove.
        (PENDING, &[], get()),
        (PENDING, &[], Call::Contains { key: b"b".to_vec() }),
        (CLEAN, &[], scan()),
        (CLEAN, &[0, 0xff], scan()),
        (CLEAN, &[], put(b"a", &[b'v'; 257])),
        (CLEAN, &[], put(&[0], b"")),
        (CLEAN, &[], put(&[b'k'; 97], b"")),
        (CLEAN, &[3], put(b"c", b"3")),
        (CLEAN, &[0x7f], put(b"c", b"3")),
        // No room, by the map and under a fault that would have taken effect.
        (CLEAN, &[], put(b"c", &[b'v'; 69])),
        (CLEAN, &[0x83], put(b"c", &[b'v'; 69])),
        (CLEAN, &[], delete(&[0])),
        (CLEAN, &[], delete(b"q")),
        (CLEAN, &[0, 3], delete(b"a")),
        (CLEAN, &[], Call::Batch { list: Vec::new() }),
        (CLEAN, &[], Call::Batch { list: vec![1] }),
        (CLEAN, &[3], batch()),
        (CLEAN, &[0x7f], batch()),
    ]
}

/// Some of them leave the bytes as they were.
fn with_effect() -> Vec<Case> {
    vec![
        (CLEAN, &[], put(b"c", b"3")),
        (CLEAN, &[], put(b"b", b"2")),
        (CLEAN, &[], put(b"c", &[b'v'; 68])),
        (CLEAN, &[0x83], put(b"c", b"3")),
        (CLEAN, &[0xff], put(b"a", b"")),
        (DEBRIS, &[4], put(b"c", b"3")),
        (CLEAN, &[], delete(b"a")),
        (CLEAN, &[0, 0x83], delete(b"a")),
        (CLEAN, &[], batch()),
        (CLEAN, &[0x83], batch()),
        (CLEAN, &[0, 3, 3], batch()),
        (CLEAN, &[0, 0, 0x7f], batch()),
    ]
}

fn handed_on(bench: &mut Bench, bytes: &[u8], cases: Vec<Case>) {
    run(bench, bytes, cases, false);
}

fn made_true(bench: &mut Bench, bytes: &[u8], cases: Vec<Case>) {
    run(bench, bytes, cases, true);
}

fn run(bench: &mut Bench, bytes: &[u8], cases: Vec<Case>, effect: bool) {
    for (health, script, call) in cases {
        bench.stand(bytes, script, State { health, ..State::default() });
        bench.run_untrue(&call, Some(effect));
        bench.run(&call);
    }
}
