//! Where the Rust original's own comments, or a promise one might read into
//! them, do not hold: each with its exact input and the answer that document 01
//! wants, on both sides. The encoder alone is the subject's: the original's is
//! private.

use crate::bench::Bench;
use crate::call::Call;
use outcome::{Codec, Outcome, CLEAN, DEBRIS, PENDING};
use records::{record, region};

const OK: u64 = 1;
const FINISHED: u64 = 1;

pub fn all(bench: &mut Bench) {
    for finding in [
        a_committed_batch_runs_out_of_room,
        the_uncertain_window_has_an_answer_of_its_own,
        a_marker_that_reads_back_is_mostly_ok,
        a_scan_makes_one_pass_more,
        a_batch_that_never_happened_leaves_bytes,
        some_calls_in_pending_do_not_recover,
        an_entry_needs_its_room,
        a_shorter_buffer_refuses_a_good_marker,
    ] {
        finding(bench);
        bench.tally.findings += 1;
    }
}

/// The bench has compared the two sides; this holds them to what is wanted.
fn wants(bench: &mut Bench, call: &Call, wanted: impl FnOnce(&Outcome) -> bool) {
    let outcome = bench.run(call);
    bench.tally.finding_calls += 1;
    if !wanted(&outcome) {
        bench.tally.difference(|| format!("finding: {call:?} is not answered so: {outcome:?}\n"));
    }
}

fn refused(bench: &mut Bench, call: &Call, number: u64, calls: u64, health: u64) {
    let wanted = (0, number, calls, health);
    wants(bench, call, |said| (said.answer, said.number, said.calls, said.health) == wanted);
}

fn ok(bench: &mut Bench, call: &Call, calls: u64, health: u64) {
    wants(bench, call, |said| (said.answer, said.calls, said.health) == (OK, calls, health));
}

fn mounted(bench: &mut Bench, len: usize) {
    bench.insert(&region(len, &[]), &[]);
    ok(bench, &Call::Mount { start: 0, at: 0 }, 3, CLEAN);
}

fn put(key: &[u8], value: &[u8]) -> Call {
    Call::Put { key: key.to_vec(), value: value.to_vec() }
}

fn batch(list: Vec<u8>) -> Call {
    Call::Batch { list }
}

fn batch_of_one() -> Call {
    batch(record(1, b"a", b"1"))
}

fn scan(prefix: &[u8], most: u64) -> Call {
    Call::Scan { prefix: prefix.to_vec(), most, out: 8192 }
}

fn used(bench: &mut Bench, wanted: u64) {
    let call = scan(b"", 0);
    wants(bench, &call, |said| said.space.used == wanted);
}

/// Thirty puts, and one that leaves the store with `last` bytes of value more.
fn nearly_full(bench: &mut Bench, last: usize) {
    mounted(bench, 8192);
    for number in 0..30u8 {
        let key = [b'0' + number / 10, b'0' + number % 10];
        ok(bench, &put(&key, &[b'v'; 256]), 1, CLEAN);
    }
    ok(bench, &put(b"last", &vec![b'v'; last]), 1, CLEAN);
}

/// A comment says that a committed batch cannot run out of room.
fn a_committed_batch_runs_out_of_room(bench: &mut Bench) {
    let one = batch(record(1, b"n", b"1"));
    nearly_full(bench, 137);
    used(bench, 8160);
    refused(bench, &one, 15, 6, PENDING);
    let key = b"00".to_vec();
    for call in [
        Call::Get { key: b"n".to_vec(), out: 300 },
        Call::Contains { key: key.clone() },
        put(b"a", b""),
        Call::Delete { key: key.clone() },
        batch(record(2, b"00", b"")),
        scan(b"", 0),
        scan(b"", u64::MAX),
    ] {
        for _ in 0..3 {
            refused(bench, &call, 6, 3, PENDING);
        }
    }
    wants(bench, &scan(b"", 0), |said| (said.number, said.space.used) == (6, 8192));
    refused(bench, &Call::Mount { start: 0, at: 0 }, 6, 3, PENDING);
    // One byte more in use, and the batch is refused before its commit; eleven
    // less, and it is done.
    nearly_full(bench, 138);
    refused(bench, &one, 6, 3, DEBRIS);
    nearly_full(bench, 126);
    ok(bench, &one, 5, CLEAN);
}

/// A comment says that the error of the uncertain window is the first fault.
fn the_uncertain_window_has_an_answer_of_its_own(bench: &mut Bench) {
    mounted(bench, 8192);
    bench.set_script(&[0, 1, 2], 0);
    refused(bench, &batch_of_one(), 16, 3, PENDING);
}

/// A comment says that a caller whose marker reads back hears BatchCommitted.
fn a_marker_that_reads_back_is_mostly_ok(bench: &mut Bench) {
    mounted(bench, 8192);
    bench.set_script(&[0, 0x83], 0);
    ok(bench, &batch_of_one(), 8, CLEAN);
}

/// A comment gives ceil(m / 8) passes.
fn a_scan_makes_one_pass_more(bench: &mut Bench) {
    for (matches, passes) in [(0u8, 1), (7, 1), (8, 2), (9, 2), (16, 3), (17, 3)] {
        mounted(bench, 8192);
        ok(bench, &put(b"other", b"1"), 1, CLEAN);
        for number in 0..matches {
            ok(bench, &put(&[b'm', number], b"1"), 1, CLEAN);
        }
        let matches = u64::from(matches);
        let wanted = (FINISHED, matches, passes * (matches + 1 + 2));
        wants(bench, &scan(b"m", u64::MAX), |said| (said.answer, said.count, said.calls) == wanted);
    }
}

/// The trait's comment says that a failed batch leaves every byte as it was.
fn a_batch_that_never_happened_leaves_bytes(bench: &mut Bench) {
    mounted(bench, 8192);
    bench.set_script(&[0, 3], 0);
    let list = [record(1, b"a", b"1"), record(2, b"b", b"")].concat();
    refused(bench, &batch(list), 5, 2, DEBRIS);
    used(bench, 17);
    // No read shows them.
    let all = scan(b"", u64::MAX);
    wants(bench, &all, |said| (said.answer, said.count, said.health) == (FINISHED, 0, DEBRIS));
}

/// A comment says that while Pending stands every operation recovers first.
fn some_calls_in_pending_do_not_recover(bench: &mut Bench) {
    mounted(bench, 8192);
    bench.set_script(&[0, 3, 3], 0);
    refused(bench, &batch_of_one(), 16, 3, PENDING);
    ok(bench, &batch(Vec::new()), 0, PENDING);
    refused(bench, &Call::Delete { key: vec![0] }, 3, 0, PENDING);
    refused(bench, &batch(record(2, &[b'k'; 97], b"")), 2, 0, PENDING);
}

/// The original's encoder panics where its buffer is short.
fn an_entry_needs_its_room(bench: &mut Bench) {
    let entry = [0, 1, b'a', b'1'];
    for room in 0..6 {
        let mut out = vec![0xa5; room];
        let mut wanted = out.clone();
        let answer = match wanted.get_mut(..entry.len()) {
            Some(place) => {
                place.copy_from_slice(&entry);
                Codec::done(entry.len())
            }
            None => Codec::refused(11, [0; 3]),
        };
        let said = bench.subject.entry_write(1, b"a", b"1", &mut out);
        bench.tally.finding_calls += 1;
        if (said, &out) != (answer, &wanted) {
            bench.tally.difference(|| format!("finding: an entry into {room} bytes: {said:?}\n"));
        }
    }
}

/// A shorter buffer lent later: no fault of the original, but a reason why the
/// length is fixed where anything is promised about a run.
fn a_shorter_buffer_refuses_a_good_marker(bench: &mut Bench) {
    mounted(bench, 16384);
    let script = [vec![0; 1401], vec![0x7f]].concat();
    bench.set_script(&script, 0);
    let list = record(2, b"b", b"").repeat(600);
    let left = 15 + 200 * 16;
    wants(bench, &batch(list), |said| {
        (said.number, said.calls, said.health, said.space.used) == (15, 1403, PENDING, left)
    });
    let shorter = bench.region()[..8192].to_vec();
    bench.set_region(&shorter);
    wants(bench, &Call::Mount { start: 0, at: 1402 }, |said| {
        (said.number, said.calls, said.v) == (13, 1, [0, 600, 0])
    });
}

#[cfg(test)]
mod tests {
    /// On the original and on the model; a comparison has them on its subject.
    #[test]
    fn are_answered_so() {
        let mut bench = super::Bench::new(Box::new(crate::subject::Mirror));
        super::all(&mut bench);
        assert_eq!(bench.tally.differences(), 0);
    }
}
