//! The longest batch there can be, on a region of 4 MiB. It takes long, so each
//! call says at once what it took.

use crate::bench::Bench;
use crate::call::Call;
use outcome::State;
use records::{record, region};

const LEN: usize = 4 << 20;
const MOST: usize = 65534;

/// Run through; one operation more; and cut right after the commit, so that the
/// mount finds every entry of the journal.
pub fn all(bench: &mut Bench) {
    let batch = |count: usize| Call::Batch { list: record(2, b"b", b"").repeat(count) };
    let blank = region(LEN, &[]);
    for count in [MOST, MOST + 1] {
        bench.stand(&blank, &[], State::default());
        told(bench, &format!("batch of {count}"), &batch(count));
    }
    let cut = [vec![0; MOST + 1], vec![0x7f]].concat();
    bench.stand(&blank, &cut, State::default());
    told(bench, "batch cut after its commit", &batch(MOST));
    let at = bench.at();
    told(bench, "mount after it", &Call::Mount { start: 0, at });
}

fn told(bench: &mut Bench, what: &str, call: &Call) {
    let calls = bench.run(call).calls;
    let (original, subject) = (bench.spent.original, bench.spent.subject);
    println!("{what}: item calls {calls}, original {original:.2?}, subject {subject:.2?}");
}
