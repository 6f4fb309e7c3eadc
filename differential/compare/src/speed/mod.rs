//! What the calls cost: the proved code, the original doing the same work, the
//! original doing less, and one plain pass over the region's bytes, in turns
//! within one run.

mod keys;
mod measured;
mod original;
mod plot;
mod report;
mod row;
mod shape;
mod summary;

pub use plot::plot;
pub use summary::summary;

use crate::clock::own_time;
use crate::subject::Subject;
use arxia_storage::BatchOp;
use oracle::walk;
use original::{Original, Work};
use outcome::State;
use row::{Row, Turn, PROVED};
use shape::{Case, Shape, SHAPES};
use std::arch::asm;
use std::hint::black_box;
use std::path::Path;
use std::time::Duration;

/// A row ends after so many turns, or when it has had some and they have taken so
/// long.
const MOST: usize = 101;
const ENOUGH: [(usize, Duration); 2] = [(5, Duration::from_secs(2)), (3, Duration::from_secs(15))];

/// Measures all, writes the CSV, and hands back the tables.
pub fn all(subject: &dyn Subject, out: &Path, quick: bool) -> Result<String, String> {
    let clock = clock_cost();
    let mut rows = Vec::new();
    for shape in &SHAPES {
        if quick && shape.records > QUICK {
            continue;
        }
        for case in shape.cases() {
            let row = measure(subject, shape, &case, clock);
            let nanos = row.nanos(PROVED).middle;
            eprintln!("{} {} {}: {nanos} ns", shape.len, shape.records, row.call);
            rows.push(row);
        }
    }
    let written = std::fs::write(out, report::csv(&rows));
    written.map_err(|error| format!("{}: {error}", out.display()))?;
    Ok(report::table(&rows))
}

/// A quick run leaves out regions with more records.
const QUICK: usize = 3000;

/// The processor time of one call, without the clock's own.
fn timed<T>(clock: Duration, call: impl FnOnce() -> T) -> (Duration, T) {
    let began = own_time();
    let result = black_box(call());
    (own_time().saturating_sub(began).saturating_sub(clock), result)
}

/// What two looks at the clock take: the middle one of many.
fn clock_cost() -> Duration {
    let mut costs: Vec<Duration> = (0..1001).map(|_| timed(Duration::ZERO, || ()).0).collect();
    costs.sort();
    costs[costs.len() / 2]
}

/// One plain pass over the bytes, which adds them up one at a time: without the
/// empty instruction the compiler would take sixteen at once.
fn pass(bytes: &[u8]) -> u64 {
    let mut sum = 0;
    for byte in bytes {
        sum += u64::from(*byte);
        // It has no text, and the compiler believes that it changes the sum.
        unsafe { asm!("/* {0} */", inout(reg) sum, options(pure, nomem, nostack)) };
    }
    sum
}

/// The same pass as the compiler would have it.
fn wide_pass(bytes: &[u8]) -> u64 {
    bytes.iter().map(|byte| u64::from(*byte)).sum()
}

fn measure(subject: &dyn Subject, shape: &Shape, case: &Case, clock: Duration) -> Row {
    let ops = case.call.list().map_or(Vec::new(), |list| oracle::operations(list).unwrap());
    let mut turns = Vec::new();
    let item_calls = loop {
        let (turn, item_calls) = turn(subject, case, &ops, clock);
        turns.push(turn);
        let spent: Duration = turns.iter().flatten().sum();
        let ends = |(least, long): &(usize, Duration)| turns.len() >= *least && spent >= *long;
        if turns.len() == MOST || ENOUGH.iter().any(ends) {
            break item_calls;
        }
    };
    let Shape { len, records, keys, .. } = *shape;
    Row { len, records, keys: keys.name(), call: case.name, item_calls, turns }
}

/// Each side once. All find the same image, which is laid down, like the output
/// and the original's mounted store, before the clock starts. They must agree in
/// bytes and item calls, which are handed back.
fn turn(subject: &dyn Subject, case: &Case, ops: &[BatchOp], clock: Duration) -> (Turn, u64) {
    let Case { name, image, call } = case;
    let state = State { space: walk(image), ..State::default() };
    let (pass, _) = timed(clock, || pass(black_box(image)));
    let (wide, _) = timed(clock, || wide_pass(black_box(image)));
    let (mut region, mut out) = (image.clone(), call.output());
    let (proved, outcome) =
        timed(clock, || call.on_subject(subject, &mut region, &[], state, &mut out));
    let original = |work, out: &mut [u8]| {
        let before = Original::before(call, image);
        let calls = before.item_calls();
        let (time, after) = timed(clock, || before.run(call, ops, work, out));
        (time, after.item_calls() - calls, after.region())
    };
    let mut wanted_out = call.output();
    let (same, calls, wanted) = original(Work::Same, &mut wanted_out);
    let (less, _, _) = original(Work::Less, &mut []);
    assert_eq!((outcome.answer, outcome.calls), (1, calls), "{name}: {outcome:?}");
    assert!(region == wanted && out == wanted_out, "{name}: other bytes");
    ([pass, wide, proved, same, less], calls)
}
