//! The measured rows as a CSV, which a plot is made from, and as a table.

use super::row::{Quartiles, Row, LESS, PASS, PROVED, SAME, SIDES, WIDE};
use std::fmt::Write;

/// Nanoseconds of each side, then the proved call's ratio to the other sides:
/// lower quartile, median, upper quartile.
pub fn csv(rows: &[Row]) -> String {
    let mut text = "region,records,keys,call,item_calls,turns".to_string();
    for side in SIDES {
        let _ = write!(text, ",{side}_low,{side},{side}_high");
    }
    for side in [PASS, SAME, LESS] {
        let _ = write!(text, ",to_{0}_low,to_{0},to_{0}_high", SIDES[side]);
    }
    text.push('\n');
    for row in rows {
        let Row { len, records, keys, call, item_calls, turns } = row;
        let _ = write!(text, "{len},{records},{keys},{call},{item_calls},{}", turns.len());
        for side in 0..SIDES.len() {
            let Quartiles { low, middle, high } = row.nanos(side);
            let _ = write!(text, ",{low},{middle},{high}");
        }
        for side in [PASS, SAME, LESS] {
            let Quartiles { low, middle, high } = row.ratio(side);
            let _ = write!(text, ",{low:.4},{middle:.4},{high:.4}");
        }
        text.push('\n');
    }
    text
}

/// A table for each region.
pub fn table(rows: &[Row]) -> String {
    let mut text = String::new();
    for of_shape in rows.chunk_by(|a, b| (a.len, a.records, a.keys) == (b.len, b.records, b.keys)) {
        text.push_str(&heading(&of_shape[0]));
        for row in of_shape {
            let Row { call, item_calls, turns, .. } = row;
            let times = [PROVED, SAME, LESS].map(|side| micros(row.nanos(side)));
            let ratios = [SAME, LESS, PASS].map(|side| spread(row.ratio(side)));
            let cells = [times, ratios].concat().join(" | ");
            let _ = writeln!(text, "| {call} | {item_calls} | {} | {cells} |", turns.len());
        }
    }
    text
}

fn heading(row: &Row) -> String {
    let Row { len, records, keys, .. } = row;
    format!(
        "\n{} KiB, {records} records, {keys} keys; a pass {} µs, sixteen bytes at once {} µs\n\n\
        | call | item calls | turns | proved, µs | same work, µs | less work, µs \
        | to same | to less | passes |\n\
        |---|---|---|---|---|---|---|---|---|\n",
        len >> 10,
        micros(row.nanos(PASS)),
        micros(row.nanos(WIDE)),
    )
}

fn micros(nanos: Quartiles<u64>) -> String {
    let Quartiles { low, middle, high } = nanos;
    let [low, middle, high] = [low, middle, high].map(|nanos| nanos as f64 / 1000.0);
    spread(Quartiles { low, middle, high })
}

/// The median, and the quartiles where they are apart by more than a tenth.
fn spread(of: Quartiles<f64>) -> String {
    let Quartiles { low, middle, high } = of;
    if (high - low) * 10.0 > middle {
        format!("{} ({}–{})", digits(middle), digits(low), digits(high))
    } else {
        digits(middle)
    }
}

/// About three digits.
pub fn digits(number: f64) -> String {
    let places = match number {
        ..10.0 => 2,
        ..100.0 => 1,
        _ => 0,
    };
    format!("{number:.places$}")
}
