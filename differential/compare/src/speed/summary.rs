//! Short tables from the CSVs of one run or of two: a row for each region, a
//! column for each call.

use super::measured::{read, Measured};
use super::report::digits;
use std::fmt::Write;
use std::path::Path;

/// A column of the CSV, by how much it is divided, and what that is.
const TABLES: [(&str, f64, &str); 4] = [
    ("proved", 1000.0, "Microseconds of the proved call"),
    ("to_same", 1.0, "Ratio to the original doing the same work"),
    ("to_less", 1.0, "Ratio to the original doing less work"),
    ("to_pass", 1.0, "Passes over the region"),
];

pub fn summary(before: &Path, after: Option<&Path>) -> Result<String, String> {
    let before = read(before)?;
    let after = after.map(read).transpose()?;
    // A region with few records lacks the longer scan.
    let most = before.chunk_by(Measured::same_region).max_by_key(|rows| rows.len());
    let calls: Vec<&str> = most.unwrap_or_default().iter().map(|row| row.call.as_str()).collect();
    let mut text = String::new();
    for (column, unit, name) in TABLES {
        let _ = write!(text, "\n{name}:\n\n| region | {} |\n|---", calls.join(" | "));
        let _ = writeln!(text, "{}|", "|---".repeat(calls.len()));
        for of_region in before.chunk_by(Measured::same_region) {
            let shown = |row: &Measured| {
                row.number(column).map_or(String::new(), |number| digits(number / unit))
            };
            let cell = |call: &&str| cell(of_region, after.as_deref(), call, shown);
            let cells: Vec<String> = calls.iter().map(cell).collect();
            let _ = writeln!(text, "| {} | {} |", label(&of_region[0]), cells.join(" | "));
        }
    }
    Ok(text)
}

fn label(row: &Measured) -> String {
    let Measured { region, records, keys, .. } = row;
    let size = match region >> 20 {
        0 => format!("{} KiB", region >> 10),
        mebi => format!("{mebi} MiB"),
    };
    format!("{size}, {records}{}", if keys == "plain" { "" } else { ", one hash" })
}

/// The median before, and after where there is one.
fn cell(
    before: &[Measured],
    after: Option<&[Measured]>,
    call: &str,
    shown: impl Fn(&Measured) -> String,
) -> String {
    let Some(row) = before.iter().find(|row| row.call == call) else {
        return String::new();
    };
    let same = |other: &&Measured| other.same_region(row) && other.call == call;
    match after.and_then(|after| after.iter().find(same)) {
        Some(after) => format!("{} → {}", shown(row), shown(after)),
        None => shown(row),
    }
}
