//! The rows of a CSV, read again for tables and plots.

use std::collections::HashMap;
use std::path::Path;

pub struct Measured {
    pub region: usize,
    pub records: usize,
    pub keys: String,
    pub call: String,
    numbers: HashMap<String, f64>,
}

impl Measured {
    /// The number in a column; none where the run did not have it.
    pub fn number(&self, column: &str) -> Option<f64> {
        self.numbers.get(column).copied()
    }

    /// Whether the other row is of the same region and keys.
    pub fn same_region(&self, other: &Measured) -> bool {
        let of = |row: &Measured| (row.region, row.records);
        of(self) == of(other) && self.keys == other.keys
    }
}

pub fn read(path: &Path) -> Result<Vec<Measured>, String> {
    let text =
        std::fs::read_to_string(path).map_err(|error| format!("{}: {error}", path.display()))?;
    let mut lines = text.lines();
    let head: Vec<&str> = lines.next().unwrap_or_default().split(',').collect();
    let row = |line: &str| {
        row(&head, line).ok_or_else(|| format!("{}: not a row: {line}", path.display()))
    };
    lines.map(row).collect()
}

fn row(head: &[&str], line: &str) -> Option<Measured> {
    let fields: HashMap<&str, &str> = head.iter().copied().zip(line.split(',')).collect();
    Some(Measured {
        region: fields.get("region")?.parse().ok()?,
        records: fields.get("records")?.parse().ok()?,
        keys: fields.get("keys")?.to_string(),
        call: fields.get("call")?.to_string(),
        numbers: fields
            .iter()
            .filter_map(|(name, text)| Some((name.to_string(), text.parse().ok()?)))
            .collect(),
    })
}
