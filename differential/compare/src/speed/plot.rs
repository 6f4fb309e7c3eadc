//! A plot of what calls cost against the number of records, both on logarithmic
//! scales, from the CSVs of one run or of two: an SVG of four panels.

use super::measured::{read, Measured};
use std::fmt::Write;
use std::path::Path;

const CALLS: [&str; 4] = ["get", "put", "batch of 16", "scan of 10"];
/// A panel's inner size, and what is around it.
const WIDE: f64 = 360.0;
const HIGH: f64 = 240.0;
const LEFT: f64 = 60.0;
const ABOVE: f64 = 40.0;
const PANEL: (f64, f64) = (WIDE + LEFT + 20.0, HIGH + ABOVE + 40.0);
const LEGEND: f64 = 30.0;
/// Powers of ten at the ends of the scales: records, and nanoseconds.
const RECORDS: (f64, f64) = (1.0, 5.0);
const NANOS: (f64, f64) = (2.0, 11.0);

/// A line of the plot: its name, its colour, and a column of one of the runs.
struct Series<'a> {
    name: &'static str,
    colour: &'static str,
    rows: &'a [Measured],
    column: &'static str,
}

pub fn plot(out: &Path, before: &Path, after: Option<&Path>) -> Result<(), String> {
    let before = plain(before)?;
    let after = after.map(plain).transpose()?;
    let text = draw(&series(&before, after.as_deref()));
    std::fs::write(out, text).map_err(|error| format!("{}: {error}", out.display()))
}

/// The rows with plain keys, by number of records.
fn plain(path: &Path) -> Result<Vec<Measured>, String> {
    let mut rows = read(path)?;
    rows.retain(|row| row.keys == "plain");
    rows.sort_by_key(|row| row.records);
    Ok(rows)
}

/// The original and the pass are drawn from the newer run.
fn series<'a>(before: &'a [Measured], after: Option<&'a [Measured]>) -> Vec<Series<'a>> {
    let newer = after.unwrap_or(before);
    let line = |name, colour, rows, column| Series { name, colour, rows, column };
    let mut all = vec![
        line("one pass", "#999999", newer, "pass"),
        line("original, less work", "#56b4e9", newer, "less"),
        line("original, same work", "#0072b2", newer, "same"),
        line(
            if after.is_some() { "proved, before" } else { "proved" },
            "#d55e00",
            before,
            "proved",
        ),
    ];
    if let Some(after) = after {
        all.push(line("proved, after", "#009e73", after, "proved"));
    }
    all
}

fn draw(series: &[Series]) -> String {
    let (wide, high) = (2.0 * PANEL.0, 2.0 * PANEL.1 + LEGEND);
    let mut svg = format!(
        "<svg xmlns=\"http://www.w3.org/2000/svg\" viewBox=\"0 0 {wide} {high}\" \
        font-family=\"sans-serif\" font-size=\"12\">\n\
        <rect width=\"{wide}\" height=\"{high}\" fill=\"white\"/>\n"
    );
    for (place, line) in series.iter().enumerate() {
        let x = LEFT + 160.0 * place as f64;
        let Series { name, colour, .. } = line;
        let _ = writeln!(
            svg,
            "<path d=\"M{x} 16h24\" stroke=\"{colour}\" stroke-width=\"2\"/>\
            <text x=\"{}\" y=\"20\">{name}</text>",
            x + 30.0
        );
    }
    for (place, call) in CALLS.iter().enumerate() {
        let (column, row) = ((place % 2) as f64, (place / 2) as f64);
        let (x, y) = (column * PANEL.0 + LEFT, row * PANEL.1 + ABOVE + LEGEND);
        let _ = writeln!(svg, "<g transform=\"translate({x} {y})\">");
        axes(&mut svg, call);
        for line in series {
            curve(&mut svg, line, call);
        }
        svg.push_str("</g>\n");
    }
    svg.push_str("</svg>\n");
    svg
}

/// Where a power of ten stands on a scale of this size.
fn along((low, high): (f64, f64), size: f64, power: f64) -> f64 {
    (power - low) / (high - low) * size
}

fn axes(svg: &mut String, call: &str) {
    let _ = writeln!(
        svg,
        "<rect width=\"{WIDE}\" height=\"{HIGH}\" fill=\"none\" stroke=\"#444444\"/>\
        <text x=\"0\" y=\"-8\" font-weight=\"bold\">{call}</text>\
        <text x=\"{WIDE}\" y=\"{}\" text-anchor=\"end\">records</text>",
        HIGH + 32.0
    );
    for power in RECORDS.0 as i32..=RECORDS.1 as i32 {
        let x = along(RECORDS, WIDE, f64::from(power));
        let _ = writeln!(
            svg,
            "<path d=\"M{x} 0v{HIGH}\" stroke=\"#dddddd\"/>\
            <text x=\"{x}\" y=\"{}\" text-anchor=\"middle\">{}</text>",
            HIGH + 16.0,
            10u64.pow(power as u32)
        );
    }
    let names =
        ["0.1 µs", "1 µs", "10 µs", "0.1 ms", "1 ms", "10 ms", "0.1 s", "1 s", "10 s", "100 s"];
    for (power, name) in (NANOS.0 as i32..).zip(names) {
        let y = HIGH - along(NANOS, HIGH, f64::from(power));
        let _ = writeln!(
            svg,
            "<path d=\"M0 {y}h{WIDE}\" stroke=\"#dddddd\"/>\
            <text x=\"-6\" y=\"{}\" text-anchor=\"end\">{name}</text>",
            y + 4.0
        );
    }
}

fn curve(svg: &mut String, line: &Series, call: &str) {
    let mut path = String::new();
    let mut dots = String::new();
    for row in line.rows.iter().filter(|row| row.call == call) {
        let Some(nanos) = row.number(line.column) else {
            continue;
        };
        let x = along(RECORDS, WIDE, (row.records as f64).log10());
        let y = HIGH - along(NANOS, HIGH, nanos.max(1.0).log10());
        let _ = write!(path, "{}{x:.1} {y:.1}", if path.is_empty() { "M" } else { "L" });
        let _ = write!(dots, "<circle cx=\"{x:.1}\" cy=\"{y:.1}\" r=\"2.5\"/>");
    }
    let colour = line.colour;
    let _ = writeln!(
        svg,
        "<path d=\"{path}\" fill=\"none\" stroke=\"{colour}\" stroke-width=\"2\"/>\
        <g fill=\"{colour}\">{dots}</g>"
    );
}
