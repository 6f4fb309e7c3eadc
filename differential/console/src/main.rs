//! Document 01's console program `takes` over the Rust original: lines from
//! standard input, answers to standard output.

mod line;
mod run;

use std::io::{self, Read, Write};

fn main() -> io::Result<()> {
    let mut input = Vec::new();
    io::stdin().read_to_end(&mut input)?;
    let mut output = Vec::new();
    let mut console = run::Console::new();
    for line in lines(&input) {
        console.take(line, &mut output);
    }
    io::stdout().write_all(&output)
}

/// A newline ends a line; a last line without one counts if it has bytes.
fn lines(input: &[u8]) -> impl Iterator<Item = &[u8]> {
    input
        .split_inclusive(|&byte| byte == b'\n')
        .map(|line| line.strip_suffix(b"\n").unwrap_or(line))
}
