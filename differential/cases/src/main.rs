//! Item-level cases: `cases list` and `cases codes` write input lines,
//! `cases answer` reads such lines and writes the engine's answers.

mod answer;
mod codes;
mod hex;
mod images;
mod list;
mod steps;

use std::io::{self, Read, Write};
use std::process::ExitCode;

fn main() -> ExitCode {
    let mode = std::env::args().nth(1);
    let text = match mode.as_deref() {
        Some("list") => list::lines(),
        Some("codes") => codes::lines(),
        Some("answer") => {
            let mut input = String::new();
            io::stdin().read_to_string(&mut input).expect("cases are plain text");
            answer::answers(&input)
        }
        _ => {
            eprintln!("cases list|codes|answer");
            return ExitCode::from(2);
        }
    };
    match io::stdout().write_all(text.as_bytes()) {
        Ok(()) => ExitCode::SUCCESS,
        Err(_) => ExitCode::FAILURE,
    }
}
