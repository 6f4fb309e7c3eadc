//! Writes console sessions, one after the other, as lines for `takes`. The
//! list is the same on every run; the console program gives its answers.
//! `sessions noisy SEED` writes another one, of random lines with noise in them.

mod answers;
mod bad;
mod faults;
mod limits;
mod noisy;
mod random;
mod room;
mod scans;
mod text;

use std::io::{self, Write};
use text::Text;

fn main() -> io::Result<()> {
    let words: Vec<String> = std::env::args().skip(1).collect();
    let written = match words.iter().map(String::as_str).collect::<Vec<_>>()[..] {
        [] => stored().bytes().to_vec(),
        ["noisy", seed] => noisy::session(seed.parse().expect("SEED is a number")),
        _ => panic!("sessions [noisy SEED]"),
    };
    io::stdout().write_all(&written)
}

/// The sessions whose answers are stored.
fn stored() -> Text {
    let mut text = Text::new();
    // Before the first mount, so these come first.
    bad::before_a_mount(&mut text);
    answers::document_session(&mut text);
    answers::each_answer(&mut text);
    answers::refused_mounts(&mut text);
    limits::keys_and_values(&mut text);
    limits::odd_bytes(&mut text);
    faults::codes(&mut text);
    faults::commands(&mut text);
    faults::cuts(&mut text);
    faults::batches(&mut text);
    room::committed_without_room(&mut text);
    room::to_the_last_byte(&mut text);
    room::debris_gives_way(&mut text);
    scans::matches(&mut text);
    scans::faulted(&mut text);
    bad::lines(&mut text);
    random::lines(&mut text);
    text
}
