//! One measured row: each side's times of all turns, and what is told of them.

use std::time::Duration;

/// What is timed in each turn, in this order.
pub const SIDES: [&str; 5] = ["pass", "wide", "proved", "same", "less"];
pub const PASS: usize = 0;
pub const WIDE: usize = 1;
pub const PROVED: usize = 2;
pub const SAME: usize = 3;
pub const LESS: usize = 4;

pub type Turn = [Duration; SIDES.len()];

pub struct Row {
    pub len: usize,
    pub records: usize,
    pub keys: &'static str,
    pub call: &'static str,
    pub item_calls: u64,
    pub turns: Vec<Turn>,
}

/// What a quarter, half and three quarters of the turns stay below.
pub struct Quartiles<T> {
    pub low: T,
    pub middle: T,
    pub high: T,
}

impl Row {
    /// A side's nanoseconds.
    pub fn nanos(&self, side: usize) -> Quartiles<u64> {
        let mut all: Vec<u64> =
            self.turns.iter().map(|turn| turn[side].as_nanos() as u64).collect();
        all.sort();
        quartiles(&all)
    }

    /// How many times the other side's time the proved call takes, within a turn:
    /// so that both have had the same machine.
    pub fn ratio(&self, side: usize) -> Quartiles<f64> {
        let ratio =
            |turn: &Turn| turn[PROVED].as_nanos() as f64 / turn[side].as_nanos().max(1) as f64;
        let mut all: Vec<f64> = self.turns.iter().map(ratio).collect();
        all.sort_by(f64::total_cmp);
        quartiles(&all)
    }
}

fn quartiles<T: Copy>(sorted: &[T]) -> Quartiles<T> {
    let at = |quarter: usize| sorted[(sorted.len() - 1) * quarter / 4];
    Quartiles { low: at(1), middle: at(2), high: at(3) }
}
