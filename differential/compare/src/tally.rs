//! Counts of calls and answers, and the first differences in full.

use crate::bench::Spent;
use crate::call::Call;
use outcome::{Outcome, CLEAN};

/// More than these are counted, not printed.
const PRINTED: u64 = 5;
const NUMBERS: usize = 19;

/// Calls of the key codec.
#[derive(Debug, Default)]
pub struct KeyCalls {
    pub reads: u64,
    pub lengths: u64,
    pub writes: u64,
    pub orders: u64,
}

#[derive(Default)]
pub struct Tally {
    /// Per kind of call, answers 0 to 3.
    answers: [[u64; 4]; Call::KINDS.len()],
    /// Per kind of call, refusals by document 01's number.
    numbers: [[u64; NUMBERS]; Call::KINDS.len()],
    item_calls: u64,
    /// Per kind of call, what all of them took.
    spent: [Spent; Call::KINDS.len()],
    /// Answers that document 01 names and that no input gives.
    never: u64,
    /// Calls from untrue numbers, which are not among the others.
    pub untrue: u64,
    pub keys: KeyCalls,
    pub findings: u64,
    pub finding_calls: u64,
    differences: u64,
}

impl Tally {
    /// `health`: what the call found.
    pub fn count(&mut self, kind: usize, health: u64, outcome: &Outcome, spent: Spent) {
        self.spent[kind].original += spent.original;
        self.spent[kind].subject += spent.subject;
        self.answers[kind][outcome.answer as usize] += 1;
        if outcome.answer == 0 {
            self.numbers[kind][outcome.number as usize] += 1;
        }
        self.item_calls += outcome.calls;
        // A stalled scan; 13 from a batch that had nothing to recover first; a
        // scan that meets a long value after it has written records.
        let never = match (Call::KINDS[kind], outcome.number) {
            (_, 14) => true,
            ("batch" | "ops", 13) => health == CLEAN,
            ("scan", 2) => outcome.count > 0,
            _ => false,
        };
        self.never += u64::from(never);
    }

    pub fn difference(&mut self, text: impl FnOnce() -> String) {
        self.differences += 1;
        if self.differences <= PRINTED {
            println!("difference {}\n{}", self.differences, text());
        }
    }

    pub fn calls(&self) -> u64 {
        self.answers.iter().flatten().sum()
    }

    pub fn differences(&self) -> u64 {
        self.differences
    }

    pub fn print(&self) {
        println!("calls {}, item calls {}", self.calls(), self.item_calls);
        for (kind, name) in Call::KINDS.iter().enumerate() {
            let [refused, one, two, three] = self.answers[kind];
            println!("{name}: refused {refused}, answer 1 {one}, 2 {two}, 3 {three}");
            let heard: Vec<String> = (1..NUMBERS)
                .filter(|number| self.numbers[kind][*number] > 0)
                .map(|number| format!("{number}: {}", self.numbers[kind][number]))
                .collect();
            println!("  refusals by number: {}", heard.join(", "));
            let Spent { original, subject } = self.spent[kind];
            println!("  time: original {original:.2?}, subject {subject:.2?}");
        }
        println!("answers that should never come {}", self.never);
        println!("calls from untrue numbers {}", self.untrue);
        println!("findings {}, calls in them {}", self.findings, self.finding_calls);
        let KeyCalls { reads, lengths, writes, orders } = self.keys;
        println!("key codec: reads {reads}, length questions {lengths}, writes {writes}, orders {orders}");
        println!("differences {}", self.differences);
    }
}
