//! How often each call was made and each refusal number came.

use crate::answer::{Answer, Call, KINDS};
use std::fmt;

/// A run of so many sheets must reach every refusal number.
const REACHES_ALL: u64 = 5_000;

#[derive(Default)]
pub struct Tally {
    /// How many calls of each kind had each refusal number.
    counts: [[u64; 29]; KINDS.len()],
}

impl Tally {
    pub fn add(&mut self, call: &Call, answer: &Answer) {
        self.counts[call.kind()][answer.refusal().number as usize] += 1;
    }

    pub fn calls(&self) -> u64 {
        self.counts.iter().flatten().sum()
    }

    /// The numbers from 1 to 28 that no call had.
    pub fn unreached(&self) -> Vec<usize> {
        (1..=28).filter(|&number| self.counts.iter().all(|counts| counts[number] == 0)).collect()
    }

    /// Whether a run of so many sheets reached every number that it must; those that it did not are printed.
    pub fn reached_all(&self, sheets: u64) -> bool {
        let unreached = self.unreached();
        if !unreached.is_empty() {
            println!("refusal numbers that no generated sheet reached: {unreached:?}");
        }
        unreached.is_empty() || sheets < REACHES_ALL
    }
}

impl fmt::Display for Tally {
    /// A line for each refusal number, 0 for none, with a column for each kind of call; the last line has the sums.
    fn fmt(&self, f: &mut fmt::Formatter) -> fmt::Result {
        write_line(f, "refusal", KINDS.map(str::to_owned))?;
        let shown = |count: u64| if count == 0 { ".".to_owned() } else { count.to_string() };
        for number in 0..=28 {
            write_line(f, &number.to_string(), self.counts.map(|counts| shown(counts[number])))?;
        }
        write_line(f, "calls", self.counts.map(|counts| shown(counts.iter().sum())))
    }
}

fn write_line(f: &mut fmt::Formatter, first: &str, others: [String; KINDS.len()]) -> fmt::Result {
    write!(f, "{first:>8}")?;
    for other in others {
        write!(f, "{other:>10}")?;
    }
    writeln!(f)
}
