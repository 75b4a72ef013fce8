//! Medians of many calls, the sides taking turns so that the machine's noise falls on all of them alike.

use std::time::{Duration, Instant};

/// A batch of calls between two looks at the clock takes at least this long.
const BATCH: Duration = Duration::from_micros(40);

/// Rounds in which each side has one batch.
const MOST_ROUNDS: usize = 2_001;
const LEAST_ROUNDS: usize = 5;

/// The time of one call in microseconds, batch by batch.
pub struct Times(pub Vec<f64>);

impl Times {
    pub fn median(&self) -> f64 {
        self.quartile(2)
    }

    /// How far the quartiles lie apart, as a part of the median.
    pub fn spread(&self) -> f64 {
        (self.quartile(3) - self.quartile(1)) / self.median()
    }

    /// The median of the ratios of the batches that were timed one after the other, so that a change of the machine's
    /// pace counts for little.
    pub fn over(&self, other: &Times) -> f64 {
        if self.0.len() != other.0.len() {
            return self.median() / other.median();
        }
        Times(self.0.iter().zip(&other.0).map(|(ours, theirs)| ours / theirs).collect()).median()
    }

    fn quartile(&self, number: usize) -> f64 {
        let mut sorted = self.0.clone();
        sorted.sort_by(f64::total_cmp);
        sorted[(sorted.len() - 1) * number / 4]
    }
}

/// Times the sides in turn for about as long as the budget.
pub fn in_turn<const N: usize>(mut sides: [&mut dyn FnMut(); N], budget: Duration) -> [Times; N] {
    let mut sizes = [1; N];
    for (side, size) in sides.iter_mut().zip(&mut sizes) {
        while time(*side, *size) < BATCH {
            *size *= 2;
        }
    }
    let mut batches = [(); N].map(|()| Vec::new());
    let start = Instant::now();
    for round in 0..MOST_ROUNDS {
        if round >= LEAST_ROUNDS && start.elapsed() > budget {
            break;
        }
        for ((side, &size), batches) in sides.iter_mut().zip(&sizes).zip(&mut batches) {
            batches.push(time(*side, size).as_secs_f64() * 1e6 / f64::from(size));
        }
    }
    batches.map(Times)
}

fn time(side: &mut dyn FnMut(), calls: u32) -> Duration {
    let start = Instant::now();
    for _ in 0..calls {
        side();
    }
    start.elapsed()
}
