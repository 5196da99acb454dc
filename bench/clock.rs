//! The clock, and what is told of the times of many rounds.

use crate::callgrind;
use std::hint::black_box;
use std::time::Instant;

/// The nanoseconds that the work takes, and its result. What is not to be measured is done outside.
/// It is never inlined, so that what stands around a call does not become part of the work.
#[inline(never)]
pub fn timed<R>(work: impl FnOnce() -> R) -> (f64, R) {
    let begun = Instant::now();
    callgrind::toggle();
    let result = black_box(work());
    callgrind::toggle();
    let taken = begun.elapsed();
    (taken.as_nanos() as f64, result)
}

/// The times of one thing, one for each round.
#[derive(Default)]
pub struct Times(Vec<f64>);

impl Times {
    pub fn push(&mut self, nanoseconds: f64) {
        self.0.push(nanoseconds);
    }

    /// The time that this share of the rounds does not exceed: 0 gives the least, 0.5 the median.
    pub fn at(&self, share: f64) -> f64 {
        let mut sorted = self.0.clone();
        sorted.sort_by(f64::total_cmp);
        sorted[((sorted.len() - 1) as f64 * share).round() as usize]
    }

    pub fn median(&self) -> f64 {
        self.at(0.5)
    }

    /// How far the middle half of the rounds lies apart: the upper quartile over the lower one.
    pub fn spread(&self) -> f64 {
        self.at(0.75) / self.at(0.25)
    }
}
