//! How often each answer was given.

use nurl::Answer;
use std::fmt;

/// Counts by answer: place 0 for accepted, the others by refusal number.
#[derive(Clone, Debug, Default, PartialEq, Eq)]
pub struct Tally {
    counts: [u64; 9],
}

impl Tally {
    /// Counts one more answer.
    pub fn add(&mut self, answer: Answer) {
        let place = match answer {
            Answer::Accepted { .. } => 0,
            Answer::Refused { number, .. } => number as usize,
        };
        self.counts[place] += 1;
    }
}

impl fmt::Display for Tally {
    fn fmt(&self, out: &mut fmt::Formatter) -> fmt::Result {
        writeln!(out, "accepted  {:>10}", self.counts[0])?;
        for number in 1..self.counts.len() {
            writeln!(out, "refused {number} {:>10}", self.counts[number])?;
        }
        Ok(())
    }
}
