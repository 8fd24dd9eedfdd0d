//! What is counted over a text, and its perplexity.

use crate::decimal::{log10, six_digits};
use std::ops::AddAssign;

#[derive(Clone, Copy, Default)]
pub struct Tally {
    /// Words and the closing `</s>` of each line.
    pub tokens: u64,
    pub unknown: u64,
    pub points: i64,
    unknown_points: i64,
}

impl Tally {
    pub fn count(&mut self, points: i32, unknown: bool) {
        self.tokens += 1;
        self.points += points as i64;
        if unknown {
            self.unknown += 1;
            self.unknown_points += points as i64;
        }
    }

    /// KenLM's four last lines.
    pub fn summary(&self) -> String {
        let all = perplexity(self.points, self.tokens);
        let known = perplexity(self.points - self.unknown_points, self.tokens - self.unknown);
        format!(
            "Perplexity including OOVs:\t{}\nPerplexity excluding OOVs:\t{}\nOOVs:\t{}\nTokens:\t{}\n",
            six_digits(all),
            six_digits(known),
            self.unknown,
            self.tokens
        )
    }
}

/// 10 to the power of minus the mean logarithm; of no tokens it is no number.
fn perplexity(points: i64, tokens: u64) -> f64 {
    10f64.powf(-log10(points) / tokens as f64)
}

impl AddAssign for Tally {
    fn add_assign(&mut self, other: Tally) {
        self.tokens += other.tokens;
        self.unknown += other.unknown;
        self.points += other.points;
        self.unknown_points += other.unknown_points;
    }
}
