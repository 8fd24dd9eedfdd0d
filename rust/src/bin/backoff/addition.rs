//! A word's points as the addition that the back-off rule makes. Every number is an answer of `backoff_lookup`; no sum is taken from a run.

use crate::array::Array;
use crate::refusal;
use backoff::limits::{END_WORD, START_WORD, UNKNOWN_WORD};
use backoff::number::ACCEPTED;
use backoff::Found;

/// What a row that was tried adds.
#[derive(Clone, Copy)]
pub enum Added {
    /// The row is listed: its p, and nothing further is tried.
    Probability(i32),
    /// The row is not, and its words but the last are: their b.
    Backoff(i32),
    /// Neither is listed.
    Nothing,
}

/// A row that was tried: words of the list, oldest first.
pub struct Tried {
    pub row: Vec<u32>,
    pub added: Added,
}

impl Tried {
    /// The row without the word that is scored.
    pub fn history(&self) -> &[u32] {
        &self.row[..self.row.len() - 1]
    }

    pub fn points(&self) -> i32 {
        match self.added {
            Added::Probability(points) | Added::Backoff(points) => points,
            Added::Nothing => 0,
        }
    }
}

/// The rows that were tried for a word, longest first.
pub struct Addition {
    pub tried: Vec<Tried>,
}

impl Addition {
    pub fn points(&self) -> i32 {
        self.tried.iter().map(Tried::points).sum()
    }

    /// The number of words in the row whose p was used.
    pub fn matched(&self) -> usize {
        self.last().map_or(0, <[u32]>::len)
    }

    /// Whether the word was scored as word 1.
    pub fn is_unknown(&self) -> bool {
        self.last().is_some_and(|row| row.ends_with(&[UNKNOWN_WORD]))
    }

    fn last(&self) -> Option<&[u32]> {
        self.tried.last().map(|tried| &tried.row[..])
    }
}

/// The rule along a sentence: what counts of the words before, oldest first.
pub struct Rule<'a> {
    array: &'a Array,
    order: usize,
    history: Vec<u32>,
}

impl<'a> Rule<'a> {
    /// After `<s>`, or with no context.
    pub fn new(array: &'a Array, order: usize, after_start: bool) -> Rule<'a> {
        let mut rule = Rule { array, order, history: Vec::new() };
        if after_start {
            rule.precede(START_WORD);
        }
        rule
    }

    /// The addition of the next word; or the refusal in words.
    pub fn add(&mut self, given: u32) -> Result<Addition, String> {
        let word = if self.look_up(&[given])?.found == 1 { given } else { UNKNOWN_WORD };
        let mut tried = Vec::new();
        for start in 0..=self.history.len() {
            let row = [&self.history[start..], &[word]].concat();
            let added = self.try_row(&row)?;
            tried.push(Tried { row, added });
            if matches!(added, Added::Probability(_)) {
                break;
            }
        }
        match given {
            END_WORD => {
                self.history.clear();
                self.precede(START_WORD);
            }
            _ => self.precede(word),
        }
        Ok(Addition { tried })
    }

    fn try_row(&self, row: &[u32]) -> Result<Added, String> {
        let found = self.look_up(row)?;
        if found.found == 1 {
            return Ok(Added::Probability(found.p));
        }
        let history = &row[..row.len() - 1];
        if history.is_empty() {
            return Ok(Added::Nothing);
        }
        let before = self.look_up(history)?;
        Ok(if before.found == 1 { Added::Backoff(before.b) } else { Added::Nothing })
    }

    fn look_up(&self, words: &[u32]) -> Result<Found, String> {
        let found = backoff::lookup(&self.array.base, &self.array.check, words);
        match found.number {
            ACCEPTED => Ok(found),
            number => Err(refusal::of_array(number)),
        }
    }

    /// A word more precedes; one fewer than the longest row's words count.
    fn precede(&mut self, word: u32) {
        self.history.push(word);
        let most = self.order - 1;
        self.history.drain(..self.history.len().saturating_sub(most));
    }
}
