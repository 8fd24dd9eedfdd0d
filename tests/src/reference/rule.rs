//! "The back-off rule" of document 01 over the plain list, with the left extension of T-01 and the sentence ends of T-03, and plain scoring.

use super::list::{continued, extended, rows, verdict, Refusal, Row, ACCEPTED};
use std::collections::HashMap;

pub const LONGEST_RUN: usize = 65_535;
pub const UNKNOWN: i32 = 1;
pub const SENTENCE_START: u32 = 2;
pub const SENTENCE_END: u32 = 3;

/// A scored word.
#[derive(Clone, Copy, Debug, PartialEq, Eq)]
pub struct Scored {
    pub points: i32,
    pub matched: usize,
    pub unknown: bool,
    /// Whether some row puts a further word in front of the row whose p was used.
    pub extended: bool,
}

impl Scored {
    /// "Its matched length, plus 8 if unknown", and 16 for the left extension (T-01).
    pub fn length_byte(self) -> u8 {
        self.matched as u8 + if self.unknown { 8 } else { 0 } + if self.extended { 16 } else { 0 }
    }
}

struct Entry {
    p: i32,
    b: i32,
    live: bool,
    extended: bool,
}

/// An accepted list, to be asked for any sequence of words.
pub struct Rule {
    order: usize,
    entries: HashMap<Vec<i32>, Entry>,
}

impl Rule {
    pub fn new(rows: &[Row]) -> Rule {
        let (extended, continued) = (extended(rows), continued(rows));
        let entry = |row: &Row| {
            let live = row.b != 0 || continued.contains(&row.words[..]);
            (row.words.clone(), Entry { p: row.p, b: row.b, live, extended: extended.contains(&row.words[..]) })
        };
        Rule { order: rows.last().map_or(0, |row| row.words.len()), entries: rows.iter().map(entry).collect() }
    }

    /// The points of a word after all the words that precede it.
    pub fn score(&self, preceding: &[u32], word: u32) -> Scored {
        let word = self.replaced(word);
        let (points, matched, extended) = self.back_off(&self.history(preceding), word);
        Scored { points, matched, unknown: word == UNKNOWN, extended }
    }

    /// The points of the last of these words after the words before it, none of which is replaced; a 3 among them ends nothing (T-07).
    pub fn points_within(&self, words: &[i32]) -> i32 {
        let (word, history) = words.split_last().expect("a row has words");
        self.back_off(history, *word).0
    }

    /// "If history and word together are listed, the points are that row's p. Otherwise they are b of the history (0 if it is
    /// unlisted) plus the points of the word after the history without its oldest word." And the matched length, and whether the row is extended.
    fn back_off(&self, history: &[i32], word: i32) -> (i32, usize, bool) {
        if let Some(entry) = self.entries.get(&[history, &[word]].concat()) {
            return (entry.p, history.len() + 1, entry.extended);
        }
        let (points, matched, extended) = self.back_off(&history[1..], word);
        (self.entries.get(history).map_or(0, |entry| entry.b) + points, matched, extended)
    }

    /// "First every word without a one-word row is replaced by 1."
    fn replaced(&self, word: u32) -> i32 {
        i32::try_from(word).ok().filter(|&word| self.entries.contains_key(&[word][..])).unwrap_or(UNKNOWN)
    }

    /// "The history is the preceding words, at most n−1 of them", oldest first. "After a word given as 3 is scored, the history is `<s>` alone"
    /// (T-03): the last 3 counts as a 2, and nothing before it counts. A 3 further back has n−1 words behind it, so that its 2 is cut off.
    fn history(&self, preceding: &[u32]) -> Vec<i32> {
        let newest = &preceding[preceding.len().saturating_sub(self.order - 1)..];
        let history = match newest.iter().rposition(|&word| word == SENTENCE_END) {
            Some(end) => [&[SENTENCE_START], &newest[end + 1..]].concat(),
            None => newest.to_vec(),
        };
        history.into_iter().map(|word| self.replaced(word)).collect()
    }

    /// "The state after a history is its longest live suffix, possibly empty", as nine numbers.
    pub fn state(&self, preceding: &[u32]) -> [i32; 9] {
        let history = self.history(preceding);
        let live = |count: &usize| self.entries.get(&history[history.len() - count..]).is_some_and(|entry| entry.live);
        let count = (1..=history.len()).rev().find(live).unwrap_or(0);
        let mut state = [0; 9];
        state[0] = count as i32;
        for length in 1..=count {
            let suffix = &history[history.len() - length..];
            state[length] = suffix[0];
            state[4 + length] = self.entries[suffix].b;
        }
        state
    }
}

/// Scores words from the plain list: 1, row by row 3 to 8, 9, 14, 15.
pub fn plain(table: &[i32], after_start: bool, words: &[u32], points: &mut [i32], lengths: &mut [u8]) -> (Refusal, i64) {
    let verdict = verdict(table);
    if verdict != ACCEPTED {
        return (verdict, 0);
    }
    if words.len() > LONGEST_RUN {
        return ((14, 0), 0);
    }
    if points.len() < words.len() || lengths.len() < words.len() {
        return ((15, 0), 0);
    }
    let rule = Rule::new(&rows(table));
    let mut total = 0;
    let mut preceding = if after_start { vec![SENTENCE_START] } else { vec![] };
    for (i, &word) in words.iter().enumerate() {
        let scored = rule.score(&preceding, word);
        points[i] = scored.points;
        lengths[i] = scored.length_byte();
        total += scored.points as i64;
        preceding.push(word);
    }
    (ACCEPTED, total)
}
