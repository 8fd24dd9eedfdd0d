//! Plain scoring as the team writes it in Rust, by binary search in the list; and by a HashMap of the rows.

use crate::list::{self, low, Row, LARGEST_WORD};
use crate::score::LONGEST_RUN;
use backoff::Total;
use std::collections::HashMap;

/// The rows of a list. Words are in one number of 80 bits, the newest in the lowest 16.
pub trait Rows {
    fn order(&self) -> usize;

    fn has_word(&self, word: u32) -> bool;

    /// The points of a word after the newest `count` words of the history, the matched length, and whether some row puts a further word in front of the matched one.
    fn back_off(&self, history: u128, count: usize, word: u128) -> (i32, usize, bool);
}

/// The newest words of a history, so many.
fn newest(history: u128, count: usize) -> u128 {
    history & ((1 << (16 * count)) - 1)
}

/// An accepted table, where the rows of m words stand from starts[m - 1] to starts[m].
struct Table<'a> {
    rows: &'a [Row],
    starts: [usize; 6],
}

impl Table<'_> {
    fn new(table: &[i32]) -> Table<'_> {
        let (rows, _) = table.as_chunks::<8>();
        let mut starts = [0; 6];
        for (m, start) in starts.iter_mut().enumerate() {
            *start = rows.partition_point(|row| row[0] as usize <= m);
        }
        Table { rows, starts }
    }

    /// The row of m words with this key.
    #[inline]
    fn find(&self, m: usize, words: u128) -> Option<&Row> {
        let rows = &self.rows[self.starts[m - 1]..self.starts[m]];
        Some(&rows[rows.binary_search_by_key(&words, key).ok()?])
    }

    /// Whether some row puts a further word in front of the row of m words with this key.
    #[inline]
    fn extended(&self, m: usize, words: u128) -> bool {
        let longer = if m < 5 { &self.rows[self.starts[m]..self.starts[m + 1]] } else { &[] };
        let at = longer.partition_point(|row| key(row) >> 16 < words);
        longer.get(at).is_some_and(|row| key(row) >> 16 == words)
    }
}

/// The words in one number: the oldest word comes first in a row and lowest in its key.
fn key(row: &Row) -> u128 {
    low(row) as u128 | (row[5] as u128) << 64
}

impl Rows for Table<'_> {
    fn order(&self) -> usize {
        self.rows[self.rows.len() - 1][0] as usize
    }

    #[inline]
    fn has_word(&self, word: u32) -> bool {
        self.find(1, word as u128).is_some()
    }

    /// The rule step by step: history and word together, else the history's back-off and the history without its oldest word.
    #[inline]
    fn back_off(&self, history: u128, count: usize, word: u128) -> (i32, usize, bool) {
        // The key of what is left of the history: its oldest word is lowest and goes first.
        let mut left = (0..count).fold(0, |key, i| key << 16 | (history >> (16 * i) & 0xFFFF));
        let mut back_offs = 0;
        for length in (1..=count).rev() {
            let both = word << (16 * length) | left;
            if let Some(row) = self.find(length + 1, both) {
                return (back_offs + row[6], length + 1, self.extended(length + 1, both));
            }
            back_offs += self.find(length, left).map_or(0, |row| row[7]);
            left >>= 16;
        }
        let row = self.find(1, word).expect("a word that has a row");
        (back_offs + row[6], 1, self.extended(1, word))
    }
}

/// The rows in Rust's own map, with its own hash.
pub struct Map {
    order: usize,
    /// p, b, and whether some row puts a further word in front.
    rows: HashMap<(usize, u128), (i32, i32, bool)>,
}

impl Map {
    pub fn new(table: &[i32]) -> Map {
        let (rows, _) = table.as_chunks::<8>();
        let key = |row: &Row| {
            let m = row[0] as usize;
            (m, row[1..=m].iter().fold(0, |key, &word| key << 16 | word as u128))
        };
        let mut map: HashMap<_, _> = rows.iter().map(|row| (key(row), (row[6], row[7], false))).collect();
        for row in rows {
            let (m, words) = key(row);
            if let Some(shorter) = map.get_mut(&(m - 1, words & ((1 << (16 * (m - 1))) - 1))) {
                shorter.2 = true;
            }
        }
        Map { order: map.keys().map(|key| key.0).max().unwrap_or(0), rows: map }
    }
}

impl Rows for Map {
    fn order(&self) -> usize {
        self.order
    }

    fn has_word(&self, word: u32) -> bool {
        self.rows.contains_key(&(1, word as u128))
    }

    /// From the word alone up, as far as rows are there: the longest row, then the back-offs of the histories that are too long for it.
    #[inline]
    fn back_off(&self, history: u128, count: usize, word: u128) -> (i32, usize, bool) {
        let (mut points, mut matched, mut extended) = (0, 0, false);
        while matched <= count {
            let Some(&(p, _, further)) = self.rows.get(&(matched + 1, newest(history, matched) << 16 | word)) else { break };
            (points, matched, extended) = (p, matched + 1, further);
        }
        for length in matched..=count {
            let Some((_, b, _)) = self.rows.get(&(length, newest(history, length))) else { break };
            points += b;
        }
        (points, matched, extended)
    }
}

/// Scores words from the plain list: 1, row by row 3 to 8, 9, 14, 15.
pub fn plain(table: &[i32], after_start: bool, words: &[u32], points: &mut [i32], lengths: &mut [u8]) -> Total {
    let refused = |number, place| Total { number, place, total: 0 };
    let verdict = list::check(table);
    if verdict.number != 0 {
        return refused(verdict.number, verdict.place);
    }
    if words.len() > LONGEST_RUN {
        return refused(14, 0);
    }
    if points.len() < words.len() || lengths.len() < words.len() {
        return refused(15, 0);
    }
    Total { number: 0, place: 0, total: score(&Table::new(table), after_start, words, points, lengths) }
}

/// Scores each word after the words before it and gives the total.
pub fn score(rows: &impl Rows, after_start: bool, words: &[u32], points: &mut [i32], lengths: &mut [u8]) -> i64 {
    let most = rows.order() - 1;
    let mut history: u128 = 2;
    let mut count = most.min(after_start as usize);
    let mut total = 0;
    for i in 0..words.len() {
        let known = (2..=LARGEST_WORD as u32).contains(&words[i]) && rows.has_word(words[i]);
        let word = if known { words[i] as u128 } else { 1 };
        let (word_points, matched, extended) = rows.back_off(history, count, word);
        points[i] = word_points;
        lengths[i] = matched as u8 + if known { 0 } else { 8 } + if extended { 16 } else { 0 };
        total += word_points as i64;
        // Behind a 3 the history is `<s>` alone.
        (history, count) = if words[i] == 3 { (2, most.min(1)) } else { (history << 16 | word, most.min(count + 1)) };
    }
    total
}

#[cfg(test)]
mod tests {
    use tests::lists::{ended_text, small, table};
    use tests::random::Random;
    use tests::reference;

    /// The scorers that ours is timed against give the rule's points and matched lengths.
    #[test]
    fn same_points() {
        let mut random = Random::new(1);
        for i in 0..2_000 {
            let rows = small(&mut random, 1 + i % 5);
            let (table, words) = (table(&rows), ended_text(&mut random, &rows, 20, 5));
            let (mut points, mut lengths) = ([0; 20], [0; 20]);
            let (_, total) = reference::rule::plain(&table, i % 2 == 0, &words, &mut points, &mut lengths);
            let (mut points2, mut lengths2) = ([0; 20], [0; 20]);
            assert_eq!(super::plain(&table, i % 2 == 0, &words, &mut points2, &mut lengths2).total, total);
            assert_eq!((points, lengths), (points2, lengths2));
            assert_eq!(super::score(&super::Map::new(&table), i % 2 == 0, &words, &mut points2, &mut lengths2), total);
            assert_eq!((points, lengths), (points2, lengths2));
        }
    }
}
