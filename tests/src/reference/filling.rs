//! Request T-07 of document 02: a pruned list filled.

use super::list::{rows, verdict_by, Needs, Refusal, Row, ACCEPTED, LOWEST_P, MOST_ROWS};
use super::rule::Rule;
use std::collections::BTreeMap;

/// The number of words and the words newest first: these ascend as the rows do.
type Key = (usize, Vec<i32>);

fn key(words: &[i32]) -> Key {
    (words.len(), words.iter().rev().copied().collect())
}

/// Writes the complete list and gives its row count: 1, row by row 3 to 8, 9, 5, 1, 15.
pub fn fill(table: &[i32], filled: &mut [i32]) -> (Refusal, u32) {
    let verdict = verdict_by(table, Needs::ToBeFilled);
    if verdict != ACCEPTED {
        return (verdict, 0);
    }
    let listed = rows(table);
    let rule = Rule::new(&listed);
    let mut all: BTreeMap<Key, Row> = listed.iter().map(|row| (key(&row.words), row.clone())).collect();
    for (number, row) in (1..).zip(&listed) {
        // "Each absent row of two or more words that is some listed row without its first words is added, and no other."
        for first in 1..row.words.len() - 1 {
            let words = row.words[first..].to_vec();
            let p = rule.points_within(&words);
            if all.contains_key(&key(&words)) {
                continue;
            }
            if !(LOWEST_P..=0).contains(&p) {
                return ((5, number), 0);
            }
            all.insert(key(&words), Row { words, p, b: 0 });
        }
    }
    if all.len() > MOST_ROWS {
        return ((1, 0), 0);
    }
    if filled.len() < 8 * all.len() {
        return ((15, 0), 0);
    }
    for (cells, row) in filled.chunks_mut(8).zip(all.values()) {
        cells.copy_from_slice(&row.cells());
    }
    (ACCEPTED, all.len() as u32)
}
