//! Request T-13 of document 02: the largest move among the small sentences of T-12, over any lent arrays.

use super::list::{Refusal, ACCEPTED};
use super::sentences::sentences;
use std::cmp::Reverse;

/// Number and place, the distance, and the numbers of the pair.
pub type Answer = (Refusal, i64, (u32, u32));

fn differ_at_one_place(one: &[u32], two: &[u32]) -> bool {
    one.iter().zip(two).filter(|(word, other)| word != other).count() == 1
}

/// "The exact largest distance between totals of two sentences that differ at one place, and the pair that reaches it whose first sentence, then second, is earliest":
/// of all pairs. "With fewer than two usable words the distance is 0 and no pair is named (0, 0)": there is none then.
fn largest(listed: &[&[u32]], totals: &[i64]) -> (i64, (u32, u32)) {
    let pairs = (0..listed.len()).flat_map(|i| (0..listed.len()).map(move |j| (i, j)));
    let one_place = pairs.filter(|&(i, j)| differ_at_one_place(listed[i], listed[j]));
    let moves = one_place.map(|(i, j)| ((totals[i] - totals[j]).abs(), (i as u32 + 1, j as u32 + 1)));
    moves.max_by_key(|&(distance, pair)| (distance, Reverse(pair))).unwrap_or_default()
}

/// Lists all sentences of k words and finds the largest move: 11, 22, 15, 12. "A refused call answers zeros."
pub fn largest_move(base: &[i32], check: &[i32], k: u32, words: &mut [u32], totals: &mut [i64]) -> Answer {
    let (refusal, count) = sentences(base, check, k, words, totals);
    if refusal != ACCEPTED {
        return (refusal, 0, (0, 0));
    }
    let listed: Vec<&[u32]> = words.chunks(k as usize).take(count as usize).collect();
    let (distance, pair) = largest(&listed, totals);
    (ACCEPTED, distance, pair)
}
