//! Request T-12 of document 02: all small sentences over any lent arrays, each with its total.

use super::array::{Array, ROOT};
use super::list::{Refusal, ACCEPTED};
use super::rule::{SENTENCE_END, SENTENCE_START};
use super::score::{run, start, EMPTY};

/// "k from 1 to 4"; "more than 16 such words" are refused.
pub const LONGEST_SENTENCE: u32 = 4;
pub const MOST_USABLE: usize = 16;

/// Number and place, and the sentence count.
pub type Answer = (Refusal, u32);

/// "The listed words other than 2 and 3", ascending: on any array those for which the root has a child.
pub fn usable_words(array: &Array) -> Vec<u32> {
    let listed = array.children().remove(&ROOT).unwrap_or_default();
    let mut words: Vec<u32> =
        listed.into_iter().map(|(word, _)| word).filter(|&word| ![SENTENCE_START, SENTENCE_END].contains(&word)).collect();
    words.sort();
    words
}

/// "Sentences come in ascending order, the first word weighing most, each once": the first word, then every sentence of the other words.
pub fn sentences_of(k: usize, words: &[u32]) -> Vec<Vec<u32>> {
    if k == 0 {
        return vec![vec![]];
    }
    let shorter = sentences_of(k - 1, words);
    words.iter().flat_map(|&first| shorter.iter().map(move |rest| [&[first], &rest[..]].concat())).collect()
}

/// "Its total from `<s>` including the closing 3"; nothing where 12 refuses.
fn total_of(base: &[i32], check: &[i32], sentence: &[u32]) -> Option<i64> {
    let words = [sentence, &[SENTENCE_END]].concat();
    let (mut state, mut points, mut lengths) = (EMPTY, vec![0; words.len()], vec![0; words.len()]);
    if start(base, check, &mut state) != ACCEPTED {
        return None;
    }
    let (refusal, total) = run(base, check, &mut state, &words, &mut points, &mut lengths);
    (refusal == ACCEPTED).then_some(total)
}

/// Lists all sentences of k words: 11, 22, 15, 12.
pub fn sentences(base: &[i32], check: &[i32], k: u32, words: &mut [u32], totals: &mut [i64]) -> Answer {
    let refused = |number| ((number, 0), 0);
    let Some(array) = Array::new(base, check) else { return refused(11) };
    let usable = usable_words(&array);
    if !(1..=LONGEST_SENTENCE).contains(&k) || usable.len() > MOST_USABLE {
        return refused(22);
    }
    let listed = sentences_of(k as usize, &usable);
    if words.len() < k as usize * listed.len() || totals.len() < listed.len() {
        return refused(15);
    }
    let (words, totals) = (&mut words[..k as usize * listed.len()], &mut totals[..listed.len()]);
    let Some(scored) = listed.iter().map(|sentence| total_of(base, check, sentence)).collect::<Option<Vec<i64>>>() else {
        // "12, with 0, comes last where a sentence meets it and leaves the listing's items 0."
        words.fill(0);
        totals.fill(0);
        return refused(12);
    };
    words.copy_from_slice(&listed.concat());
    totals.copy_from_slice(&scored);
    (ACCEPTED, listed.len() as u32)
}
