//! Request T-06 of document 02: fragments scored without left context, and joined, over any lent arrays.

use super::array::Array;
use super::list::{Refusal, ACCEPTED, LARGEST_B};
use super::rule::LONGEST_RUN;
use super::score::{passes_16, run, EMPTY};

/// "A fragment .. keeps its total, its first words (at most n−1), its word count and its end state."
#[derive(Clone, Copy, Debug, Default, PartialEq, Eq)]
pub struct Fragment {
    pub total: i64,
    pub count: u32,
    pub kept: u32,
    /// The first words as they were given; unused ones are 0.
    pub first: [u32; 4],
    pub state: [i32; 9],
}

/// "A refused fragment or join is the empty fragment."
pub type Answer = (Refusal, Fragment);

fn refused(number: u32, place: u32) -> Answer {
    ((number, place), Fragment::default())
}

impl Fragment {
    fn kept_words(&self) -> &[u32] {
        &self.first[..self.kept as usize]
    }

    /// What 21 lets pass: kept words "as many as the smaller of n−1 and its word count", a state that 16 does not refuse, and a total no "further from 0 than
    /// its word count times n times the largest back-off allowed".
    fn passes_21(&self, order: usize) -> bool {
        let bound = self.count as i128 * order as i128 * LARGEST_B as i128;
        self.kept as usize == (order - 1).min(self.count as usize) && passes_16(&self.state, order) && (self.total as i128).abs() <= bound
    }
}

/// The first words of a fragment of an order, of these words.
fn first_words(order: usize, words: &[u32]) -> (u32, [u32; 4]) {
    let kept = words.len().min(order - 1);
    let mut first = [0; 4];
    first[..kept].copy_from_slice(&words[..kept]);
    (kept as u32, first)
}

/// Total and end state of words after a state; the word's number where 12 refuses.
fn scored(base: &[i32], check: &[i32], state: [i32; 9], words: &[u32]) -> Result<(i64, [i32; 9]), u32> {
    let (mut state, mut points, mut lengths) = (state, vec![0; words.len()], vec![0; words.len()]);
    match run(base, check, &mut state, words, &mut points, &mut lengths) {
        (ACCEPTED, total) => Ok((total, state)),
        ((_, place), _) => Err(place),
    }
}

/// Scores words without left context: 11, 14, 12 with the word.
pub fn score_fragment(base: &[i32], check: &[i32], words: &[u32]) -> Answer {
    let Some(array) = Array::new(base, check) else { return refused(11, 0) };
    if words.len() > LONGEST_RUN {
        return refused(14, 0);
    }
    match scored(base, check, EMPTY, words) {
        Ok((total, state)) => {
            let (kept, first) = first_words(array.order(), words);
            (ACCEPTED, Fragment { total, count: words.len() as u32, kept, first, state })
        }
        Err(place) => refused(12, place),
    }
}

/// Joins two neighbours: 11, 21 with 1 or 2, 14, 12 with 0.
pub fn join_fragments(base: &[i32], check: &[i32], one: Fragment, two: Fragment) -> Answer {
    let Some(array) = Array::new(base, check) else { return refused(11, 0) };
    let order = array.order();
    if let Some(place) = (1..).zip([one, two]).find(|(_, fragment)| !fragment.passes_21(order)).map(|(place, _)| place) {
        return refused(21, place);
    }
    if one.count as u64 + two.count as u64 > LONGEST_RUN as u64 {
        return refused(14, 0);
    }
    let words = two.kept_words();
    let (Ok((alone, _)), Ok((after, state))) = (scored(base, check, EMPTY, words), scored(base, check, one.state, words)) else {
        return refused(12, 0);
    };
    let (kept, first) = first_words(order, &[one.kept_words(), words].concat());
    let joined = Fragment {
        // "Both totals, less the second's kept words scored from nothing, plus those words scored after the first's end state."
        total: one.total + two.total - alone + after,
        count: one.count + two.count,
        kept,
        first,
        // "The end state is the second's if it has n−1 words or more, else what that scoring leaves."
        state: if two.count as usize >= order - 1 { two.state } else { state },
    };
    (ACCEPTED, joined)
}
