//! "The carried state" of document 01: start and runs over any lent arrays, with the sentence ends of T-03.

use super::array::{Array, Marker, ROOT};
use super::list::{Refusal, ACCEPTED, LARGEST_B, LARGEST_WORD};
use super::rule::{Scored, LONGEST_RUN, SENTENCE_END, SENTENCE_START, UNKNOWN};

pub const EMPTY: [i32; 9] = [0; 9];

/// A state taken apart: words newest first, and the back-offs of the newest word, of the newest two, and so on.
#[derive(Clone, Default)]
struct Carried {
    words: Vec<u32>,
    back_offs: Vec<i32>,
}

impl Carried {
    /// Nothing where 16 refuses.
    fn read(state: &[i32], order: usize) -> Option<Carried> {
        let count = usize::try_from(state[0]).ok().filter(|&count| count < order)?;
        let (words, unused_words) = state[1..5].split_at(count);
        let (back_offs, unused_back_offs) = state[5..9].split_at(count);
        let in_range = words.iter().all(|word| (1..=LARGEST_WORD).contains(word))
            && back_offs.iter().all(|b| (-LARGEST_B..=LARGEST_B).contains(b))
            && unused_words.iter().chain(unused_back_offs).all(|&item| item == 0);
        in_range.then(|| Carried { words: words.iter().map(|&word| word as u32).collect(), back_offs: back_offs.to_vec() })
    }

    fn write(&self, state: &mut [i32]) {
        state.fill(0);
        state[0] = self.words.len() as i32;
        for (i, (&word, &b)) in self.words.iter().zip(&self.back_offs).enumerate() {
            state[1 + i] = word as i32;
            state[5 + i] = b;
        }
    }
}

/// Whether nine numbers pass check 16 of an order.
pub fn passes_16(state: &[i32; 9], order: usize) -> bool {
    Carried::read(state, order).is_some()
}

/// Start's state: "walking word 2 (replaced like any word) from the empty state" leaves it; nothing where 12 refuses.
fn begin(array: &Array) -> Option<Carried> {
    let (_, carried) = step(array, &Carried::default(), SENTENCE_START)?;
    Some(carried)
}

/// Scores a word of a run. "After a word given as 3 is scored .. the state is then what start gives, its 12 at that word included" (T-03).
fn score(array: &Array, carried: &Carried, word: u32) -> Option<(Scored, Carried)> {
    let (scored, next) = step(array, carried, word)?;
    Some((scored, if word == SENTENCE_END { begin(array)? } else { next }))
}

/// Walks a word after a state and gives the next state; nothing where 12 refuses.
fn step(array: &Array, carried: &Carried, word: u32) -> Option<(Scored, Carried)> {
    let unknown = word == UNKNOWN as u32 || array.child(ROOT, word).is_none();
    let word = if unknown { UNKNOWN as u32 } else { word };
    let walk = walk(array, word, &carried.words)?;
    let matched = walk.len();
    // "That row's p plus the state's back-offs of lengths L to count."
    let points = walk[matched - 1].p + carried.back_offs[matched - 1..].iter().sum::<i32>();
    let extended = walk[matched - 1].e == 1;
    Some((Scored { points, matched, unknown, extended }, next(array, word, carried, &walk)))
}

/// "A word w is walked from the root, then through the state's words": the markers on the walk.
fn walk(array: &Array, word: u32, older: &[u32]) -> Option<Vec<Marker>> {
    let mut node = array.child(ROOT, word)?;
    let mut markers = vec![array.marker(1, node)?];
    for &word in older {
        let Some(child) = array.child(node, word) else { break };
        markers.push(array.marker(markers.len() + 1, child)?);
        node = child;
    }
    Some(markers)
}

/// "The next state is the longest live row of at most n−1 words on that walk."
fn next(array: &Array, word: u32, carried: &Carried, walk: &[Marker]) -> Carried {
    let longest = walk.len().min(array.order() - 1);
    let count = (1..=longest).rev().find(|&count| walk[count - 1].live()).unwrap_or(0);
    let words = [&[word], &carried.words[..]].concat();
    Carried { words: words[..count].to_vec(), back_offs: walk[..count].iter().map(|marker| marker.b).collect() }
}

/// The state after `<s>`: 16 for another length of the state, then 11, 12.
pub fn start(base: &[i32], check: &[i32], state: &mut [i32]) -> Refusal {
    if state.len() != 9 {
        return (16, 0);
    }
    state.copy_from_slice(&EMPTY);
    let Some(array) = Array::new(base, check) else { return (11, 0) };
    let Some(carried) = begin(&array) else { return (12, 0) };
    carried.write(state);
    ACCEPTED
}

/// Scores a run's words from the state and leaves the next one there: 16 for another length of the state, then 11, 16, 14, 15, 12.
pub fn run(base: &[i32], check: &[i32], state: &mut [i32], words: &[u32], points: &mut [i32], lengths: &mut [u8]) -> (Refusal, i64) {
    let refused = |number| ((number, 0), 0);
    if state.len() != 9 {
        return refused(16);
    }
    let Some(array) = Array::new(base, check) else { return refused(11) };
    let Some(mut carried) = Carried::read(state, array.order()) else { return refused(16) };
    if words.len() > LONGEST_RUN {
        return refused(14);
    }
    if points.len() < words.len() || lengths.len() < words.len() {
        return refused(15);
    }
    let mut total = 0;
    for (i, &word) in words.iter().enumerate() {
        let Some((scored, next)) = score(&array, &carried, word) else {
            points[..words.len()].fill(0);
            lengths[..words.len()].fill(0);
            return ((12, i as u32 + 1), 0);
        };
        points[i] = scored.points;
        lengths[i] = scored.length_byte();
        total += scored.points as i64;
        carried = next;
    }
    carried.write(state);
    (ACCEPTED, total)
}
