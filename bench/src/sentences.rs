//! All small sentences as the team writes them in Rust, each beginning scored once; and the table of times, with those of the largest move.

use crate::array::{head_fits, order};
use crate::largest_move::largest_move;
use crate::list::LARGEST_WORD;
use crate::lists::{Arrays, List};
use crate::packed::Packed;
use crate::report::thousands;
use crate::score::{begin, State};
use crate::time::{compare, Compared};
use backoff::Listing;

const LONGEST_SENTENCE: u32 = 4;
const MOST_USABLE: usize = 16;
const MOST_SENTENCES: usize = MOST_USABLE.pow(LONGEST_SENTENCE);

/// What sentences are made of and scored by, and where they are written.
struct Writer<'a> {
    base: &'a [i32],
    check: &'a [i32],
    order: usize,
    usable: &'a [u32],
    k: usize,
    words: &'a mut [u32],
    totals: &'a mut [i64],
    sentence: [u32; LONGEST_SENTENCE as usize],
    written: usize,
}

impl Writer<'_> {
    /// Writes the sentences that begin with the first words of `sentence`, `place` of them, after which state and total are these; nothing where 12 refuses.
    fn write<S: State + Copy>(&mut self, place: usize, state: S, total: i64) -> Option<()> {
        for &word in self.usable {
            let mut next = state;
            let (points, _) = next.step(self.base, self.check, self.order, word)?;
            let total = total + points as i64;
            self.sentence[place] = word;
            if place + 1 < self.k {
                self.write(place + 1, next, total)?;
            } else {
                let (closing, _) = next.step(self.base, self.check, self.order, 3)?;
                self.totals[self.written] = total + closing as i64;
                self.words[self.k * self.written..][..self.k].copy_from_slice(&self.sentence[..self.k]);
                self.written += 1;
            }
        }
        Some(())
    }
}

/// The words other than 2 and 3 for which the root has a child, ascending, and how many they are; nothing where they are too many.
fn usable_words(check: &[i32]) -> Option<([u32; MOST_USABLE], usize)> {
    let (mut usable, mut count) = ([0; MOST_USABLE], 0);
    for (word, &parent) in (0..=LARGEST_WORD as u32).zip(&check[1..]) {
        if parent == 0 && word != 2 && word != 3 {
            *usable.get_mut(count)? = word;
            count += 1;
        }
    }
    Some((usable, count))
}

/// Lists all sentences of k words and gives the number of usable words: 11, 22, 15, 12.
#[inline(always)]
pub fn list<S: State + Copy>(base: &[i32], check: &[i32], k: u32, words: &mut [u32], totals: &mut [i64]) -> Result<usize, u32> {
    if !head_fits(base, check) {
        return Err(11);
    }
    let (usable, v) = usable_words(check).filter(|_| (1..=LONGEST_SENTENCE).contains(&k)).ok_or(22u32)?;
    let (k, count) = (k as usize, v.pow(k));
    if words.len() < k * count || totals.len() < count {
        return Err(15);
    }
    let (words, totals) = (&mut words[..k * count], &mut totals[..count]);
    let (order, usable) = (order(check) as usize, &usable[..v]);
    let listed = match begin::<S>(base, check, order) {
        Some(state) => Writer { base, check, order, usable, k, words, totals, sentence: Default::default(), written: 0 }.write(0, state, 0),
        None => None,
    };
    if listed.is_none() && count > 0 {
        words.fill(0);
        totals.fill(0);
        return Err(12);
    }
    Ok(v)
}

#[inline(never)]
pub fn sentences<S: State + Copy>(base: &[i32], check: &[i32], k: u32, words: &mut [u32], totals: &mut [i64]) -> Listing {
    match list::<S>(base, check, k, words, totals) {
        Ok(v) => Listing { number: 0, place: 0, sentences: v.pow(k) as u32 },
        Err(number) => Listing { number, place: 0, sentences: 0 },
    }
}

/// The lists over which sentences are listed: an order, and how many random sentences their rows are the parts of.
const LISTS: [(usize, usize); 3] = [(2, 20), (3, 100), (5, 2_000)];

pub fn print_table() {
    println!("\n## All small sentences\n\nNanoseconds for each sentence of k words, over lists of 16 usable words. The largest move lists them too.\n");
    println!("| call | order | rows | k | ours | counterpart | ratio |\n|---|--:|--:|--:|--:|--:|--:|");
    for (order, sentences) in LISTS {
        let list = List::of_words(order, MOST_USABLE as i32 + 2, sentences);
        for k in [3, 4] {
            eprintln!("bench: sentences, order {order}, k {k}");
            print_row("sentences", &list, k, listing(&list.arrays, k));
            print_row("largest move", &list, k, moving(&list.arrays, k));
        }
    }
}

fn print_row(call: &str, list: &List, k: u32, compared: Compared) {
    let Compared { ours, rust, ratio } = compared;
    let each = |seconds: f64| 1e9 * seconds / MOST_USABLE.pow(k) as f64;
    let (order, rows) = (order(&list.arrays.check), thousands(list.rows()));
    println!("| {call} | {order} | {rows} | {k} | {:.1} | {:.1} | {ratio:.2} |", each(ours), each(rust));
}

/// Slices for the longest listing of k words.
fn room(k: u32) -> (Vec<u32>, Vec<i64>) {
    (vec![0; k as usize * MOST_SENTENCES], vec![0; MOST_SENTENCES])
}

fn listing(arrays: &Arrays, k: u32) -> Compared {
    let Arrays { base, check, .. } = arrays;
    let (mut left, mut right) = (room(k), room(k));
    let accepted = Listing { number: 0, place: 0, sentences: MOST_USABLE.pow(k) as u32 };
    let mut ours = || assert_eq!(backoff::sentences(base, check, k, &mut left.0, &mut left.1), accepted);
    let mut rust = || assert_eq!(sentences::<Packed>(base, check, k, &mut right.0, &mut right.1), accepted);
    let compared = compare(&mut ours, &mut rust);
    assert!(left == right, "the listings agree");
    compared
}

fn moving(arrays: &Arrays, k: u32) -> Compared {
    let Arrays { base, check, .. } = arrays;
    let (mut left, mut right) = (room(k), room(k));
    let largest = largest_move::<Packed>(base, check, k, &mut right.0, &mut right.1);
    let mut ours = || assert_eq!(backoff::largest_move(base, check, k, &mut left.0, &mut left.1), largest);
    let mut rust = || assert_eq!(largest_move::<Packed>(base, check, k, &mut right.0, &mut right.1), largest);
    let compared = compare(&mut ours, &mut rust);
    assert!(largest.first > 0 && left == right, "the listings agree");
    compared
}

#[cfg(test)]
pub mod tests {
    use crate::packed::Packed;
    use std::fmt::Debug;
    use tests::arrays::{built, drawn, Arrays};
    use tests::lists::with_usable;
    use tests::random::Random;
    use tests::reference::sentences::sentences;

    /// A call that lists sentences of k words over BASE and CHECK.
    type Call<A> = fn(&[i32], &[i32], u32, &mut [u32], &mut [i64]) -> A;

    /// Two calls answer and leave the same over any arrays, of which some are those of a list.
    pub fn see_same<A: Debug + PartialEq>(listed: fn(&mut Random) -> Arrays, ours: Call<A>, second: Call<A>) {
        let mut random = Random::new(1);
        for i in 0..20_000 {
            let Arrays { base, check } = if i % 40 == 0 { listed(&mut random) } else { drawn(&mut random) };
            let k = random.below(4) as u32;
            let (words, totals) = (vec![1; random.pick(&[0, 50, 2_000])], vec![1; random.pick(&[0, 30, 1_000])]);
            let (mut left, mut right) = ((words.clone(), totals.clone()), (words, totals));
            let answer = ours(&base, &check, k, &mut left.0, &mut left.1);
            assert_eq!(answer, second(&base, &check, k, &mut right.0, &mut right.1));
            assert_eq!(left, right);
        }
    }

    /// The listings that ours is timed against are the same.
    #[test]
    fn same_listings() {
        let ours = |base: &[i32], check: &[i32], k, words: &mut [u32], totals: &mut [i64]| {
            let listing = super::sentences::<Packed>(base, check, k, words, totals);
            ((listing.number, listing.place), listing.sentences)
        };
        see_same(listed, ours, sentences);
    }

    /// The array of a list with up to 20 usable words.
    fn listed(random: &mut Random) -> Arrays {
        let (order, usable) = (1 + random.below(5), 1 + random.below(20));
        built(&with_usable(random, order, usable, 5), 0)
    }
}
