//! What the tests of listings and of the largest move in them share: a call is tried over arrays with a k and slices of some lengths, words and totals, and gives its refusal's number.

use tests::arrays::{built, drawn, each_change, Arrays};
use tests::guard::Guarded;
use tests::lists::{self, table, tiny_usable, with_usable};
use tests::random::Random;
use tests::reference::list::Row;
use tests::reference::sentences::LONGEST_SENTENCE;

/// What a call answers and leaves behind.
#[derive(Clone, Debug, PartialEq, Eq)]
pub struct Outcome<A> {
    pub answer: A,
    pub words: Vec<u32>,
    pub totals: Vec<i64>,
}

/// What a call answers and leaves where its slices held these numbers; BASE and CHECK are only read.
pub fn called<A>(
    arrays: &Arrays,
    words: &[u32],
    totals: &[i64],
    call: impl FnOnce(&[i32], &[i32], &mut [u32], &mut [i64]) -> A,
) -> Outcome<A> {
    let (mut base, mut check) = (Guarded::new(&arrays.base), Guarded::new(&arrays.check));
    let (mut words, mut totals) = (Guarded::new(words), Guarded::new(totals));
    let answer = call(base.lend(), check.lend(), words.lend(), totals.lend());
    assert!(base.back() == arrays.base && check.back() == arrays.check, "a slice lent for reading was written");
    Outcome { answer, words: words.back().to_vec(), totals: totals.back().to_vec() }
}

/// Slices of these lengths that hold random numbers.
pub fn rubbish(random: &mut Random, sizes: (usize, usize)) -> (Vec<u32>, Vec<i64>) {
    ((0..sizes.0).map(|_| random.bits() as u32).collect(), (0..sizes.1).map(|_| random.bits() as i64).collect())
}

/// The array that the call under test builds.
pub fn build(rows: &[Row]) -> Arrays {
    let mut arrays = built(rows, 0);
    let mut work = vec![0; rows.len()];
    assert_eq!(backoff::build(&table(rows), &mut arrays.base, &mut arrays.check, &mut work).number, 0);
    arrays
}

/// How often each number was met.
#[derive(Default)]
struct Met([usize; 23]);

impl Met {
    fn see(&mut self, number: u32) {
        self.0[number as usize] += 1;
    }

    fn all(&self, numbers: &[usize]) {
        assert!(numbers.iter().all(|&number| self.0[number] > 0), "{:?}", self.0);
    }
}

/// Each check in turn with all those behind it, in every combination: 11, 22 by either cause, 15 by either slice, 12. The call is told the number that it must answer; where that is 0, all
/// sentences of two words over the sample are listed.
pub fn order_of_refusals(random: &mut Random, mut see: impl FnMut(&mut Random, &Arrays, u32, (usize, usize), u32)) {
    let (few, many) = (built(&lists::sample(), 0), built(&with_usable(random, 3, 17, 9), 0));
    for (wrong_head, wrong_k) in [(3, 5), (43, 0)] {
        for faults in 0..1 << 6 {
            let has = |fault: usize| faults >> fault & 1 == 1;
            let mut arrays = if has(2) { many.clone() } else { few.clone() };
            if has(0) {
                arrays.check[0] = wrong_head;
            }
            if has(5) {
                // The node of word 2, which every start reads.
                arrays.base[3] = 0;
            }
            let sizes = (if has(3) { 17 } else { 18 }, if has(4) { 8 } else { 9 });
            let number = (0..6).find(|&fault| has(fault)).map_or(0, |fault| [11, 22, 22, 15, 15, 12][fault]);
            see(random, &arrays, if has(1) { wrong_k } else { 2 }, sizes, number);
        }
    }
}

/// Every single number of so many small arrays changed to each of several values.
pub fn changed_arrays(random: &mut Random, count: usize, mut call: impl FnMut(&mut Random, &Arrays, u32, (usize, usize)) -> u32) {
    let mut met = Met::default();
    for i in 0..count {
        let arrays = built(&tiny_usable(random, 1 + i % 5), 1);
        let k = 1 + i as u32 % 3;
        let (words, totals) = arrays.listing(k);
        each_change(&arrays, |changed| met.see(call(random, changed, k, (words + 3, totals + 2))));
    }
    met.all(&[0, 11, 12, 15]);
}

/// Arrays that no build wrote, with lengths of any kind; k is 1 or 2, and at times one of some others.
pub fn drawn_arrays(random: &mut Random, others: &[u32], mut call: impl FnMut(&mut Random, &Arrays, u32, (usize, usize)) -> u32) {
    let mut met = Met::default();
    for _ in 0..50_000 {
        let arrays = drawn(random);
        let k = if random.chance(10) { random.pick(others) } else { 1 + random.below(2) as u32 };
        let (words, totals) = if k <= LONGEST_SENTENCE { arrays.listing(k) } else { (8, 8) };
        let sizes = ((words + random.below(9)).saturating_sub(1), (totals + random.below(9)).saturating_sub(1));
        met.see(call(random, &arrays, k, sizes));
    }
    met.all(&[0, 12, 15, 22]);
}
