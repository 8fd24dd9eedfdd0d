//! `backoff_largest_move` against the second implementation over any arrays, against the listing of `backoff_sentences`, and against how far T-11 lets a total be moved.

mod listing;

use listing::{build, rubbish};
use std::cmp::Reverse;
use std::collections::{BTreeSet, HashMap};
use tests::arrays::{built, spread, Arrays};
use tests::lists::{self, even, with_usable};
use tests::random::Random;
use tests::reference::largest_move::{largest_move, Answer};
use tests::reference::list::{Row, ACCEPTED, LARGEST_B};
use tests::reference::sentences::{LONGEST_SENTENCE, MOST_USABLE};

/// What the call leaves behind.
type Outcome = listing::Outcome<Answer>;

impl Outcome {
    fn number(&self) -> u32 {
        self.answer.0 .0
    }
}

fn answer_of(answer: backoff::Move) -> Answer {
    ((answer.number, answer.place), answer.distance, (answer.first, answer.second))
}

/// What the call answers and leaves, where its slices held these numbers. "Slices, what they then hold and refusals are T-12's; a refused call answers zeros."
fn called(arrays: &Arrays, k: u32, words: &[u32], totals: &[i64]) -> Outcome {
    let ours = listing::called(arrays, words, totals, |base, check, words, totals| {
        answer_of(backoff::largest_move(base, check, k, words, totals))
    });
    let (mut words, mut totals) = (words.to_vec(), totals.to_vec());
    let listing = backoff::sentences(&arrays.base, &arrays.check, k, &mut words, &mut totals);
    assert_eq!(ours.answer.0, (listing.number, listing.place), "refused as a listing");
    assert!(ours.words == words && ours.totals == totals, "the slices of a listing");
    if ours.number() != 0 {
        assert_eq!((ours.answer.1, ours.answer.2), (0, (0, 0)), "zeros where refused");
    }
    ours
}

/// What the call and the second implementation agree on, with slices to be written that have these lengths and held random numbers.
fn agreed(random: &mut Random, arrays: &Arrays, k: u32, sizes: (usize, usize)) -> Outcome {
    let (mut words, mut totals) = rubbish(random, sizes);
    let ours = called(arrays, k, &words, &totals);
    let answer = largest_move(&arrays.base, &arrays.check, k, &mut words, &mut totals);
    let second = Outcome { answer, words, totals };
    assert!(ours == second, "k {k}: {:?}, by the second implementation {:?}: {}", ours.answer, second.answer, shown(arrays, &ours));
    ours
}

fn shown(arrays: &Arrays, outcome: &Outcome) -> String {
    if arrays.slots() > 100 || outcome.words.len() > 100 {
        return String::new();
    }
    format!("{arrays:?} {outcome:?}")
}

/// The answer with slices that the listing just fills.
fn whole(random: &mut Random, arrays: &Arrays, k: u32) -> Answer {
    agreed(random, arrays, k, arrays.listing(k)).answer
}

fn row(words: &[i32], p: i32, b: i32) -> Row {
    Row { words: words.to_vec(), p, b }
}

/// The list of order 1 whose usable words, 1 and those from 4 on, have these p.
fn words_of(ps: &[i32]) -> Vec<Row> {
    let others = (4..).zip(&ps[1..]).map(|(word, &p)| row(&[word], p, 0));
    [row(&[1], ps[0], 0), row(&[2], -7, 0), row(&[3], -9, 0)].into_iter().chain(others).collect()
}

/// The sample by hand: its nine totals of two words are in `tests/tests/sentences.rs`.
#[test]
fn the_sample() {
    let mut random = Random::new(1);
    let sample = build(&lists::sample());
    // −33,000 and −13,500.
    assert_eq!(whole(&mut random, &sample, 1), (ACCEPTED, 19_500, (1, 3)));
    // 4 1 with −36,500 and 4 5 with −6,500; 1 1 and 4 5 lie further apart, but differ at two places.
    assert_eq!(whole(&mut random, &sample, 2), (ACCEPTED, 30_000, (4, 6)));
    whole(&mut random, &sample, 3);
    whole(&mut random, &sample, 4);
}

/// Fewer than two usable words: distance 0 and no pair. With two or more a pair is named, also where all totals are equal: (1, 2).
#[test]
fn no_pair_and_equal_totals() {
    let mut random = Random::new(2);
    let marks = build(&lists::first_words(3));
    let mut none = marks.clone();
    none.check[2] = 7;
    for k in 1..=LONGEST_SENTENCE {
        assert_eq!(whole(&mut random, &marks, k), (ACCEPTED, 0, (0, 0)));
        assert_eq!(agreed(&mut random, &none, k, (0, 0)).answer, (ACCEPTED, 0, (0, 0)));
        for usable in 2..=5 {
            let equal = build(&words_of(&vec![-5; usable]));
            assert_eq!(whole(&mut random, &equal, k), (ACCEPTED, 0, (1, 2)), "{usable} words, k {k}");
        }
    }
}

/// Of pairs as far apart the earliest first sentence, then the earliest second; whichever of the two totals is the larger.
#[test]
fn ties() {
    let mut random = Random::new(3);
    let cases: [(&[i32], u32, i64, (u32, u32)); 9] = [
        (&[0, -5, -5], 1, 5, (1, 2)),
        (&[-5, -5, 0], 1, 5, (1, 3)),
        (&[-5, 0, -5, 0], 1, 5, (1, 2)),
        (&[-2, -5, 0, -5, 0], 1, 5, (2, 3)),
        (&[-2, 0, -5, 0, -5], 1, 5, (2, 3)),
        (&[0, -5], 2, 5, (1, 2)),
        (&[-5, 0], 4, 5, (1, 2)),
        // A change at the last place ties with one at the first: (4, 7) comes after (2, 3).
        (&[-2, -5, 0], 2, 5, (2, 3)),
        (&[-2, 0, -5], 3, 5, (2, 3)),
    ];
    for (ps, k, distance, pair) in cases {
        assert_eq!(whole(&mut random, &build(&words_of(ps)), k), (ACCEPTED, distance, pair), "{ps:?}, k {k}");
    }
    for i in 0..3_000 {
        let ps: Vec<i32> = (0..2 + i % 5).map(|_| -random.between(0, 3)).collect();
        whole(&mut random, &build(&words_of(&ps)), 1 + i as u32 % 3);
    }
}

/// n × (2 × n − 1) × 99,000,000, and the most that the rule allows.
fn bounds(order: usize) -> [i64; 2] {
    [order * (2 * order - 1), 3 * order - 2].map(|times| times as i64 * i64::from(LARGEST_B))
}

/// Random lists, many with ties; "over a build's array it never exceeds T-11's figure".
#[test]
fn random_moves() {
    let mut random = Random::new(4);
    let mut tied = 0;
    for i in 0..2_000 {
        let (order, k) = (1 + i % 5, 1 + random.below(4) as u32);
        let (usable, sentences) = (1 + random.below([16, 16, 7, 4][k as usize - 1]), random.below(12));
        let mut rows = with_usable(&mut random, order, usable, sentences);
        if i % 2 == 0 {
            rows = even(&mut random, &rows);
        }
        let arrays = if i % 3 == 0 { spread(&mut random, &rows) } else { build(&rows) };
        let (words, totals) = arrays.listing(k);
        let sizes = (words + random.below(3), totals + random.below(3));
        let outcome = agreed(&mut random, &arrays, k, sizes);
        let (refusal, distance, (first, second)) = outcome.answer;
        assert_eq!(refusal, ACCEPTED, "over a list's array nothing is broken");
        assert!(bounds(order).iter().all(|&bound| distance <= bound), "{distance}, order {order}");
        assert_eq!(first < second, usable > 1);
        let moves = moves(&outcome, k as usize, totals);
        assert_eq!(largest(&moves), (distance, (first, second)));
        tied += (moves.iter().filter(|other| other.0 == distance).count() > 2) as usize;
    }
    assert!(tied > 500, "{tied} listings have a tie");
}

/// A distance, and the numbers of a pair.
type Pair = (i64, (u32, u32));

/// All pairs of so many listed sentences that differ at one place, in either order: for each sentence, at each place, every other word.
fn moves(outcome: &Outcome, k: usize, count: usize) -> Vec<Pair> {
    let listed: HashMap<&[u32], usize> = outcome.words.chunks(k).take(count).zip(0..).collect();
    let usable: BTreeSet<u32> = listed.keys().map(|sentence| sentence[0]).collect();
    let mut moves = Vec::new();
    for (sentence, &i) in &listed {
        for (place, &word) in (0..k).flat_map(|place| usable.iter().map(move |word| (place, word))) {
            let mut other = sentence.to_vec();
            other[place] = word;
            let j = listed[&other[..]];
            if j != i {
                moves.push(((outcome.totals[i] - outcome.totals[j]).abs(), (i as u32 + 1, j as u32 + 1)));
            }
        }
    }
    moves
}

/// The largest distance, and of the pairs that reach it the one whose first number, then second, is the smallest.
fn largest(moves: &[Pair]) -> Pair {
    moves.iter().copied().max_by_key(|&(distance, pair)| (distance, Reverse(pair))).unwrap_or_default()
}

/// The longest listing, 65,536 sentences of four of 16 words, beside the pairs that are made by changing a word.
#[test]
fn longest_listings() {
    let mut random = Random::new(5);
    for order in [1, 2, 5] {
        let mut rows = with_usable(&mut random, order, MOST_USABLE, 300);
        if order == 2 {
            rows = even(&mut random, &rows);
        }
        let arrays = build(&rows);
        let (words, totals) = rubbish(&mut random, arrays.listing(4));
        let outcome = called(&arrays, 4, &words, &totals);
        let (distance, pair) = largest(&moves(&outcome, 4, totals.len()));
        assert_eq!(outcome.answer, (ACCEPTED, distance, pair), "order {order}");
    }
}

/// The lists of `crates/theorems/specs/OneWordExample.antt`: their largest move is the most that the rule allows, 1, 4 and 7 times the largest back-off.
#[test]
fn extreme_lists() {
    let mut random = Random::new(6);
    let (most, least) = (LARGEST_B, -LARGEST_B);
    let order1 = vec![row(&[1], 0, 0), row(&[2], 0, 0), row(&[3], 0, 0), row(&[4], least, 0), row(&[5], 0, 0)];
    let order2 = vec![
        row(&[1], 0, 0),
        row(&[2], 0, least),
        row(&[3], 0, 0),
        row(&[4], least, least),
        row(&[5], 0, most),
        row(&[6], 0, 0),
        row(&[2, 5], 0, 0),
    ];
    let order3 = vec![
        row(&[1], 0, 0),
        row(&[2], 0, 0),
        row(&[3], 0, 0),
        row(&[4], 0, least),
        row(&[5], 0, 0),
        row(&[6], least, least),
        row(&[7], least, 0),
        row(&[8], 0, 0),
        row(&[2, 4], 0, least),
        row(&[4, 5], 0, most),
        row(&[5, 7], 0, most),
        row(&[2, 4, 5], 0, 0),
    ];
    for (order, k, rows) in [(1, 1, order1), (2, 2, order2), (3, 4, order3)] {
        let arrays = build(&rows);
        assert_eq!(whole(&mut random, &arrays, k).1, bounds(order)[1], "order {order}");
    }
}

/// 16 words and 17, every k at its limits, and slices of every length: refused as a listing is, with zeros.
#[test]
fn refusals() {
    let mut random = Random::new(7);
    let sample = built(&lists::sample(), 0);
    for k in [0, 5, 6, 255, 257, 65_537, 1 << 31, (1 << 31) + 1, u32::MAX - 3, u32::MAX] {
        for sizes in [(0, 0), (400, 100)] {
            assert_eq!(agreed(&mut random, &sample, k, sizes).answer, ((22, 0), 0, (0, 0)), "{k}");
        }
    }
    for k in 1..=LONGEST_SENTENCE {
        let (words, totals) = sample.listing(k);
        for (lent_words, lent_totals) in
            [(0, 0), (words - 1, totals), (words, totals - 1), (words + 5, totals - 1), (words - 1, totals + 5)]
        {
            assert_eq!(agreed(&mut random, &sample, k, (lent_words, lent_totals)).answer, ((15, 0), 0, (0, 0)));
        }
        assert_eq!(agreed(&mut random, &sample, k, (words + 5, totals + 5)).answer.0, ACCEPTED);
    }
    for usable in [MOST_USABLE, MOST_USABLE + 1] {
        let arrays = build(&with_usable(&mut random, 3, usable, 10));
        let number = agreed(&mut random, &arrays, 2, (512, 256)).number();
        assert_eq!(number, if usable > MOST_USABLE { 22 } else { 0 });
    }
}

/// Each check in turn with all those behind it.
#[test]
fn order_of_refusals() {
    listing::order_of_refusals(&mut Random::new(8), |random, arrays, k, sizes, number| {
        let expected = if number == 0 { (ACCEPTED, 30_000, (4, 6)) } else { ((number, 0), 0, (0, 0)) };
        assert_eq!(agreed(random, arrays, k, sizes).answer, expected, "k {k}, {sizes:?}");
    });
}

/// Broken markers, and the root without child 1, 2 or 3.
#[test]
fn damaged_sample() {
    let mut random = Random::new(9);
    let sample = built(&lists::sample(), 0);
    let mut met = [0; 23];
    for slot in 2..sample.slots() {
        for k in 1..=LONGEST_SENTENCE {
            let (mut broken, mut missing) = (sample.clone(), sample.clone());
            broken.base[slot] = 0;
            missing.check[slot] = i32::MIN;
            for arrays in [broken, missing] {
                met[whole(&mut random, &arrays, k).0 .0 as usize] += 1;
            }
        }
    }
    assert!(met[0] > 0 && met[12] > 0, "{met:?}");
}

/// Every single number of a small array changed to each of several values.
#[test]
fn changed_arrays() {
    listing::changed_arrays(&mut Random::new(10), 20, |random, arrays, k, sizes| agreed(random, arrays, k, sizes).number());
}

/// Arrays that no build wrote, and k and lengths of any kind.
#[test]
fn drawn_arrays() {
    let mut pairs = 0;
    listing::drawn_arrays(&mut Random::new(11), &[0, 3, 5, u32::MAX], |random, arrays, k, sizes| {
        let outcome = agreed(random, arrays, k, sizes);
        pairs += (outcome.answer.1 > 0) as usize;
        outcome.number()
    });
    assert!(pairs > 50, "{pairs} moves");
}
