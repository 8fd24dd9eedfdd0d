//! `backoff_sentences` against the second implementation over any arrays, against a batch, plain scoring and runs of the library, and against the back-off rule.

mod listing;

use listing::{build, called, rubbish};
use tests::arrays::{built, spread, Arrays};
use tests::lists::{self, table, with_usable};
use tests::random::Random;
use tests::reference::list::{Row, ACCEPTED, LARGEST_WORD, LOWEST_P};
use tests::reference::rule::Rule;
use tests::reference::sentences::{sentences, sentences_of, Answer, LONGEST_SENTENCE, MOST_USABLE};

/// What a listing leaves behind.
type Outcome = listing::Outcome<Answer>;

impl Outcome {
    fn number(&self) -> u32 {
        self.answer.0 .0
    }
}

fn answer_of(listing: backoff::Listing) -> Answer {
    ((listing.number, listing.place), listing.sentences)
}

/// What the call and the second implementation agree on, with slices to be written that have these lengths and held random numbers.
fn agreed(random: &mut Random, arrays: &Arrays, k: u32, sizes: (usize, usize)) -> Outcome {
    let (mut words, mut totals) = rubbish(random, sizes);
    let ours = called(arrays, &words, &totals, |base, check, words, totals| answer_of(backoff::sentences(base, check, k, words, totals)));
    if [11, 15, 22].contains(&ours.number()) {
        assert!(ours.words == words && ours.totals == totals, "written before {}", ours.number());
    }
    let answer = sentences(&arrays.base, &arrays.check, k, &mut words, &mut totals);
    let second = Outcome { answer, words, totals };
    assert!(ours == second, "{}", differing(arrays, k, &ours, &second));
    ours
}

fn differing(arrays: &Arrays, k: u32, ours: &Outcome, second: &Outcome) -> String {
    if arrays.slots() > 100 || ours.words.len() > 100 {
        return format!("k {k}: {:?}, by the second implementation {:?}", ours.answer, second.answer);
    }
    format!("k {k}, {arrays:?}: {ours:?}, by the second implementation {second:?}")
}

/// A listing into slices that it just fills.
fn whole(random: &mut Random, arrays: &Arrays, k: u32) -> Outcome {
    agreed(random, arrays, k, arrays.listing(k))
}

/// The marks alone: word 1 is the one that is usable.
fn marks() -> Vec<Row> {
    lists::first_words(3)
}

/// Takes the root's child for a word away.
fn without(arrays: &Arrays, word: usize) -> Arrays {
    let mut changed = arrays.clone();
    changed.check[1 + word] = 7;
    changed
}

/// The sentences of one and of two words over the sample, totals by hand: those of the totals program and of K1 among them.
#[test]
fn the_sample() {
    let mut random = Random::new(1);
    let sample = build(&lists::sample());
    let one = whole(&mut random, &sample, 1);
    assert_eq!((one.answer, &one.words[..], &one.totals[..]), ((ACCEPTED, 3), &[1, 4, 5][..], &[-33_000, -16_500, -13_500][..]));
    let two = whole(&mut random, &sample, 2);
    assert_eq!(two.words, [1, 1, 1, 4, 1, 5, 4, 1, 4, 4, 4, 5, 5, 1, 5, 4, 5, 5]);
    assert_eq!(two.totals, [-53_000, -41_000, -33_500, -36_500, -24_500, -6_500, -43_000, -31_000, -23_500]);
    for (k, count) in [(3, 27), (4, 81)] {
        assert_eq!(whole(&mut random, &sample, k).answer, (ACCEPTED, count));
    }
}

/// One usable word makes one sentence, none makes none. Then nothing is walked: neither a start that would be refused nor slices of no items matter.
#[test]
fn fewest_words() {
    let mut random = Random::new(2);
    let marks = build(&marks());
    let mut none = without(&marks, 1);
    for k in 1..=LONGEST_SENTENCE {
        let outcome = whole(&mut random, &marks, k);
        assert_eq!((outcome.answer, outcome.words), ((ACCEPTED, 1), vec![1; k as usize]));
        // −1 for each word, −3 for the closing 3.
        assert_eq!(outcome.totals, [-i64::from(k) - 3]);
        for sizes in [(0, 0), (3, 2)] {
            assert_eq!(agreed(&mut random, &none, k, sizes).answer, (ACCEPTED, 0));
        }
    }
    none.base[3] = 0;
    assert_eq!(backoff::start(&none.base, &none.check, &mut [0; 9]).number, 12);
    for k in 1..=LONGEST_SENTENCE {
        assert_eq!(agreed(&mut random, &none, k, (0, 0)).answer, (ACCEPTED, 0));
    }
    // Without 2 and 3 too, and with a word outside 1..65,535 in their place.
    none.check[3] = 7;
    none.check[4] = 7;
    none.plant(0, LARGEST_WORD as usize + 1);
    assert_eq!(agreed(&mut random, &none, 2, (4, 4)).answer, (ACCEPTED, 0));
}

/// 16 usable words are listed, 17 give 22 for every k; 2 and 3 do not count. The one-word rows have gaps, up to word 65,535.
#[test]
fn most_words() {
    let mut random = Random::new(3);
    for i in 0..40 {
        let (order, k) = (1 + i % 5, 1 + i as u32 % 3);
        for usable in [2, MOST_USABLE - 1, MOST_USABLE, MOST_USABLE + 1, 40] {
            let rows = with_usable(&mut random, order, usable, 20);
            assert_eq!(rows.iter().filter(|row| row.words.len() == 1).count(), usable + 2);
            let arrays = build(&rows);
            let outcome = if usable > MOST_USABLE { agreed(&mut random, &arrays, k, (9, 9)) } else { whole(&mut random, &arrays, k) };
            let count = if usable > MOST_USABLE { ((22, 0), 0) } else { (ACCEPTED, (usable as u32).pow(k)) };
            assert_eq!(outcome.answer, count, "{usable} words, k {k}");
        }
    }
    let last = Row { words: vec![LARGEST_WORD], p: -5, b: 0 };
    let arrays = build(&[marks(), vec![last]].concat());
    assert_eq!(whole(&mut random, &arrays, 1).words, [1, LARGEST_WORD as u32]);
}

/// The longest listing: 65,536 sentences of four of 16 words.
#[test]
fn longest_listings() {
    let mut random = Random::new(4);
    for order in [1, 3, 5] {
        let rows = with_usable(&mut random, order, MOST_USABLE, 400);
        let arrays = if order == 3 { spread(&mut random, &rows) } else { build(&rows) };
        let outcome = whole(&mut random, &arrays, 4);
        assert_eq!(outcome.answer, (ACCEPTED, 65_536));
        see_ascending(&outcome, 4);
    }
}

/// "In ascending order, the first word weighing most, each once."
fn see_ascending(outcome: &Outcome, k: usize) {
    let count = outcome.answer.1 as usize;
    let listed: Vec<&[u32]> = outcome.words[..k * count].chunks(k).collect();
    assert!(listed.windows(2).all(|pair| pair[0] < pair[1]), "sentences ascend");
}

/// 22 for every k but 1 to 4, whatever the slices are.
#[test]
fn lengths_of_sentences() {
    let mut random = Random::new(5);
    let arrays = [build(&lists::sample()), without(&build(&marks()), 1), build(&with_usable(&mut random, 2, 17, 5))];
    let others = [0, 5, 6, 8, 16, 32, 64, 255, 256, 257, 65_537, 1 << 31, (1 << 31) + 1, u32::MAX - 3, u32::MAX - 1, u32::MAX];
    for k in others {
        for arrays in &arrays {
            for sizes in [(0, 0), (400, 100)] {
                assert_eq!(agreed(&mut random, arrays, k, sizes).answer, ((22, 0), 0), "{k}");
            }
        }
    }
}

/// 15 exactly where a slice is too short; a longer one is untouched past the listing.
#[test]
fn output_lengths() {
    let mut random = Random::new(6);
    let sample = built(&lists::sample(), 0);
    for k in 1..=LONGEST_SENTENCE {
        let (words, totals) = sample.listing(k);
        for lent_words in [0, 1, words - 1, words, words + 1, words + 9] {
            for lent_totals in [0, 1, totals - 1, totals, totals + 1, totals + 9] {
                let number = agreed(&mut random, &sample, k, (lent_words, lent_totals)).number();
                assert_eq!(number, if lent_words < words || lent_totals < totals { 15 } else { 0 }, "k {k}: {lent_words} {lent_totals}");
            }
        }
    }
}

/// Each check in turn with all those behind it.
#[test]
fn order_of_refusals() {
    listing::order_of_refusals(&mut Random::new(7), |random, arrays, k, sizes, number| {
        let expected = if number == 0 { (ACCEPTED, 9) } else { ((number, 0), 0) };
        assert_eq!(agreed(random, arrays, k, sizes).answer, expected, "k {k}, {sizes:?}");
    });
}

/// Ways to break a node: a d that is none, and a p out of range, in its marker or in the slot of a longest row.
const BREAKS: [fn(&mut Arrays, usize); 2] = [
    |arrays, slot| arrays.base[slot] = 0,
    |arrays, slot| match usize::try_from(arrays.base[slot]) {
        Ok(marker) => arrays.check[marker] = LOWEST_P - 2,
        Err(_) => arrays.base[slot] = LOWEST_P - 2,
    },
];

/// 12 where some sentence meets a broken node, be it at its start, at a word or at its closing 3: the listing's items are 0, those past it as they were.
#[test]
fn broken_nodes() {
    let mut random = Random::new(8);
    let sample = built(&lists::sample(), 0);
    // The nodes of 1 to 5, of 2 4, of 5 3, of 4 5 and of 2 4 5; the last two are not reached by sentences of one word.
    for (slot, reached_by) in [(2, 1), (3, 1), (4, 1), (5, 1), (6, 1), (12, 1), (14, 1), (15, 2), (19, 2)] {
        for (k, break_node) in (1..=LONGEST_SENTENCE).flat_map(|k| BREAKS.map(|break_node| (k, break_node))) {
            let mut broken = sample.clone();
            break_node(&mut broken, slot);
            let (words, totals) = broken.listing(k);
            let outcome = agreed(&mut random, &broken, k, (words + 3, totals + 2));
            assert_eq!(outcome.number(), if k < reached_by { 0 } else { 12 }, "slot {slot}, k {k}");
            let zeros = outcome.words[..words].iter().all(|&word| word == 0) && outcome.totals[..totals].iter().all(|&total| total == 0);
            assert_eq!(zeros, k >= reached_by);
        }
    }
}

/// The root without child 1, 2 or 3, in every combination: where 2 or 3 is missing it is replaced by 1, and without 1 that gives 12; 1 is then not usable.
#[test]
fn missing_marks() {
    let mut random = Random::new(9);
    let sample = built(&lists::sample(), 0);
    for missing in 0..1 << 3 {
        let mut arrays = sample.clone();
        for word in (1..=3).filter(|word| missing >> (word - 1) & 1 == 1) {
            arrays = without(&arrays, word);
        }
        let (without_1, without_others) = (missing & 1 == 1, missing & 6 != 0);
        for k in 1..=LONGEST_SENTENCE {
            let outcome = whole(&mut random, &arrays, k);
            assert_eq!(outcome.number(), if without_1 && without_others { 12 } else { 0 }, "{missing:03b}, k {k}");
            assert_eq!(outcome.totals.len(), if without_1 { 2usize } else { 3 }.pow(k));
        }
    }
}

/// Any other head gives 11, and so do slices of different lengths.
#[test]
fn heads() {
    let mut random = Random::new(10);
    let sample = built(&lists::sample(), 0);
    for head in [3, 11, 43, 16, 22, 0, -1, i32::MIN, i32::MAX] {
        let mut arrays = sample.clone();
        arrays.check[0] = head;
        assert_eq!(agreed(&mut random, &arrays, 2, (20, 20)).number(), 11, "{head}");
    }
    let mut arrays = sample.clone();
    arrays.base.push(0);
    assert_eq!(agreed(&mut random, &arrays, 2, (20, 20)).number(), 11);
    assert_eq!(agreed(&mut random, &Arrays { base: vec![], check: vec![] }, 2, (20, 20)).number(), 11);
}

/// Random lists, beside the rule over the plain list, and beside batch, plain scoring and runs of the library.
#[test]
fn random_listings() {
    let mut random = Random::new(11);
    for i in 0..1_500 {
        let (order, k) = (1 + i % 5, 1 + random.below(4) as u32);
        let (usable, sentences) = (1 + random.below([16, 16, 9, 6][k as usize - 1]), random.below(12));
        let rows = with_usable(&mut random, order, usable, sentences);
        let arrays = if i % 3 == 0 { spread(&mut random, &rows) } else { build(&rows) };
        let (words, totals) = arrays.listing(k);
        let sizes = (words + random.below(3), totals + random.below(3));
        let outcome = agreed(&mut random, &arrays, k, sizes);
        assert_eq!(outcome.answer, (ACCEPTED, totals as u32), "over a list's array nothing is broken");
        see_ascending(&outcome, k as usize);
        see_rule(&rows, &outcome, k as usize);
        see_batch(&arrays, &outcome, k as usize);
        if i % 10 == 0 {
            see_calls(&rows, &arrays, &outcome, k as usize);
        }
    }
}

/// The words are all sequences of the list's words, and each total is the rule's.
fn see_rule(rows: &[Row], outcome: &Outcome, k: usize) {
    let rule = Rule::new(rows);
    let ones = rows.iter().filter(|row| row.words.len() == 1).map(|row| row.words[0] as u32);
    let usable: Vec<u32> = ones.filter(|word| ![2, 3].contains(word)).collect();
    for (i, sentence) in sentences_of(k, &usable).iter().enumerate() {
        assert_eq!(outcome.words[k * i..k * (i + 1)], sentence[..]);
        let (mut preceding, mut total) = (vec![2], 0);
        for &word in sentence.iter().chain(&[3]) {
            total += i64::from(rule.score(&preceding, word).points);
            preceding.push(word);
        }
        assert_eq!(outcome.totals[i], total, "{sentence:?}");
    }
}

/// A batch of all listed sentences has the totals' sum, and a batch of one of them its total.
fn see_batch(arrays: &Arrays, outcome: &Outcome, k: usize) {
    let count = outcome.answer.1 as usize;
    let Arrays { base, check } = arrays;
    let (mut points, mut lengths) = (vec![0; k * count], vec![0; k * count]);
    let ends: Vec<u32> = (1..=count).map(|i| (k * i) as u32).collect();
    let words = &outcome.words[..k * count];
    let sheet = backoff::batch(base, check, words, &ends, &mut points, &mut lengths);
    assert_eq!((sheet.number, sheet.total), (0, outcome.totals[..count].iter().sum()));
    for (sentence, &total) in words.chunks(k).zip(&outcome.totals) {
        assert_eq!(backoff::batch(base, check, sentence, &[k as u32], &mut points, &mut lengths).total, total);
    }
}

/// Each sentence with its 3 by start and a run, and by plain scoring.
fn see_calls(rows: &[Row], arrays: &Arrays, outcome: &Outcome, k: usize) {
    let table = table(rows);
    for (sentence, &total) in outcome.words.chunks_exact(k).zip(&outcome.totals).take(outcome.answer.1 as usize) {
        let words = [sentence, &[3]].concat();
        let (mut state, mut points, mut lengths) = ([0; 9], [0; 5], [0; 5]);
        assert_eq!(backoff::start(&arrays.base, &arrays.check, &mut state).number, 0);
        assert_eq!(backoff::run(&arrays.base, &arrays.check, &mut state, &words, &mut points, &mut lengths).total, total);
        assert_eq!(backoff::plain(&table, true, &words, &mut points, &mut lengths).total, total);
    }
}

/// Lists with more words than may be listed, as other tests have them.
#[test]
fn any_lists() {
    let mut random = Random::new(12);
    let mut met = [0; 23];
    for i in 0..500 {
        let arrays = build(&lists::small_or_dense(&mut random, 1 + i % 5));
        let k = if arrays.usable() > 9 { 1 + random.below(2) } else { 1 + random.below(4) } as u32;
        let sizes = if arrays.usable() > MOST_USABLE { (5, 5) } else { arrays.listing(k) };
        met[agreed(&mut random, &arrays, k, sizes).number() as usize] += 1;
    }
    assert!(met[0] > 0 && met[22] > 0, "{met:?}");
}

/// Every single number of a small array changed to each of several values.
#[test]
fn changed_arrays() {
    listing::changed_arrays(&mut Random::new(13), 30, |random, arrays, k, sizes| agreed(random, arrays, k, sizes).number());
}

/// Arrays that no build wrote, and k and lengths of any kind.
#[test]
fn drawn_arrays() {
    listing::drawn_arrays(&mut Random::new(14), &[0, 3, 4, 5, u32::MAX], |random, arrays, k, sizes| {
        agreed(random, arrays, k, sizes).number()
    });
}
