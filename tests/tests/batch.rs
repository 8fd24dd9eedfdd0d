//! `backoff_batch` against the second implementation over any arrays, against start and runs of the library, and against the back-off rule.

use tests::arrays::{built, drawn, each_change, spread, Arrays};
use tests::guard::Guarded;
use tests::lists::{self, ended_text, table, text};
use tests::random::Random;
use tests::reference::batch::{batch, Sheet};
use tests::reference::list::{Row, MOST_ROWS};
use tests::reference::rule::{Rule, LONGEST_RUN};

/// Words and ends to lend, and the lengths of the two slices to be written.
#[derive(Clone, Debug)]
struct Lent {
    words: Vec<u32>,
    ends: Vec<u32>,
    sizes: (usize, usize),
}

impl Lent {
    /// With slices to be written that are exactly long enough.
    fn new(words: &[u32], ends: &[u32]) -> Lent {
        let last = ends.last().map_or(0, |&end| end as usize);
        Lent { words: words.to_vec(), ends: ends.to_vec(), sizes: (last, last) }
    }

    /// The words of each sentence.
    fn sentences(&self) -> Vec<&[u32]> {
        let starts = [0].iter().chain(&self.ends);
        starts.zip(&self.ends).map(|(&from, &end)| &self.words[from as usize..end as usize]).collect()
    }
}

/// What a batch leaves behind.
#[derive(Clone, Debug, PartialEq, Eq)]
struct Outcome {
    sheet: Sheet,
    points: Vec<i32>,
    lengths: Vec<u8>,
}

fn sheet_of(sheet: backoff::Sheet) -> Sheet {
    let backoff::Sheet { number, sentences, place, total, words, unknown, matched } = sheet;
    Sheet { number, place, sentences, words, unknown, total, matched }
}

/// What the call and the second implementation agree on, with slices to be written that held random numbers.
fn agreed(random: &mut Random, arrays: &Arrays, lent: &Lent) -> Outcome {
    let mut points: Vec<i32> = (0..lent.sizes.0).map(|_| random.bits() as i32).collect();
    let mut lengths: Vec<u8> = (0..lent.sizes.1).map(|_| random.bits() as u8).collect();
    let (mut base, mut check) = (Guarded::new(&arrays.base), Guarded::new(&arrays.check));
    let (mut words, mut ends) = (Guarded::new(&lent.words), Guarded::new(&lent.ends));
    let (mut lent_points, mut lent_lengths) = (Guarded::new(&points), Guarded::new(&lengths));
    let answer = backoff::batch(base.lend(), check.lend(), words.lend(), ends.lend(), lent_points.lend(), lent_lengths.lend());
    let kept = base.back() == arrays.base && check.back() == arrays.check && words.back() == lent.words && ends.back() == lent.ends;
    assert!(kept, "a slice lent for reading was written");
    let ours = Outcome { sheet: sheet_of(answer), points: lent_points.back().to_vec(), lengths: lent_lengths.back().to_vec() };
    if [11, 14, 15, 20].contains(&ours.sheet.number) {
        assert!(ours.points == points && ours.lengths == lengths, "written before {}", ours.sheet.number);
    }
    let sheet = batch(&arrays.base, &arrays.check, &lent.words, &lent.ends, &mut points, &mut lengths);
    let second = Outcome { sheet, points, lengths };
    assert!(ours == second, "{}", differing(arrays, lent, &ours, &second));
    see_sums(&ours, lent);
    ours
}

fn differing(arrays: &Arrays, lent: &Lent, ours: &Outcome, second: &Outcome) -> String {
    if lent.words.len() > 50 || arrays.slots() > 100 {
        return format!("{:?}, by the second implementation {:?}", ours.sheet, second.sheet);
    }
    format!("{lent:?} {arrays:?}: {ours:?}, by the second implementation {second:?}")
}

/// "Those five counts add up to words plus sentences"; a refused sheet is all zeros.
fn see_sums(outcome: &Outcome, lent: &Lent) {
    let Sheet { number, place, sentences, words, unknown, matched, .. } = outcome.sheet;
    if number != 0 {
        assert_eq!(outcome.sheet, Sheet { number, place, ..Sheet::default() });
        return;
    }
    assert_eq!(matched.iter().sum::<u32>(), words + sentences);
    assert_eq!((place, sentences as usize, words), (0, lent.ends.len(), lent.ends.last().copied().unwrap_or(0)));
    let lengths = &outcome.lengths[..words as usize];
    assert_eq!(unknown as usize, lengths.iter().filter(|&byte| byte & 8 != 0).count());
}

/// The array that the call under test builds.
fn build(rows: &[Row]) -> Arrays {
    let mut arrays = built(rows, 0);
    let mut work = vec![0; rows.len()];
    assert_eq!(backoff::build(&table(rows), &mut arrays.base, &mut arrays.check, &mut work).number, 0);
    arrays
}

/// Ends for so many words, some of which may belong to no sentence; sentences of no words among them.
fn ends(random: &mut Random, words: usize, sentences: usize) -> Vec<u32> {
    let last = if random.chance(70) { words } else { random.below(words + 1) };
    let mut ends: Vec<u32> = (0..sentences).map(|_| random.below(last + 1) as u32).collect();
    ends.sort();
    if let Some(end) = ends.last_mut() {
        *end = last as u32;
    }
    ends
}

/// A sheet over a list, with room to spare in the slices to be written.
fn sheet(random: &mut Random, rows: &[Row]) -> Lent {
    let (words, sentences) = (random.below(20), random.below(7));
    let words = if random.chance(40) { ended_text(random, rows, words, 4) } else { text(random, rows, words) };
    let ends = ends(random, words.len(), sentences);
    let mut lent = Lent::new(&words, &ends);
    lent.sizes = (lent.sizes.0 + random.below(4), lent.sizes.1 + random.below(4));
    lent
}

/// The sentences of the totals program's sample: points of K1 to K4, total and counts by hand.
#[test]
fn the_sample() {
    let mut random = Random::new(1);
    let sample = build(&lists::sample());
    let outcome = agreed(&mut random, &sample, &Lent::new(&[4, 5, 5, 4, 9], &[2, 4, 5, 5]));
    assert_eq!(outcome.points, [-4_000, -1_000, -12_000, -7_000, -23_000]);
    assert_eq!(outcome.lengths, [2, 3, 17, 17, 9]);
    // −6,500 − 31,000 − 33,000 − 13,000; the closing 3s have the lengths 2, 1, 1, 1.
    let expected = Sheet { sentences: 4, words: 5, unknown: 1, total: -83_500, matched: [6, 2, 1, 0, 0], ..Sheet::default() };
    assert_eq!(outcome.sheet, expected);
    // A 3 within a sentence ends the context there, and counts as a word.
    let outcome = agreed(&mut random, &sample, &Lent::new(&[4, 5, 3, 4, 5], &[5]));
    let expected = Sheet { sentences: 1, words: 5, total: -13_000, matched: [0, 4, 2, 0, 0], ..Sheet::default() };
    assert_eq!(outcome.sheet, expected);
}

/// No sentence: zeros, and nothing is walked, so that a broken array is not met; words after the last end belong to no sentence.
#[test]
fn no_sentence() {
    let mut random = Random::new(2);
    let mut broken = built(&lists::sample(), 0);
    (2..7).for_each(|slot| broken.base[slot] = 0);
    for words in [&[][..], &[4, 5]] {
        let outcome = agreed(&mut random, &broken, &Lent { words: words.to_vec(), ends: vec![], sizes: (3, 3) });
        assert_eq!(outcome.sheet, Sheet::default());
    }
    // Sentences of no words are scored all the same: their closing 3s.
    let outcome = agreed(&mut random, &built(&lists::sample(), 0), &Lent::new(&[4, 5], &[0, 0]));
    let expected = Sheet { sentences: 2, total: -26_000, matched: [2, 0, 0, 0, 0], ..Sheet::default() };
    assert_eq!(outcome.sheet, expected);
    assert_eq!(agreed(&mut random, &broken, &Lent::new(&[4, 5], &[0, 0])).sheet.number, 12);
}

/// The sentence's number where an end falls or passes the words; the first such end decides.
#[test]
fn ends_out_of_order() {
    let mut random = Random::new(3);
    let sample = built(&lists::sample(), 0);
    let words = [4, 5, 9, 3];
    let cases: [(&[u32], u64); 12] = [
        (&[5], 1),
        (&[u32::MAX], 1),
        (&[1 << 31, 0], 1),
        (&[4, 5], 2),
        (&[4, 3], 2),
        (&[1, 0], 2),
        (&[2, 1, 9], 2),
        (&[2, 9, 1], 2),
        (&[0, 0, 4, 4, 3], 5),
        (&[0, 4, 4, 4, u32::MAX], 5),
        (&[4, 4, 4], 0),
        (&[0, 1, 4], 0),
    ];
    for (ends, place) in cases {
        let lent = Lent { words: words.to_vec(), ends: ends.to_vec(), sizes: (4, 4) };
        let sheet = agreed(&mut random, &sample, &lent).sheet;
        assert_eq!((sheet.number, sheet.place), if place == 0 { (0, 0) } else { (20, place) }, "{ends:?}");
    }
    assert_eq!(agreed(&mut random, &sample, &Lent { words: vec![], ends: vec![1], sizes: (1, 1) }).sheet.place, 1);
}

/// 12 bears the sentence's number, be it met by start, at a word or at the closing 3; all points and lengths up to the last end are 0, past it as they were.
#[test]
fn broken_sentences() {
    let mut random = Random::new(4);
    let sample = built(&lists::sample(), 0);
    let cases: [(usize, u64); 5] = [
        // The nodes of 1, 2, 3, 5 and of 2 4 5: the third sentence has the unknown word, every sentence the start and the 3.
        (2, 3),
        (3, 1),
        (4, 1),
        (6, 2),
        (19, 2),
    ];
    for (slot, place) in cases {
        let mut broken = sample.clone();
        broken.base[slot] = 0;
        let lent = Lent { words: vec![4, 4, 5, 9, 4], ends: vec![1, 3, 4], sizes: (7, 6) };
        let outcome = agreed(&mut random, &broken, &lent);
        assert_eq!((outcome.sheet.number, outcome.sheet.place), (12, place), "{slot}");
        assert!(outcome.points[..4] == [0; 4] && outcome.lengths[..4] == [0; 4]);
    }
    // Neither 2 nor 1: start is refused; a list whose third sentence alone has a word that is replaced.
    let mut without = sample.clone();
    without.check[2] = 7;
    assert_eq!(agreed(&mut random, &without, &Lent::new(&[4, 5, 9], &[1, 2, 3])).sheet.place, 3);
    without.check[3] = 7;
    assert_eq!(agreed(&mut random, &without, &Lent::new(&[4, 5, 9], &[1, 2, 3])).sheet.place, 1);
}

/// The closing 3 is neither a word nor an unknown word, also where the array has no child 3 and it is scored as 1.
#[test]
fn unlisted_3() {
    let mut random = Random::new(5);
    let mut arrays = built(&lists::sample(), 0);
    arrays.check[4] = 7;
    let sheet = agreed(&mut random, &arrays, &Lent::new(&[4, 3, 9], &[1, 2, 3])).sheet;
    assert_eq!((sheet.words, sheet.unknown, sheet.matched), (3, 2, [5, 1, 0, 0, 0]));
}

/// Each check in turn with all those behind it, in every combination: 11, 20, 14, 15, 12.
#[test]
fn order_of_refusals() {
    let mut random = Random::new(6);
    let sample = built(&lists::sample(), 0);
    for faults in 0..1 << 7 {
        let has = |fault: usize| faults >> fault & 1 == 1;
        let mut arrays = sample.clone();
        let words = if has(2) { LONGEST_RUN + 1 } else { 6 };
        let mut lent = Lent::new(&vec![4; words], &[1, 3, 5]);
        if has(0) {
            arrays.check[0] = 3;
        }
        if has(1) {
            lent.ends[1] = 0;
        }
        if has(3) {
            lent.ends.resize(LONGEST_RUN + 1, 5);
        }
        if has(4) {
            lent.sizes.0 = 4;
        }
        if has(5) {
            lent.sizes.1 = 4;
        }
        if has(6) {
            arrays.base[3] = 0;
        }
        let expected = match (0..7).find(|&fault| has(fault)) {
            None => (0, 0),
            Some(0) => (11, 0),
            Some(1) => (20, 2),
            Some(2) | Some(3) => (14, 0),
            Some(4) | Some(5) => (15, 0),
            Some(_) => (12, 1),
        };
        let sheet = agreed(&mut random, &arrays, &lent).sheet;
        assert_eq!((sheet.number, sheet.place), expected, "{faults:07b}");
    }
}

/// 20 looks at every end, also at the last of more than 65,535.
#[test]
fn ends_before_their_count() {
    let mut random = Random::new(7);
    let sample = built(&lists::sample(), 0);
    let mut ends = vec![2; LONGEST_RUN + 5];
    ends[LONGEST_RUN + 3] = 1;
    let lent = Lent { words: vec![4; 3], ends, sizes: (0, 0) };
    let sheet = agreed(&mut random, &sample, &lent).sheet;
    assert_eq!((sheet.number, sheet.place), (20, LONGEST_RUN as u64 + 4));
}

/// Points and lengths must reach the last end, not all words.
#[test]
fn output_lengths() {
    let mut random = Random::new(8);
    let sample = built(&lists::sample(), 0);
    for points in 0..7 {
        for lengths in 0..7 {
            let lent = Lent { words: vec![4, 5, 9, 4, 4], ends: vec![2, 3], sizes: (points, lengths) };
            let number = agreed(&mut random, &sample, &lent).sheet.number;
            assert_eq!(number, if points < 3 || lengths < 3 { 15 } else { 0 }, "{points} {lengths}");
        }
    }
}

/// Random sheets over random lists, beside start and runs of the library, and beside the rule.
#[test]
fn random_sheets() {
    let mut random = Random::new(9);
    for i in 0..2_000 {
        let rows = lists::small_or_dense(&mut random, 1 + i % 5);
        let arrays = if i % 2 == 0 { build(&rows) } else { spread(&mut random, &rows) };
        let lent = sheet(&mut random, &rows);
        let outcome = agreed(&mut random, &arrays, &lent);
        assert_eq!(outcome.sheet.number, 0, "over a list's array nothing is broken");
        see_runs(&arrays, &lent, &outcome);
        see_rule(&Rule::new(&rows), &lent, &outcome);
    }
}

/// "Each is scored from `<s>` and closed with a 3": start, a run over the words, and one of the word 3.
fn see_runs(arrays: &Arrays, lent: &Lent, outcome: &Outcome) {
    let (mut total, mut matched, mut from) = (0, [0; 5], 0);
    for words in lent.sentences() {
        let (mut state, mut points, mut lengths) = ([0; 9], vec![0; words.len()], vec![0; words.len()]);
        let (mut last_points, mut last_length) = ([0], [0]);
        assert_eq!(backoff::start(&arrays.base, &arrays.check, &mut state).number, 0);
        total += backoff::run(&arrays.base, &arrays.check, &mut state, words, &mut points, &mut lengths).total;
        total += backoff::run(&arrays.base, &arrays.check, &mut state, &[3], &mut last_points, &mut last_length).total;
        let to = from + words.len();
        assert!(outcome.points[from..to] == points && outcome.lengths[from..to] == lengths, "{words:?}");
        lengths.iter().chain(&last_length).for_each(|byte| matched[(byte & 7) as usize - 1] += 1);
        from = to;
    }
    assert_eq!((outcome.sheet.total, outcome.sheet.matched), (total, matched));
}

/// The same by the back-off rule over the plain list.
fn see_rule(rule: &Rule, lent: &Lent, outcome: &Outcome) {
    let (mut total, mut at) = (0, 0);
    for words in lent.sentences() {
        let mut preceding = vec![2];
        for &word in words {
            let scored = rule.score(&preceding, word);
            assert_eq!((outcome.points[at], outcome.lengths[at]), (scored.points, scored.length_byte()), "{word} after {preceding:?}");
            total += scored.points as i64;
            preceding.push(word);
            at += 1;
        }
        total += rule.score(&preceding, 3).points as i64;
    }
    assert_eq!(outcome.sheet.total, total);
}

/// The sheets of the parts of a sheet add up to the sheet, and the parts write what the whole writes.
#[test]
fn parts_add_up() {
    let mut random = Random::new(10);
    for i in 0..1_000 {
        let rows = lists::small(&mut random, 1 + i % 5);
        let arrays = build(&rows);
        let mut lent = sheet(&mut random, &rows);
        lent.sizes = Lent::new(&lent.words, &lent.ends).sizes;
        let whole = agreed(&mut random, &arrays, &lent);
        let (mut joined, mut points, mut lengths) = (Sheet::default(), vec![], vec![]);
        let (mut from, mut first) = (0, 0);
        while first < lent.ends.len() {
            let next = first + 1 + random.below(lent.ends.len() - first);
            let ends: Vec<u32> = lent.ends[first..next].iter().map(|end| end - from).collect();
            let to = lent.ends[next - 1];
            let part = agreed(&mut random, &arrays, &Lent::new(&lent.words[from as usize..to as usize], &ends));
            joined = joined.joined(part.sheet);
            points.extend(part.points);
            lengths.extend(part.lengths);
            (from, first) = (to, next);
        }
        assert_eq!(Outcome { sheet: joined, points, lengths }, whole);
    }
}

/// The most words and the most sentences.
#[test]
fn longest_sheets() {
    let mut random = Random::new(11);
    let rows = lists::natural(&mut random, 5, 30_000, MOST_ROWS);
    let arrays = build(&rows);
    let words = text(&mut random, &rows, LONGEST_RUN);
    let of = |length: usize| (1..=LONGEST_RUN / length).map(|i| (length * i) as u32).collect::<Vec<u32>>();
    for ends in [of(1), of(20), of(LONGEST_RUN), vec![0; LONGEST_RUN], vec![LONGEST_RUN as u32; LONGEST_RUN]] {
        let sheet = agreed(&mut random, &arrays, &Lent::new(&words, &ends)).sheet;
        assert_eq!((sheet.number, sheet.sentences as usize), (0, ends.len()));
    }
}

/// How often each number was met, and 12 at the first sentence and at a later one.
#[derive(Default, Debug)]
struct Met {
    numbers: [usize; 21],
    places: [usize; 2],
}

impl Met {
    fn add(&mut self, sheet: Sheet) {
        self.numbers[sheet.number as usize] += 1;
        if sheet.number == 12 {
            self.places[(sheet.place > 1) as usize] += 1;
        }
    }

    fn assert_all(&self, numbers: &[usize]) {
        assert!(numbers.iter().all(|&number| self.numbers[number] > 0) && self.places.iter().all(|&count| count > 0), "{self:?}");
    }
}

/// Every single number of a small array changed to each of several values.
#[test]
fn changed_arrays() {
    let mut random = Random::new(12);
    let mut met = Met::default();
    for i in 0..30 {
        let rows = lists::tiny(&mut random, 1 + i % 5);
        let sheets: Vec<Lent> = (0..3).map(|_| sheet(&mut random, &rows)).collect();
        each_change(&built(&rows, 1), |changed| sheets.iter().for_each(|lent| met.add(agreed(&mut random, changed, lent).sheet)));
    }
    met.assert_all(&[0, 11, 12]);
}

/// Arrays that no build wrote, and ends and lengths of any kind.
#[test]
fn drawn_arrays() {
    let mut random = Random::new(13);
    let mut met = Met::default();
    for _ in 0..50_000 {
        let arrays = drawn(&mut random);
        let count = random.below(8);
        let words: Vec<u32> = (0..count).map(|_| if random.chance(20) { 3 } else { random.below(30) as u32 }).collect();
        let sentences = random.below(5);
        let mut lent = Lent::new(&words, &ends(&mut random, count, sentences));
        if random.chance(20) && sentences > 0 {
            lent.ends[random.below(sentences)] = random.below(10) as u32;
        }
        lent.sizes = ((lent.sizes.0 + random.below(5)).saturating_sub(1), (lent.sizes.1 + random.below(5)).saturating_sub(1));
        met.add(agreed(&mut random, &arrays, &lent).sheet);
    }
    met.assert_all(&[0, 12, 15, 20]);
}
