//! `backoff_score_fragment` and `backoff_join_fragments` against the second implementation over any arrays and for any fragments, against runs of the library, and
//! against each other: however words are bracketed, the fragment is the same.

use tests::arrays::{built, drawn, each_change, spread, Arrays};
use tests::guard::Guarded;
use tests::lists::{self, ended_text, table, text};
use tests::random::Random;
use tests::reference::fragments::{join_fragments, score_fragment, Answer, Fragment};
use tests::reference::list::{Row, ACCEPTED, LARGEST_B, LARGEST_WORD, MOST_ROWS};
use tests::reference::rule::LONGEST_RUN;

fn fragment_of(fragment: backoff::Fragment) -> Fragment {
    let backoff::Fragment { total, count, kept, first, state } = fragment;
    Fragment { total, count, kept, first, state }
}

fn lent(fragment: Fragment) -> backoff::Fragment {
    let Fragment { total, count, kept, first, state } = fragment;
    backoff::Fragment { total, count, kept, first, state }
}

fn answer_of(joined: backoff::Joined) -> Answer {
    ((joined.number, joined.place), fragment_of(joined.fragment))
}

/// What the call and the second implementation agree on.
fn agreed_score(arrays: &Arrays, words: &[u32]) -> Answer {
    let (mut base, mut check, mut lent_words) = (Guarded::new(&arrays.base), Guarded::new(&arrays.check), Guarded::new(words));
    let answer = answer_of(backoff::score_fragment(base.lend(), check.lend(), lent_words.lend()));
    let kept = base.back() == arrays.base && check.back() == arrays.check && lent_words.back() == words;
    assert!(kept, "a slice lent for reading was written");
    let second = score_fragment(&arrays.base, &arrays.check, words);
    assert!(answer == second, "{answer:?}, by the second implementation {second:?}: {}", shown(arrays, words));
    answer
}

/// The same of a join.
fn agreed_join(arrays: &Arrays, one: Fragment, two: Fragment) -> Answer {
    let (mut base, mut check) = (Guarded::new(&arrays.base), Guarded::new(&arrays.check));
    let answer = answer_of(backoff::join_fragments(base.lend(), check.lend(), lent(one), lent(two)));
    assert!(base.back() == arrays.base && check.back() == arrays.check, "a slice lent for reading was written");
    let second = join_fragments(&arrays.base, &arrays.check, one, two);
    assert!(answer == second, "{answer:?}, by the second implementation {second:?}: {one:?} {two:?} {}", shown(arrays, &[]));
    if answer.0 != ACCEPTED {
        assert_eq!(answer.1, Fragment::default(), "a refused join is the empty fragment");
    }
    answer
}

fn shown(arrays: &Arrays, words: &[u32]) -> String {
    let words = if words.len() > 50 { &[] } else { words };
    if arrays.slots() > 100 {
        format!("{words:?}")
    } else {
        format!("{words:?} {arrays:?}")
    }
}

fn accepted(answer: Answer) -> Fragment {
    assert_eq!(answer.0, ACCEPTED);
    answer.1
}

/// The array that the call under test builds.
fn build(rows: &[Row]) -> Arrays {
    let mut arrays = built(rows, 0);
    let mut work = vec![0; rows.len()];
    assert_eq!(backoff::build(&table(rows), &mut arrays.base, &mut arrays.check, &mut work).number, 0);
    arrays
}

/// The empty fragment with start's state.
fn begin(arrays: &Arrays) -> Fragment {
    let mut fragment = Fragment::default();
    assert_eq!(backoff::start(&arrays.base, &arrays.check, &mut fragment.state).number, 0);
    fragment
}

/// Fragments of the sample, by hand: points without left context, the first two words, and the state after them.
#[test]
fn the_sample() {
    let sample = build(&lists::sample());
    let after_5 = [1, 5, 0, 0, 0, -1_000, 0, 0, 0];
    let after_start = [1, 2, 0, 0, 0, -3_000, 0, 0, 0];
    let cases = [
        (&[][..], Fragment::default()),
        (&[4], Fragment { total: -6_000, count: 1, kept: 1, first: [4, 0, 0, 0], state: [1, 4, 0, 0, 0, -2_000, 0, 0, 0] }),
        (&[4, 5], Fragment { total: -9_000, count: 2, kept: 2, first: [4, 5, 0, 0], state: after_5 }),
        (&[9], Fragment { total: -20_000, count: 1, kept: 1, first: [9, 0, 0, 0], state: [0; 9] }),
        (&[5, 3], Fragment { total: -10_500, count: 2, kept: 2, first: [5, 3, 0, 0], state: after_start }),
        (&[4, 5, 3], Fragment { total: -10_500, count: 3, kept: 2, first: [4, 5, 0, 0], state: after_start }),
        (&[3, 4, 5], Fragment { total: -15_000, count: 3, kept: 2, first: [3, 4, 0, 0], state: after_5 }),
    ];
    for (words, expected) in cases {
        assert_eq!(accepted(agreed_score(&sample, words)), expected, "{words:?}");
    }
    // 5 after 4 is −3,000 instead of −9,000, and 3 after 5 has −1,500 both times: −6,000 − 10,500 + 6,000.
    let (four, rest) = (accepted(agreed_score(&sample, &[4])), accepted(agreed_score(&sample, &[5, 3])));
    assert_eq!(accepted(agreed_join(&sample, four, rest)), cases[5].1);
    // K1: after start's state −4,000 − 1,000 − 1,500.
    let whole = accepted(agreed_join(&sample, begin(&sample), cases[5].1));
    assert_eq!((whole.total, whole.state), (-6_500, after_start));
}

/// Kept words are as they were given: unlisted ones are not replaced, so that a 3 without a row still ends the sentence in a join.
#[test]
fn kept_as_given() {
    let mut arrays = built(&lists::sample(), 0);
    let words = [70_000, u32::MAX, 4];
    assert_eq!(accepted(agreed_score(&arrays, &words)).first, [70_000, u32::MAX, 0, 0]);
    arrays.check[4] = 7;
    let (one, two) = (accepted(agreed_score(&arrays, &[4])), accepted(agreed_score(&arrays, &[3])));
    assert_eq!(accepted(agreed_join(&arrays, one, two)).state, [1, 2, 0, 0, 0, -3_000, 0, 0, 0]);
}

/// A fragment is a run from nine zeros, refused as that is; the place of 12 is the word.
#[test]
fn a_fragment_is_a_run() {
    let mut random = Random::new(1);
    let mut met = [0; 22];
    for _ in 0..20_000 {
        let arrays = drawn(&mut random);
        let count = random.below(6);
        let words: Vec<u32> = (0..count).map(|_| if random.chance(20) { 3 } else { random.below(30) as u32 }).collect();
        let ((number, place), fragment) = agreed_score(&arrays, &words);
        let (mut state, mut points, mut lengths) = ([0; 9], vec![0; count], vec![0; count]);
        let run = backoff::run(&arrays.base, &arrays.check, &mut state, &words, &mut points, &mut lengths);
        assert_eq!((number, place, fragment.total, fragment.state), (run.number, run.place, run.total, state));
        met[number as usize] += 1;
    }
    assert!(met[0] > 0 && met[12] > 0, "{met:?}");
    let sample = built(&lists::sample(), 0);
    assert_eq!(accepted(agreed_score(&sample, &vec![5; LONGEST_RUN])).total, -9_000 - 10_000 * 65_534);
    assert_eq!(agreed_score(&sample, &vec![5; LONGEST_RUN + 1]).0, (14, 0));
    let mut other = sample;
    other.check[0] = 3;
    assert_eq!(agreed_score(&other, &vec![5; LONGEST_RUN + 1]).0, (11, 0));
}

/// Over the array of a list: joining is scoring the joined words, after start's state it is the run, and what comes out passes 21 again.
#[test]
fn joining_is_scoring() {
    let mut random = Random::new(2);
    for i in 0..3_000 {
        let rows = lists::small_or_dense(&mut random, 1 + i % 5);
        let arrays = if i % 2 == 0 { build(&rows) } else { spread(&mut random, &rows) };
        let length = random.below(14);
        let words = if i % 3 == 0 { ended_text(&mut random, &rows, length, 3) } else { text(&mut random, &rows, length) };
        let (u, v) = words.split_at(random.below(length + 1));
        let (one, two) = (accepted(agreed_score(&arrays, u)), accepted(agreed_score(&arrays, v)));
        let whole = accepted(agreed_score(&arrays, &words));
        assert_eq!(accepted(agreed_join(&arrays, one, two)), whole, "{u:?} {v:?}");
        let first = begin(&arrays);
        let joined = accepted(agreed_join(&arrays, first, whole));
        let (mut state, mut points, mut lengths) = (first.state, vec![0; length], vec![0; length]);
        let run = backoff::run(&arrays.base, &arrays.check, &mut state, &words, &mut points, &mut lengths);
        assert_eq!((joined.total, joined.state, joined.count as usize), (run.total, state, length));
    }
}

/// The fragment of the words, bracketed at random.
fn bracketed(random: &mut Random, arrays: &Arrays, words: &[u32]) -> Fragment {
    if words.len() < 2 || random.chance(20) {
        return accepted(agreed_score(arrays, words));
    }
    let (u, v) = words.split_at(random.below(words.len() + 1));
    if u.is_empty() || v.is_empty() {
        // An empty neighbour on either side.
        let (one, two) = (accepted(agreed_score(arrays, u)), accepted(agreed_score(arrays, v)));
        return accepted(agreed_join(arrays, one, two));
    }
    let (one, two) = (bracketed(random, arrays, u), bracketed(random, arrays, v));
    accepted(agreed_join(arrays, one, two))
}

/// However a sentence is bracketed, the result is the same.
#[test]
fn any_bracketing() {
    let mut random = Random::new(3);
    for i in 0..1_000 {
        let rows = lists::small(&mut random, 1 + i % 5);
        let arrays = build(&rows);
        let words = ended_text(&mut random, &rows, 12, 2 + i % 9);
        let whole = accepted(agreed_score(&arrays, &words));
        for _ in 0..3 {
            assert_eq!(bracketed(&mut random, &arrays, &words), whole, "{words:?}");
        }
    }
}

/// The most words, in two fragments and in many; one more gives 14.
#[test]
fn longest_fragments() {
    let mut random = Random::new(4);
    let rows = lists::natural(&mut random, 5, 30_000, MOST_ROWS);
    let arrays = build(&rows);
    let words = text(&mut random, &rows, LONGEST_RUN);
    let whole = accepted(agreed_score(&arrays, &words));
    let mut parts = Fragment::default();
    for part in words.chunks(1_000) {
        let next = accepted(agreed_score(&arrays, part));
        parts = accepted(agreed_join(&arrays, parts, next));
    }
    assert_eq!(parts, whole);
    let one = accepted(agreed_score(&arrays, &[4]));
    assert_eq!((agreed_join(&arrays, whole, one).0, agreed_join(&arrays, one, whole).0), ((14, 0), (14, 0)));
    assert_eq!(accepted(agreed_join(&arrays, whole, Fragment::default())), whole);
}

/// A scoring that 14 refuses is the empty fragment, which joins without a refusal: two bracketings of 65,538 words then differ though no join is refused. So
/// "wherever no join in it is refused" needs that no scoring is refused either.
#[test]
fn a_refused_scoring_joins() {
    let sample = built(&lists::sample(), 0);
    let words = vec![5; LONGEST_RUN + 3];
    let fragments = |cut: usize| {
        let (u, v) = words.split_at(cut);
        (agreed_score(&sample, u), agreed_score(&sample, v))
    };
    let ((refused, one), (fits, two)) = fragments(LONGEST_RUN + 1);
    let ((refused_too, other), (fits_too, last)) = fragments(LONGEST_RUN + 2);
    assert_eq!((refused, fits, refused_too, fits_too), ((14, 0), ACCEPTED, (14, 0), ACCEPTED));
    let (two_words, one_word) = (accepted(agreed_join(&sample, one, two)), accepted(agreed_join(&sample, other, last)));
    assert_eq!((two_words.count, one_word.count), (2, 1));
}

/// A fragment that passes 21 over an array of an order.
fn own(random: &mut Random, order: i32) -> Fragment {
    let mut fragment = Fragment::default();
    fragment.count = match random.below(8) {
        0 => random.pick(&[65_534, 65_535, 65_536, 1 << 31, u32::MAX - 1, u32::MAX]),
        _ => random.below(7) as u32,
    };
    fragment.kept = fragment.count.min(order as u32 - 1);
    for i in 0..4 {
        let any = random.chance(20) || i >= fragment.kept as usize;
        fragment.first[i] = if any { random.bits() as u32 } else { random.below(12) as u32 };
    }
    let count = random.between(0, order - 1) as usize;
    fragment.state[0] = count as i32;
    for i in 0..count {
        fragment.state[1 + i] = if random.chance(80) { random.between(1, 12) } else { LARGEST_WORD };
        fragment.state[5 + i] =
            if random.chance(40) { random.pick(&[0, LARGEST_B, -LARGEST_B]) } else { random.between(-LARGEST_B, LARGEST_B) };
    }
    let bound = bound_of(fragment.count, order);
    fragment.total = match random.below(4) {
        0 => bound,
        1 => -bound,
        _ => random.bits() as i64 % (bound + 1),
    };
    fragment
}

fn bound_of(count: u32, order: i32) -> i64 {
    count as i64 * order as i64 * LARGEST_B as i64
}

/// Fragments of the caller's own making, with totals at their bound, counts up to 2^32 − 1, and rubbish where `first` is unused.
#[test]
fn own_fragments() {
    let mut random = Random::new(5);
    let mut met = [0; 22];
    for i in 0..5_000 {
        let order = 1 + i % 5;
        let rows = lists::small(&mut random, order);
        let arrays = if i % 2 == 0 { built(&rows, 0) } else { spread(&mut random, &rows) };
        let (one, two) = (own(&mut random, order as i32), own(&mut random, order as i32));
        let (refusal, joined) = agreed_join(&arrays, one, two);
        let expected = if one.count as u64 + two.count as u64 > LONGEST_RUN as u64 { (14, 0) } else { ACCEPTED };
        assert_eq!(refusal, expected);
        met[refusal.0 as usize] += 1;
        assert!(joined.first[joined.kept as usize..].iter().all(|&word| word == 0), "unused words are 0");
    }
    assert!(met[0] > 0 && met[14] > 0, "{met:?}");
}

/// A joined total may pass its own bound: it is returned, and the next join refuses it.
#[test]
fn a_total_past_the_bound() {
    let sample = built(&lists::sample(), 0);
    let state = [2, 5, 5, 0, 0, LARGEST_B, LARGEST_B, 0, 0];
    let one = Fragment { total: bound_of(1, 3), count: 1, kept: 1, first: [4, 0, 0, 0], state };
    let two = Fragment { total: bound_of(2, 3), count: 2, kept: 2, first: [4, 4, 0, 0], state: [0; 9] };
    let joined = accepted(agreed_join(&sample, one, two));
    // From nothing −6,000 − 8,000; after the state 2 × 99,000,000 − 6,000, then −2,000 − 6,000.
    assert_eq!(joined.total, bound_of(3, 3) + 2 * LARGEST_B as i64);
    assert_eq!(agreed_join(&sample, joined, two).0, (21, 1));
    assert_eq!(agreed_join(&sample, two, joined).0, (21, 2));
}

/// Each form of 21, in the first and in the second.
#[test]
fn bad_fragments() {
    let mut random = Random::new(6);
    for order in 1..=5usize {
        let arrays = built(&lists::small(&mut random, order), 0);
        let n = order as i32;
        for _ in 0..40 {
            let mut good = own(&mut random, n);
            (good.count, good.kept) = (good.count.min(5), good.count.min(5).min(order as u32 - 1));
            good.total = good.total.clamp(-bound_of(good.count, n), bound_of(good.count, n));
            let number = |fragment: Fragment| {
                let first = agreed_join(&arrays, fragment, Fragment::default()).0;
                assert_eq!(agreed_join(&arrays, Fragment::default(), fragment).0, (first.0, 2 * first.1));
                assert!(first == ACCEPTED || first == (21, 1), "{first:?}");
                first.0
            };
            assert_eq!(number(good), 0);
            // Kept words.
            for kept in [0, 1, 2, 3, 4, 5, 6, 1 << 31, u32::MAX] {
                assert_eq!(number(Fragment { kept, ..good }) == 0, kept == good.kept, "{kept} {good:?}");
            }
            // The total at its bound and one further.
            let bound = bound_of(good.count, n);
            for (total, fits) in [
                (bound, true),
                (-bound, true),
                (bound + 1, false),
                (-bound - 1, false),
                (i64::MIN, false),
                (i64::MIN + 1, false),
                (i64::MAX, false),
            ] {
                assert_eq!(number(Fragment { total, ..good }) == 0, fits, "{total} {good:?}");
            }
            // The state, as 16 has it.
            for field in 0..9 {
                for value in [-1, 0, 1, n, 5, LARGEST_WORD, LARGEST_WORD + 1, LARGEST_B, LARGEST_B + 1, -LARGEST_B - 1, i32::MIN, i32::MAX]
                {
                    let mut bad = good;
                    bad.state[field] = value;
                    let mut state = bad.state;
                    let run = backoff::run(&arrays.base, &arrays.check, &mut state, &[], &mut [], &mut []);
                    assert_eq!(number(bad), if run.number == 16 { 21 } else { 0 }, "{bad:?}");
                }
            }
        }
    }
}

/// The order of the refusals in every combination: 11, 21 of the first, 21 of the second, 14, 12.
#[test]
fn order_of_refusals() {
    let sample = built(&lists::sample(), 0);
    for faults in 0..1 << 9 {
        let has = |fault: usize| faults >> fault & 1 == 1;
        let mut arrays = sample.clone();
        let mut fragments = [Fragment { count: 2, kept: 2, first: [4, 9, 0, 0], ..Fragment::default() }; 2];
        if has(0) {
            arrays.check[0] = 3;
        }
        for (i, fragment) in fragments.iter_mut().enumerate() {
            if has(7) {
                fragment.count = 40_000;
            }
            if has(1 + 3 * i) {
                fragment.kept = 3;
            }
            if has(2 + 3 * i) {
                fragment.state[0] = 3;
            }
            if has(3 + 3 * i) {
                fragment.total = i64::MIN;
            }
        }
        if has(8) {
            // The node of word 1, with which the second's word 9 is scored.
            arrays.base[2] = 0;
        }
        let expected = match (0..9).find(|&fault| has(fault)) {
            None => ACCEPTED,
            Some(0) => (11, 0),
            Some(1..=3) => (21, 1),
            Some(4..=6) => (21, 2),
            Some(7) => (14, 0),
            Some(_) => (12, 0),
        };
        assert_eq!(agreed_join(&arrays, fragments[0], fragments[1]).0, expected, "{faults:09b}");
    }
}

/// A join without kept words in the second walks nothing, and one with them meets 12 by either scoring.
#[test]
fn broken_joins() {
    let sample = built(&lists::sample(), 0);
    let one = accepted(agreed_score(&sample, &[2, 4]));
    let two = accepted(agreed_score(&sample, &[5]));
    for (slot, refusal) in [(2, ACCEPTED), (6, (12, 0)), (15, (12, 0)), (19, (12, 0)), (12, ACCEPTED), (14, ACCEPTED)] {
        let mut broken = sample.clone();
        broken.base[slot] = 0;
        assert_eq!(agreed_join(&broken, one, two).0, refusal, "{slot}");
        assert_eq!(agreed_join(&broken, two, Fragment::default()), (ACCEPTED, two));
    }
}

/// Every single number of a small array changed to each of several values, and arrays that no build wrote.
#[test]
fn changed_and_drawn_arrays() {
    let mut random = Random::new(7);
    let mut met = [0; 22];
    for i in 0..20 {
        let order = 1 + i % 5;
        let rows = lists::tiny(&mut random, order);
        let texts: Vec<Vec<u32>> = (0..2).map(|k| ended_text(&mut random, &rows, 5, 2 + 4 * k)).collect();
        each_change(&built(&rows, 1), |changed| {
            texts.iter().for_each(|words| met[agreed_score(changed, words).0 .0 as usize] += 1);
            let (one, two) = (own(&mut random, order as i32), own(&mut random, order as i32));
            met[agreed_join(changed, one, two).0 .0 as usize] += 1;
        });
    }
    for _ in 0..50_000 {
        let arrays = drawn(&mut random);
        let order = arrays.order() + (random.below(10) == 0) as i32;
        let (one, two) = (own(&mut random, order.min(5)), own(&mut random, order.min(5)));
        met[agreed_join(&arrays, one, two).0 .0 as usize] += 1;
    }
    assert!([0, 11, 12, 14, 21].iter().all(|&number| met[number] > 0), "{met:?}");
}
