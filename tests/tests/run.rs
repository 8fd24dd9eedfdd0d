//! `backoff_start` and `backoff_run` against the back-off rule over the plain list, and against the second scorer over any arrays.

use std::collections::HashMap;
use tests::arrays::{built, drawn, each_change, spread, Arrays};
use tests::guard::Guarded;
use tests::lists::{self, ended_text, table, text};
use tests::random::Random;
use tests::reference::list::{Refusal, Row, ACCEPTED, LARGEST_B, LARGEST_WORD, MOST_ROWS};
use tests::reference::rule::{Rule, LONGEST_RUN};
use tests::reference::score::{run, start, EMPTY};
use tests::states::own_state;

/// What a run leaves behind.
#[derive(Clone, Debug, PartialEq, Eq)]
struct Outcome {
    refusal: Refusal,
    total: i64,
    state: Vec<i32>,
    points: Vec<i32>,
    lengths: Vec<u8>,
}

/// Runs with the call, into outputs of random numbers, and gives what it leaves behind with the outputs as they were.
fn run_only(random: &mut Random, arrays: &Arrays, state: &[i32], words: &[u32], sizes: (usize, usize)) -> (Outcome, Vec<i32>, Vec<u8>) {
    let points: Vec<i32> = (0..sizes.0).map(|_| random.bits() as i32).collect();
    let lengths: Vec<u8> = (0..sizes.1).map(|_| random.bits() as u8).collect();
    let (mut base, mut check, mut lent_words) = (Guarded::new(&arrays.base), Guarded::new(&arrays.check), Guarded::new(words));
    let (mut lent_state, mut lent_points, mut lent_lengths) = (Guarded::new(state), Guarded::new(&points), Guarded::new(&lengths));
    let answer = backoff::run(base.lend(), check.lend(), lent_state.lend(), lent_words.lend(), lent_points.lend(), lent_lengths.lend());
    let kept = base.back() == arrays.base && check.back() == arrays.check && lent_words.back() == words;
    assert!(kept, "a slice lent for reading was written");
    let outcome = Outcome {
        refusal: (answer.number, answer.place),
        total: answer.total,
        state: lent_state.back().to_vec(),
        points: lent_points.back().to_vec(),
        lengths: lent_lengths.back().to_vec(),
    };
    (outcome, points, lengths)
}

/// What the call and the second scorer agree on.
fn agreed(random: &mut Random, arrays: &Arrays, state: &[i32], words: &[u32], sizes: (usize, usize)) -> Outcome {
    let (outcome, mut points, mut lengths) = run_only(random, arrays, state, words, sizes);
    let refusal = outcome.refusal;
    if refusal != ACCEPTED {
        assert!(outcome.state == state && outcome.total == 0, "a refused run returns 0 and the given state");
    }
    if [11, 14, 15, 16].contains(&refusal.0) {
        assert!(outcome.points == points && outcome.lengths == lengths, "written before {refusal:?}");
    }
    let mut state = state.to_vec();
    let (refusal, total) = run(&arrays.base, &arrays.check, &mut state, words, &mut points, &mut lengths);
    let second = Outcome { refusal, total, state, points, lengths };
    assert!(outcome == second, "{}", differing(arrays, words, &outcome, &second));
    outcome
}

fn differing(arrays: &Arrays, words: &[u32], ours: &Outcome, second: &Outcome) -> String {
    let shown = |arrays: &Arrays| if arrays.slots() > 100 { String::new() } else { format!("{arrays:?}") };
    if words.len() > 50 {
        return format!("{:?} {} by the second scorer {:?} {}", ours.refusal, ours.total, second.refusal, second.total);
    }
    format!("{words:?}: {ours:?}, by the second scorer {second:?} {}", shown(arrays))
}

/// The same with outputs exactly as long as the run.
fn agreed_exact(random: &mut Random, arrays: &Arrays, state: &[i32], words: &[u32]) -> Outcome {
    agreed(random, arrays, state, words, (words.len(), words.len()))
}

/// Start's answer and the state that it leaves where some other numbers were; both scorers agree on it.
fn agreed_start(arrays: &Arrays, state: &[i32]) -> (Refusal, Vec<i32>) {
    let (mut base, mut check, mut lent) = (Guarded::new(&arrays.base), Guarded::new(&arrays.check), Guarded::new(state));
    let status = backoff::start(base.lend(), check.lend(), lent.lend());
    assert!(base.back() == arrays.base && check.back() == arrays.check, "a slice lent for reading was written");
    let mut second = state.to_vec();
    let refusal = start(&arrays.base, &arrays.check, &mut second);
    assert_eq!(((status.number, status.place), lent.back()), (refusal, &second[..]));
    (refusal, second)
}

fn started(arrays: &Arrays) -> Vec<i32> {
    let (refusal, state) = agreed_start(arrays, &[-7; 9]);
    assert_eq!(refusal, ACCEPTED);
    state
}

/// The array that the call under test builds.
fn build(rows: &[Row]) -> Arrays {
    let mut arrays = built(rows, 0);
    arrays.base.fill(1);
    arrays.check.fill(1);
    let mut work = vec![0; rows.len()];
    assert_eq!(backoff::build(&table(rows), &mut arrays.base, &mut arrays.check, &mut work).number, 0);
    arrays
}

/// The state after `<s>` over the sample.
const AFTER_START: [i32; 9] = [1, 2, 0, 0, 0, -3_000, 0, 0, 0];

/// K1 to K5: points of runs from start on the sample, and the states that they leave. Rows 5 3, 2 4, 4 5 and 2 4 5 put a word in front of
/// 3, 4, 5 and 4 5: 16 in their bytes.
#[test]
fn k1_to_k5() {
    let mut random = Random::new(1);
    let sample = build(&lists::sample());
    let state = started(&sample);
    assert_eq!(state, AFTER_START);
    let cases: [(&[u32], &[i32], &[u8]); 4] = [
        (&[4, 5, 3], &[-4_000, -1_000, -1_500], &[2, 3, 2]),
        (&[5, 4, 3], &[-12_000, -7_000, -12_000], &[17, 17, 17]),
        (&[9, 3], &[-23_000, -10_000], &[9, 17]),
        (&[3], &[-13_000], &[17]),
    ];
    for (words, points, lengths) in cases {
        let outcome = agreed_exact(&mut random, &sample, &state, words);
        assert_eq!((&outcome.points[..], &outcome.lengths[..]), (points, lengths), "{words:?}");
        assert_eq!(outcome.total, points.iter().map(|&p| p as i64).sum());
    }
    let after = agreed_exact(&mut random, &sample, &state, &[4, 5]).state;
    assert_eq!(after, [1, 5, 0, 0, 0, -1_000, 0, 0, 0]);
    assert_eq!(agreed_exact(&mut random, &sample, &after, &[3]).state, AFTER_START);
    // Without context.
    let outcome = agreed_exact(&mut random, &sample, &EMPTY, &[4, 5, 3]);
    assert_eq!((&outcome.points[..], &outcome.lengths[..]), (&[-6_000, -3_000, -1_500][..], &[17, 18, 2][..]));
}

/// The texts of K1 to K4, without context and with other ends, so that each row of the sample is some word's matched row.
const TEXTS: [&[u32]; 5] = [&[4, 5, 3], &[5, 4, 3], &[9, 3], &[2, 4, 5], &[2, 2, 4, 5, 3]];

/// The slots of the markers of the sample's rows 1, 2, 3, 4, 5, 5 3, 2 4 and 4 5; row 2 4 5 has none.
const MARKERS: [usize; 8] = [7, 8, 9, 10, 11, 13, 16, 17];

/// Over an array that no build wrote, 16 is as the e of the marker says whose p was used, also where that row is word 1's; points and states stay. A row of n
/// words has no e, and no number in its BASE adds 16.
#[test]
fn extended_as_the_marker_says() {
    let mut random = Random::new(16);
    let sample = build(&lists::sample());
    for marker in MARKERS {
        let mut changed = sample.clone();
        changed.base[marker] ^= 2;
        let mut flipped = 0;
        for words in TEXTS {
            let (before, after) = (agreed_exact(&mut random, &sample, &EMPTY, words), agreed_exact(&mut random, &changed, &EMPTY, words));
            assert_eq!((&after.points, after.total, &after.state), (&before.points, before.total, &before.state), "{marker}");
            for (old, new) in before.lengths.iter().zip(&after.lengths) {
                assert!(new == old || *new == old ^ 16, "{old} {new}");
                flipped += (new != old) as usize;
            }
        }
        assert!(flipped > 0, "the marker in {marker} was used");
    }
    let mut changed = sample.clone();
    changed.base[7] = 2;
    for base in [-1, -2, -3, -1_001, -98_999_999] {
        changed.base[19] = base;
        let outcome = agreed_exact(&mut random, &changed, &EMPTY, &[2, 4, 5, 9]);
        assert_eq!((outcome.points[2], outcome.lengths), (base + 1, vec![1, 2, 3, 1 + 8 + 16]));
    }
}

/// BASE of a row of n words for each order: p − 1 from −99,000,001 to −1, and anything else, 0 and slots of the array too, gives 12 at its word. The state behind it
/// is that of the words after its first one, whatever stands there.
#[test]
fn p_in_the_longest_rows_own_slot() {
    let mut random = Random::new(24);
    for order in 1..=5 {
        let mut arrays = build(&lists::twos(order, -7));
        let (node, words) = (arrays.node(&vec![2; order]), vec![2; order]);
        let mut kept = EMPTY;
        kept[..order].fill(2);
        kept[0] = order as i32 - 1;
        for base in [i32::MIN, -99_000_002, -99_000_001, -99_000_000, -5, -1, 0, 1, 5, 7, i32::MAX] {
            arrays.base[node] = base;
            let outcome = agreed_exact(&mut random, &arrays, &EMPTY, &words);
            if (-99_000_001..=-1).contains(&base) {
                assert_eq!((outcome.refusal, outcome.points[order - 1], outcome.lengths[order - 1]), (ACCEPTED, base + 1, order as u8));
                assert_eq!(outcome.state, kept, "order {order}, BASE {base}");
            } else {
                assert_eq!(outcome.refusal, (12, order as u32), "order {order}, BASE {base}");
            }
        }
    }
}

/// A negative BASE at a depth below n gives 12 at every walk that comes there, a row of one word, start's 2 and a row within a walk; so does a marker that a row
/// of n words had, and kept.
#[test]
fn each_row_in_its_own_place() {
    let mut random = Random::new(25);
    let sample = build(&lists::sample());
    for base in [-1, -6_001, -99_000_001, -99_000_002, i32::MIN] {
        for (slot, place, start) in [(5, 2, ACCEPTED), (3, 1, (12, 0)), (12, 2, ACCEPTED), (15, 3, ACCEPTED)] {
            let mut changed = sample.clone();
            changed.base[slot] = base;
            assert_eq!(agreed_exact(&mut random, &changed, &EMPTY, &[2, 4, 5]).refusal, (12, place), "{slot} {base}");
            assert_eq!(agreed_start(&changed, &[1; 9]).0, start, "{slot} {base}");
        }
    }
    let mut marked = sample.clone();
    (marked.base[19], marked.base[18], marked.check[18]) = (18, 0, -1_001);
    assert_eq!(agreed_exact(&mut random, &marked, &EMPTY, &[4, 5]).refusal, ACCEPTED);
    assert_eq!(agreed_exact(&mut random, &marked, &EMPTY, &[2, 4, 5]).refusal, (12, 3));
}

/// n = 1: every row holds its p in its own slot; all states are empty, and word 1 answers for the others.
#[test]
fn one_word_rows_alone() {
    let mut random = Random::new(26);
    let mut arrays = build(&lists::first_words(5));
    assert_eq!(agreed_start(&arrays, &[9; 9]), (ACCEPTED, EMPTY.to_vec()));
    let outcome = agreed_exact(&mut random, &arrays, &EMPTY, &[5, 2, 9, 3, 4]);
    assert_eq!((&outcome.points[..], &outcome.lengths[..]), (&[-5, -2, -1, -3, -4][..], &[1, 1, 9, 1, 1][..]));
    assert_eq!(outcome.state, EMPTY);
    arrays.base[2] = 0;
    assert_eq!(agreed_exact(&mut random, &arrays, &EMPTY, &[5, 2, 9]).refusal, (12, 3));
    // Start's 2.
    arrays.base[3] = -99_000_002;
    assert_eq!(agreed_start(&arrays, &[9; 9]), ((12, 0), EMPTY.to_vec()));
}

/// A row is live if its b is not 0 or its f is 1; e plays no part. BASE 2 is b = 0, e = 1, f = 0.
#[test]
fn live_but_not_by_e() {
    let mut random = Random::new(17);
    let mut arrays = build(&lists::sample());
    for (packed, live) in [
        (0, false),
        (2, false),
        (1, true),
        (3, true),
        (4, true),
        (6, true),
        (-4, true),
        (-2, true),
        (-396_000_000, true),
        (396_000_002, true),
    ] {
        // The markers of rows 1 and 4 5; that of row 5 has b.
        (arrays.base[7], arrays.base[17]) = (packed, packed);
        let b = packed >> 2;
        let expected = if live { [1, 1, 0, 0, 0, b, 0, 0, 0] } else { EMPTY };
        assert_eq!(agreed_exact(&mut random, &arrays, &EMPTY, &[9]).state, expected, "{packed}");
        let expected = if live { [2, 5, 4, 0, 0, -1_000, b, 0, 0] } else { [1, 5, 0, 0, 0, -1_000, 0, 0, 0] };
        assert_eq!(agreed_exact(&mut random, &arrays, &EMPTY, &[4, 5]).state, expected, "{packed}");
        let mut after_start = arrays.clone();
        after_start.base[8] = packed;
        let expected = if live { [1, 2, 0, 0, 0, b, 0, 0, 0] } else { EMPTY };
        assert_eq!(agreed_start(&after_start, &[3; 9]), (ACCEPTED, expected.to_vec()), "{packed}");
        assert_eq!(agreed_exact(&mut random, &after_start, &EMPTY, &[4, 3]).state, expected, "{packed}");
    }
}

/// After a word given as 3 the history is `<s>` alone: the next sentence is scored as from start, whatever stood before. The 3 itself is scored
/// after its full history.
#[test]
fn sentence_ends() {
    let mut random = Random::new(20);
    let sample = build(&lists::sample());
    let cases: [(&[i32; 9], &[u32], &[i32], &[u8]); 6] = [
        (&AFTER_START, &[4, 5, 3, 4, 5, 3], &[-4_000, -1_000, -1_500, -4_000, -1_000, -1_500], &[2, 3, 2, 2, 3, 2]),
        (&EMPTY, &[4, 5, 3, 4, 5, 3], &[-6_000, -3_000, -1_500, -4_000, -1_000, -1_500], &[17, 18, 2, 2, 3, 2]),
        (&EMPTY, &[3, 3, 3], &[-10_000, -13_000, -13_000], &[17, 17, 17]),
        (&EMPTY, &[3, 9, 5], &[-10_000, -23_000, -9_000], &[17, 9, 17]),
        (&EMPTY, &[3, 2, 4], &[-10_000, -993_000, -4_000], &[17, 1, 2]),
        (&AFTER_START, &[4, 3, 5, 3], &[-4_000, -12_500, -12_000, -1_500], &[2, 17, 17, 2]),
    ];
    for (state, words, points, lengths) in cases {
        let outcome = agreed_exact(&mut random, &sample, state, words);
        assert_eq!((&outcome.points[..], &outcome.lengths[..]), (points, lengths), "{words:?}");
        assert_eq!(outcome.state == AFTER_START, words.ends_with(&[3]), "{words:?}");
    }
    // In two runs.
    let first = agreed_exact(&mut random, &sample, &EMPTY, &[5, 3]);
    assert_eq!(agreed_exact(&mut random, &sample, &first.state, &[4]).points, [-4_000]);
    // Order 1: the state is empty, as start's.
    let single = build(&lists::small(&mut random, 1));
    assert_eq!(agreed_exact(&mut random, &single, &EMPTY, &[1, 3]).state, EMPTY);
}

/// The word counts as it is given: 3 ends a sentence also where it is unlisted and scored as 1, a word that is scored as 1 does not, nor does a 3 in a
/// state of the caller's own making.
#[test]
fn given_as_3() {
    let mut random = Random::new(21);
    let mut rows = lists::sample();
    rows[0].b = -70;
    let mut arrays = built(&rows, 0);
    arrays.check[4] = 7;
    let outcome = agreed_exact(&mut random, &arrays, &EMPTY, &[3, 4, 9, 4]);
    assert_eq!((&outcome.points[..], &outcome.lengths[..]), (&[-20_000, -4_000, -22_500, -6_070][..], &[9, 2, 9, 17][..]));
    assert_eq!(agreed_exact(&mut random, &arrays, &EMPTY, &[4, 3]).state, AFTER_START);
    for word in [0, 9, 65_539, u32::MAX] {
        assert_eq!(agreed_exact(&mut random, &arrays, &EMPTY, &[word]).state, [1, 1, 0, 0, 0, -70, 0, 0, 0], "{word}");
    }
    for state in [[1, 3, 0, 0, 0, -5, 0, 0, 0], [2, 3, 3, 0, 0, -2, -3, 0, 0]] {
        assert_eq!(agreed_exact(&mut random, &arrays, &state, &[4]).points, [-6_005], "{state:?}");
    }
}

/// Where start gives 12, a run gives it at its first 3, the last word of the run too; words before it do not meet it.
#[test]
fn start_refuses_at_a_3() {
    let mut random = Random::new(22);
    let sample = built(&lists::sample(), 0);
    let changes: [fn(&mut Arrays); 4] = [
        |arrays| arrays.base[3] = 0,
        |arrays| arrays.base[8] = 4 * LARGEST_B + 4,
        |arrays| arrays.check[8] = 0,
        // Neither 2 nor 1.
        |arrays| (arrays.check[2], arrays.check[3]) = (7, 7),
    ];
    for change in changes {
        let mut broken = sample.clone();
        change(&mut broken);
        assert_eq!(agreed_start(&broken, &[5; 9]).0, (12, 0));
        assert_eq!(agreed_exact(&mut random, &broken, &EMPTY, &[4, 5, 4]).refusal, ACCEPTED);
        for (words, place) in [(&[3][..], 1), (&[4, 3], 2), (&[4, 5, 3, 4, 3], 3), (&[3, 3], 1)] {
            let outcome = agreed(&mut random, &broken, &EMPTY, words, (6, 7));
            assert_eq!(outcome.refusal, (12, place), "{words:?}");
            assert!(outcome.points[..words.len()].iter().all(|&p| p == 0) && outcome.lengths[..words.len()].iter().all(|&byte| byte == 0));
        }
        // A 3 of the state is not met.
        assert_eq!(agreed_exact(&mut random, &broken, &[1, 3, 0, 0, 0, 0, 0, 0, 0], &[4]).refusal, ACCEPTED);
    }
    // Start's walk goes on with 1 where 2 is no child.
    let mut replaced = sample.clone();
    replaced.check[3] = 7;
    replaced.base[7] = -280;
    assert_eq!(agreed_exact(&mut random, &replaced, &EMPTY, &[4, 3]).state, [1, 1, 0, 0, 0, -70, 0, 0, 0]);
}

/// One run over many sentences gives what a run from start gives for each of them, over any array.
#[test]
fn sentences_apart() {
    let mut random = Random::new(23);
    for i in 0..2_000 {
        let rows = lists::small(&mut random, 1 + i % 5);
        let arrays = if i % 2 == 0 { build(&rows) } else { spread(&mut random, &rows) };
        let words = ended_text(&mut random, &rows, 20, 1 + i % 7);
        let begin = started(&arrays);
        let whole = agreed_exact(&mut random, &arrays, &begin, &words);
        let (mut points, mut lengths, mut total) = (vec![], vec![], 0);
        for sentence in words.split_inclusive(|&word| word == 3) {
            let part = agreed_exact(&mut random, &arrays, &begin, sentence);
            points.extend(&part.points);
            lengths.extend(&part.lengths);
            total += part.total;
        }
        assert_eq!((whole.points, whole.lengths, whole.total), (points, lengths, total), "{words:?}");
    }
}

/// 4 × b + 2 × e + f at the ends of b's range and of 32 bits: out of range gives 12 at the word.
#[test]
fn packed_limits() {
    let mut random = Random::new(18);
    let mut arrays = build(&lists::sample());
    for (packed, sound) in [
        (-396_000_001, false),
        (-396_000_000, true),
        (-395_999_997, true),
        (396_000_000, true),
        (396_000_003, true),
        (396_000_004, false),
        (i32::MIN, false),
        (i32::MIN + 3, false),
        (i32::MAX, false),
        (i32::MAX - 3, false),
    ] {
        arrays.base[11] = packed;
        let outcome = agreed_exact(&mut random, &arrays, &EMPTY, &[9, 5, 9]);
        let b = packed.div_euclid(4);
        assert_eq!(outcome.refusal, if sound { ACCEPTED } else { (12, 2) }, "{packed}");
        assert_eq!(outcome.points, if sound { [-20_000, -9_000, b - 20_000] } else { [0; 3] }, "{packed}");
    }
}

/// CHECK[0] is n + 24 with n 1..5; any other head gives 11 to start and run, the n, n + 8, n + 40 and n + 16 of older arrays too. With another n than the sample's
/// 3 rows of n words have no p in their BASE: with 1 those of words 2 and 4, with 2 that of 4 5.
#[test]
fn other_heads() {
    let mut random = Random::new(19);
    let mut arrays = built(&lists::sample(), 0);
    for head in (-20..=60).chain([i32::MIN, i32::MAX]) {
        arrays.check[0] = head;
        let (start, run) = match head {
            25 => ((12, 0), (12, 1)),
            26 => (ACCEPTED, (12, 2)),
            27..=29 => (ACCEPTED, ACCEPTED),
            _ => ((11, 0), (11, 0)),
        };
        assert_eq!(agreed_start(&arrays, &[3; 9]).0, start, "{head}");
        assert_eq!(agreed_exact(&mut random, &arrays, &EMPTY, &[4, 5]).refusal, run, "{head}");
    }
}

/// Runs in a row, held to the rule over all preceding words.
struct InARow {
    rule: Rule,
    arrays: Arrays,
    table: Vec<i32>,
    started: bool,
    state: Vec<i32>,
    preceding: Vec<u32>,
    points: Vec<i32>,
    lengths: Vec<u8>,
    totals: i64,
}

impl InARow {
    fn new(rows: &[Row], after_start: bool) -> InARow {
        let arrays = build(rows);
        let state = if after_start { started(&arrays) } else { EMPTY.to_vec() };
        InARow {
            rule: Rule::new(rows),
            arrays,
            table: table(rows),
            started: after_start,
            state,
            preceding: if after_start { vec![2] } else { vec![] },
            points: vec![],
            lengths: vec![],
            totals: 0,
        }
    }

    /// One run of the caller's choice, refused or not.
    fn run(&mut self, random: &mut Random, words: &[u32], sizes: (usize, usize)) {
        let (outcome, points, lengths) = run_only(random, &self.arrays, &self.state, words, sizes);
        let fits = sizes.0 >= words.len() && sizes.1 >= words.len();
        let expected = match words.len() {
            n if n > LONGEST_RUN => (14, 0),
            _ if !fits => (15, 0),
            _ => ACCEPTED,
        };
        assert_eq!(outcome.refusal, expected, "only 14 and 15 can refuse a run here");
        self.totals += outcome.total;
        if expected != ACCEPTED {
            assert!(outcome.state == self.state && outcome.points == points && outcome.lengths == lengths && outcome.total == 0);
            return;
        }
        assert!(outcome.points[words.len()..] == points[words.len()..] && outcome.lengths[words.len()..] == lengths[words.len()..]);
        for (i, &word) in words.iter().enumerate() {
            let scored = self.rule.score(&self.preceding, word);
            assert_eq!((outcome.points[i], outcome.lengths[i]), (scored.points, scored.length_byte()), "{word} after {:?}", self.preceding);
            self.preceding.push(word);
        }
        self.points.extend(&outcome.points[..words.len()]);
        self.lengths.extend(&outcome.lengths[..words.len()]);
        self.state = outcome.state;
    }

    /// The totals, the last state, and plain scoring of the joined words.
    fn finish(&self) {
        assert_eq!(self.totals, self.points.iter().map(|&p| p as i64).sum::<i64>());
        assert_eq!(self.state, self.rule.state(&self.preceding));
        let joined = &self.preceding[self.started as usize..];
        let (mut points, mut lengths) = (vec![0; joined.len()], vec![0; joined.len()]);
        let total = backoff::plain(&self.table, self.started, joined, &mut points, &mut lengths);
        if joined.len() > LONGEST_RUN {
            assert_eq!((total.number, total.place, total.total), (14, 0, 0));
            return;
        }
        assert_eq!((total.number, total.place, total.total), (0, 0, self.totals));
        assert!(points == self.points && lengths == self.lengths, "plain scoring of the joined words");
    }
}

/// Any list of runs, cut at random and with refused ones in between, scores as the rule does over all the joined words.
#[test]
fn runs_in_a_row() {
    let mut random = Random::new(2);
    let too_long = vec![4; LONGEST_RUN + 1];
    for i in 0..2_000 {
        let rows = lists::small_or_dense(&mut random, 1 + i % 5);
        let mut row = InARow::new(&rows, random.chance(50));
        for _ in 0..random.below(8) {
            let length = random.below(12);
            let words = if i % 3 == 0 { ended_text(&mut random, &rows, length, 3) } else { text(&mut random, &rows, length) };
            let sizes = (length + random.below(3), length + random.below(3));
            let shorter = random.below(length.max(1));
            match random.below(8) {
                0 => row.run(&mut random, &words, (shorter, sizes.1)),
                1 => row.run(&mut random, &words, (sizes.0, shorter)),
                2 if i % 20 == 0 => row.run(&mut random, &too_long, sizes),
                _ => row.run(&mut random, &words, sizes),
            }
        }
        row.finish();
    }
}

/// The longest list and long runs of a text of its own kind; joined they are too long for plain scoring.
#[test]
fn long_runs_in_a_row() {
    let mut random = Random::new(3);
    for rows in [lists::natural(&mut random, 5, 30_000, MOST_ROWS), lists::uniform(&mut random, 3, 2_000, MOST_ROWS)] {
        let mut row = InARow::new(&rows, true);
        let words = text(&mut random, &rows, LONGEST_RUN - 10);
        row.run(&mut random, &words, (LONGEST_RUN, LONGEST_RUN));
        row.finish();
        let words = text(&mut random, &rows, LONGEST_RUN);
        row.run(&mut random, &words, (LONGEST_RUN, LONGEST_RUN));
        row.run(&mut random, &vec![3; LONGEST_RUN + 1], (LONGEST_RUN + 1, LONGEST_RUN + 1));
        row.run(&mut random, &[3, 2], (2, 2));
        row.finish();
    }
}

/// Two histories that end in equal states: a continuation scores as the rule does after either of them.
#[test]
fn equal_states_score_alike() {
    let mut random = Random::new(4);
    let mut pairs = 0;
    for i in 0..300 {
        let rows = lists::small(&mut random, 1 + i % 5);
        let (arrays, rule) = (build(&rows), Rule::new(&rows));
        let mut histories: HashMap<Vec<i32>, Vec<u32>> = HashMap::new();
        for _ in 0..10 {
            let length = random.below(6);
            let history = if i % 3 == 0 { ended_text(&mut random, &rows, length, 3) } else { text(&mut random, &rows, length) };
            let state = agreed_exact(&mut random, &arrays, &EMPTY, &history).state;
            let Some(other) = histories.insert(state.clone(), history.clone()) else { continue };
            let words = text(&mut random, &rows, 6);
            let outcome = agreed_exact(&mut random, &arrays, &state, &words);
            for before in [&history, &other] {
                for k in 0..words.len() {
                    let scored = rule.score(&[&before[..], &words[..k]].concat(), words[k]);
                    assert_eq!((outcome.points[k], outcome.lengths[k]), (scored.points, scored.length_byte()));
                }
            }
            pairs += (history != other) as usize;
        }
    }
    assert!(pairs > 500, "{pairs}");
}

/// Words 0, 65,536 and 2^32−1 score as word 1 does, and leave it in the state.
#[test]
fn words_out_of_range_are_unknown() {
    let mut random = Random::new(5);
    let mut rows = lists::sample();
    rows[0].b = -70;
    let arrays = build(&rows);
    let expected = agreed_exact(&mut random, &arrays, &EMPTY, &[4, 1]);
    assert_eq!((expected.lengths[1], &expected.state[..2]), (9, &[1, 1][..]));
    for word in [0, 6, 65_535, 65_536, 65_540, 131_072, u32::MAX, 1 << 31] {
        assert_eq!(agreed_exact(&mut random, &arrays, &EMPTY, &[4, word]), expected, "{word}");
    }
    // Also where a slot stands as the child of such a word would.
    let mut planted = arrays.clone();
    planted.plant(0, 65_536);
    assert_eq!(agreed_exact(&mut random, &planted, &EMPTY, &[4, 65_536]), expected);
    planted.plant(0, 65_535);
    assert_eq!(agreed_exact(&mut random, &planted, &EMPTY, &[4, 65_535]).lengths[1], 1);
}

/// An empty run returns 0 and the state given, also one that no history leaves, and walks nothing.
#[test]
fn empty_run() {
    let mut random = Random::new(6);
    let mut broken = built(&lists::sample(), 0);
    (2..7).for_each(|slot| broken.base[slot] = 0);
    for state in [EMPTY, [2, 9, LARGEST_WORD, 0, 0, LARGEST_B, -LARGEST_B, 0, 0], [1, 3, 0, 0, 0, 0, 0, 0, 0]] {
        let outcome = agreed(&mut random, &broken, &state, &[], (2, 3));
        assert_eq!((outcome.refusal, outcome.total, &outcome.state[..]), (ACCEPTED, 0, &state[..]));
    }
}

/// Runs of 65,535 words are accepted, of 65,536 refused by 14.
#[test]
fn longest_run() {
    let mut random = Random::new(7);
    let sample = built(&lists::sample(), 0);
    let words = vec![5; LONGEST_RUN + 1];
    let outcome = agreed_exact(&mut random, &sample, &EMPTY, &words[1..]);
    assert_eq!((outcome.refusal, outcome.total), (ACCEPTED, -9_000 - 10_000 * 65_534));
    assert_eq!(agreed_exact(&mut random, &sample, &EMPTY, &words).refusal, (14, 0));
}

/// States of the caller's own making that pass 16 are answered by the formula.
#[test]
fn own_states() {
    let mut random = Random::new(8);
    for i in 0..1_000 {
        let order = 1 + i % 5;
        let rows = lists::small(&mut random, order);
        let arrays = if i % 2 == 0 { built(&rows, 0) } else { spread(&mut random, &rows) };
        for _ in 0..10 {
            let words = ended_text(&mut random, &rows, 5, 4);
            let state = own_state(&mut random, order as i32, &words);
            assert_eq!(agreed_exact(&mut random, &arrays, &state, &words).refusal, ACCEPTED);
        }
    }
}

/// Every field of a state out of its range in turn gives 16, and each limit passes.
#[test]
fn states_out_of_range() {
    let mut random = Random::new(9);
    for order in 1..=5usize {
        let arrays = built(&lists::small(&mut random, order), 0);
        for count in 0..order {
            let mut state = EMPTY;
            state[0] = count as i32;
            state[1..1 + count].fill(LARGEST_WORD);
            state[5..5 + count].fill(-LARGEST_B);
            let mut number = |field: usize, value: i32| {
                let mut changed = state;
                changed[field] = value;
                agreed_exact(&mut random, &arrays, &changed, &[4]).refusal.0
            };
            assert_eq!(number(0, count as i32), 0);
            for value in [-1, order as i32, 5, i32::MIN, i32::MAX] {
                assert_eq!(number(0, value), 16, "count {value} of order {order}");
            }
            for i in 0..4 {
                let (word, back_off) = (1 + i, 5 + i);
                let out_of_range: [&[i32]; 2] = if i < count {
                    assert!(number(word, 1) == 0 && number(back_off, LARGEST_B) == 0 && number(back_off, 0) == 0);
                    [&[0, -1, LARGEST_WORD + 1, i32::MIN, i32::MAX], &[LARGEST_B + 1, -LARGEST_B - 1, i32::MIN, i32::MAX]]
                } else {
                    [&[1, -1, LARGEST_WORD + 1, i32::MIN], &[1, -1, LARGEST_B + 1, i32::MAX]]
                };
                for (field, values) in [word, back_off].into_iter().zip(out_of_range) {
                    for &value in values {
                        assert_eq!(number(field, value), 16, "field {field} = {value}, count {count} of order {order}");
                    }
                }
            }
        }
    }
}

/// A state slice of another length gives 16 before every other check, for start too, and stays as it was.
#[test]
fn states_of_another_length() {
    let mut random = Random::new(10);
    let (good, bad) = (built(&lists::sample(), 0), Arrays { base: vec![0; 3], check: vec![0; 2] });
    for length in (0..9).chain(10..20) {
        for arrays in [&good, &bad] {
            let state = vec![9; length];
            assert_eq!(agreed_start(arrays, &state), ((16, 0), state.clone()), "length {length}");
            assert_eq!(agreed(&mut random, arrays, &state, &[4, 5], (0, 0)).refusal, (16, 0), "length {length}");
        }
    }
}

/// Output slices shorter than the run give 15, longer ones stay as they were past the run.
#[test]
fn output_lengths() {
    let mut random = Random::new(11);
    let sample = built(&lists::sample(), 0);
    for points in 0..6 {
        for lengths in 0..6 {
            let outcome = agreed(&mut random, &sample, &EMPTY, &[4, 5, 9], (points, lengths));
            assert_eq!(outcome.refusal.0, if points < 3 || lengths < 3 { 15 } else { 0 }, "{points} {lengths}");
        }
    }
}

/// The order of the refusals: 11, 16, 14, 15, 12; each input meets one and all that follow it.
#[test]
fn order_of_refusals() {
    let mut random = Random::new(12);
    let mut broken = built(&lists::sample(), 0);
    broken.base[2] = 0;
    let mut no_head = broken.clone();
    no_head.base[0] = 2;
    let bad_state = [3, 4, 4, 4, 0, 0, 0, 0, 0];
    let too_many = vec![9; LONGEST_RUN + 1];
    assert_eq!(agreed(&mut random, &no_head, &bad_state, &too_many, (0, 0)).refusal, (11, 0));
    assert_eq!(agreed(&mut random, &broken, &bad_state, &too_many, (0, 0)).refusal, (16, 0));
    assert_eq!(agreed(&mut random, &broken, &EMPTY, &too_many, (0, 0)).refusal, (14, 0));
    assert_eq!(agreed(&mut random, &broken, &EMPTY, &[4, 9], (2, 1)).refusal, (15, 0));
    assert_eq!(agreed(&mut random, &broken, &EMPTY, &[4, 9], (2, 2)).refusal, (12, 2));
}

/// 12 at word k: all points and length bytes of the run are 0, those past it as they were.
#[test]
fn broken_node_at_a_word() {
    let mut random = Random::new(13);
    let mut broken = built(&lists::sample(), 0);
    broken.base[2] = 0;
    for k in 0..5 {
        let mut words = [4; 5];
        words[k] = 9;
        let outcome = agreed(&mut random, &broken, &EMPTY, &words, (7, 8));
        assert_eq!(outcome.refusal, (12, k as u32 + 1));
        assert!(outcome.points[..5] == [0; 5] && outcome.lengths[..5] == [0; 5]);
    }
}

/// Start replaces word 2 where the root has no child for it, and gives 12 where it has no child 1 either.
#[test]
fn start_without_its_word() {
    let mut rows = lists::sample();
    rows[0].b = -70;
    let mut arrays = built(&rows, 0);
    arrays.check[3] = 7;
    assert_eq!(agreed_start(&arrays, &[5; 9]), (ACCEPTED, vec![1, 1, 0, 0, 0, -70, 0, 0, 0]));
    arrays.check[2] = 7;
    assert_eq!(agreed_start(&arrays, &[5; 9]), ((12, 0), EMPTY.to_vec()));
    arrays.base[1] = 2;
    assert_eq!(agreed_start(&arrays, &[5; 9]), ((11, 0), EMPTY.to_vec()));
}

/// How often each number was met, and 12 at the first word, at the last and in between.
#[derive(Default, Debug)]
struct Met {
    numbers: [usize; 17],
    places: [usize; 3],
    /// 12 at a 3, and accepted with a 3 inside.
    ends: [usize; 2],
}

impl Met {
    fn add(&mut self, (number, place): Refusal, words: &[u32]) {
        self.numbers[number as usize] += 1;
        if number == 12 {
            let at = match place as usize {
                1 => 0,
                p if p == words.len() => 2,
                _ => 1,
            };
            self.places[at] += 1;
            self.ends[0] += (words[place as usize - 1] == 3) as usize;
        }
        self.ends[1] += (number == 0 && words.contains(&3)) as usize;
    }

    fn assert_all(&self, numbers: &[usize]) {
        let places = self.places.iter().chain(&self.ends);
        assert!(numbers.iter().all(|&number| self.numbers[number] > 0) && places.into_iter().all(|&count| count > 0), "{self:?}");
    }
}

/// Every single number of a small array changed to each of several values: starts and runs as the second scorer's.
#[test]
fn changed_arrays() {
    let mut random = Random::new(14);
    let mut met = Met::default();
    let mut starts = [0; 13];
    for i in 0..40 {
        let order = 1 + i % 5;
        let rows = lists::tiny(&mut random, order);
        let texts: Vec<Vec<u32>> = (0..4).map(|k| ended_text(&mut random, &rows, 6, 2 + 4 * k)).collect();
        each_change(&built(&rows, 1), |changed| {
            let (refusal, state) = agreed_start(changed, &[8; 9]);
            starts[refusal.0 as usize] += 1;
            for words in &texts {
                let own = own_state(&mut random, order as i32, words);
                met.add(agreed_exact(&mut random, changed, &state, words).refusal, words);
                met.add(agreed_exact(&mut random, changed, &own, words).refusal, words);
            }
        });
    }
    met.assert_all(&[0, 11, 12, 16]);
    assert!(starts[0] > 0 && starts[11] > 0 && starts[12] > 0, "{starts:?}");
}

/// The state of these words, oldest first, with back-offs of a caller's own.
fn state_of(random: &mut Random, words: &[u32]) -> [i32; 9] {
    let mut state = EMPTY;
    state[0] = words.len() as i32;
    for (i, &word) in words.iter().rev().enumerate() {
        (state[1 + i], state[5 + i]) = (word as i32, random.between(-LARGEST_B, LARGEST_B));
    }
    state
}

/// Arrays that no build wrote; many words end the walk of n words in them.
#[test]
fn drawn_arrays() {
    let mut random = Random::new(15);
    let mut met = Met::default();
    let mut longest = [0; 6];
    for _ in 0..50_000 {
        let arrays = drawn(&mut random);
        let order = arrays.order() as usize;
        if let Some((&newest, older)) = arrays.walked(&mut random, order).split_last() {
            let state = state_of(&mut random, older);
            let outcome = agreed_exact(&mut random, &arrays, &state, &[newest]);
            longest[order] += (outcome.lengths[0] as usize & 7 == order) as usize;
        }
        let words: Vec<u32> = (0..4).map(|_| if random.chance(20) { 3 } else { random.below(30) as u32 }).collect();
        let (_, state) = agreed_start(&arrays, &[8; 9]);
        let own = own_state(&mut random, arrays.order(), &words);
        met.add(agreed_exact(&mut random, &arrays, &state, &words).refusal, &words);
        met.add(agreed_exact(&mut random, &arrays, &own, &words).refusal, &words);
    }
    met.assert_all(&[0, 12]);
    assert!(longest[1] > 1_000 && longest[2] > 50, "{longest:?}");
}
