//! "For two sequences of equal length from the same start that differ at one place, only that word and the n − 1 after it may differ in points" (T-11): runs
//! over a built array and plain scoring, each as the second implementation has it, and how far the totals lie apart.

use std::collections::BTreeSet;
use tests::arrays::{built, Arrays};
use tests::lists::{self, add_parts, ended_text, table};
use tests::random::Random;
use tests::reference::list::{Row, ACCEPTED, LARGEST_B, LOWEST_P, MOST_ROWS};
use tests::reference::rule::{self, LONGEST_RUN, SENTENCE_END};
use tests::reference::score::{self, EMPTY};
use tests::states::own_state;

/// An accepted list and the array that the call under test builds.
struct List {
    table: Vec<i32>,
    arrays: Arrays,
}

fn list(rows: &[Row]) -> List {
    let (table, mut arrays) = (table(rows), built(rows, 0));
    let mut work = vec![0; rows.len()];
    assert_eq!(backoff::build(&table, &mut arrays.base, &mut arrays.check, &mut work).number, 0);
    List { table, arrays }
}

/// What stands for the words, and the state behind them.
#[derive(Debug, PartialEq, Eq)]
struct Scored {
    points: Vec<i32>,
    lengths: Vec<u8>,
    total: i64,
    state: [i32; 9],
}

impl List {
    fn start(&self) -> [i32; 9] {
        let mut state = EMPTY;
        assert_eq!(backoff::start(&self.arrays.base, &self.arrays.check, &mut state).number, 0);
        state
    }

    /// A run, on which the second implementation agrees.
    fn run(&self, given: [i32; 9], words: &[u32]) -> Scored {
        let Arrays { base, check } = &self.arrays;
        let (mut state, mut points, mut lengths) = (given, vec![0; words.len()], vec![0; words.len()]);
        let answer = backoff::run(base, check, &mut state, words, &mut points, &mut lengths);
        let (mut second_state, mut second_points, mut second_lengths) = (given, vec![0; words.len()], vec![0; words.len()]);
        let second = score::run(base, check, &mut second_state, words, &mut second_points, &mut second_lengths);
        assert_eq!(((answer.number, answer.place), answer.total), second);
        assert_eq!((second.0, &points, &lengths, state), (ACCEPTED, &second_points, &second_lengths, second_state), "{words:?}");
        Scored { points, lengths, total: answer.total, state }
    }

    /// Runs in a row over the words, cut at random.
    fn runs(&self, random: &mut Random, given: [i32; 9], words: &[u32]) -> Scored {
        let mut all = Scored { points: vec![], lengths: vec![], total: 0, state: given };
        let mut rest = words;
        while !rest.is_empty() {
            let (part, behind) = rest.split_at(1 + random.below(rest.len()));
            let next = self.run(all.state, part);
            all.points.extend(next.points);
            all.lengths.extend(next.lengths);
            (all.total, all.state) = (all.total + next.total, next.state);
            rest = behind;
        }
        all
    }

    /// Plain scoring, on which the second implementation agrees; the state is left out.
    fn plain(&self, after_start: bool, words: &[u32]) -> Scored {
        let (mut points, mut lengths) = (vec![0; words.len()], vec![0; words.len()]);
        let answer = backoff::plain(&self.table, after_start, words, &mut points, &mut lengths);
        let (mut second_points, mut second_lengths) = (vec![0; words.len()], vec![0; words.len()]);
        let second = rule::plain(&self.table, after_start, words, &mut second_points, &mut second_lengths);
        assert_eq!(((answer.number, answer.place), answer.total), second);
        assert_eq!((second.0, &points, &lengths), (ACCEPTED, &second_points, &second_lengths), "{words:?}");
        Scored { points, lengths, total: answer.total, state: EMPTY }
    }
}

/// "n × (2 × n − 1) × 99,000,000".
fn total_move(order: usize) -> i64 {
    (order * (2 * order - 1)) as i64 * LARGEST_B as i64
}

/// The most that the rule allows.
fn closer_move(order: usize) -> i64 {
    (3 * order - 2) as i64 * LARGEST_B as i64
}

/// Compares what is scored of two sequences that differ at a place, and gives the farthest place behind it, counted from there, at which their points differ.
fn compared(order: usize, place: usize, one: &Scored, two: &Scored, most: i64) -> Option<usize> {
    let word_move = (2 * order - 1) as i64 * LARGEST_B as i64;
    let mut farthest = None;
    for i in 0..one.points.len() {
        let apart = (one.points[i] as i64 - two.points[i] as i64).abs();
        assert!(apart <= word_move, "{apart} at {i}");
        if i < place || i >= place + order {
            assert_eq!((apart, one.lengths[i]), (0, two.lengths[i]), "place {place}, word {i}");
        }
        if apart > 0 {
            farthest = Some(i - place);
        }
    }
    if place + order <= one.points.len() {
        assert_eq!(one.state, two.state, "the states behind the window");
    }
    assert!((one.total - two.total).abs() <= most, "totals {} and {}", one.total, two.total);
    farthest
}

/// Two sequences that differ at one place, at which one of them often has a 3.
fn misheard(random: &mut Random, rows: &[Row]) -> (usize, Vec<u32>, Vec<u32>) {
    let length = 1 + random.below(14);
    let one_in = random.pick(&[3, 8, 100]);
    let mut one = ended_text(random, rows, length, one_in);
    let place = random.below(length);
    let mut two = one.clone();
    while one[place] == two[place] {
        two[place] = if random.chance(20) { SENTENCE_END } else { lists::text(random, rows, 1)[0] };
    }
    if random.chance(50) {
        std::mem::swap(&mut one, &mut two);
    }
    (place, one, two)
}

/// By the rule: runs in a row, cut differently, from start's state and from the empty one, and plain scoring. For every order the last of the n − 1 words after
/// the place is moved somewhere, also where one of the two words is a 3.
#[test]
fn by_the_rule() {
    let mut random = Random::new(1);
    let mut farthest = [[None; 2]; 6];
    for i in 0..10_000 {
        let order = 1 + i % 5;
        let rows = lists::small_or_dense(&mut random, order);
        let list = list(&rows);
        for _ in 0..5 {
            let (place, one, two) = misheard(&mut random, &rows);
            let ended = one[place] == SENTENCE_END || two[place] == SENTENCE_END;
            for after_start in [false, true] {
                let given = if after_start { list.start() } else { EMPTY };
                let (left, right) = (list.runs(&mut random, given, &one), list.runs(&mut random, given, &two));
                let moved = compared(order, place, &left, &right, closer_move(order));
                farthest[order][ended as usize] = farthest[order][ended as usize].max(moved);
                if i % 10 == 0 {
                    let (left, right) = (list.plain(after_start, &one), list.plain(after_start, &two));
                    assert_eq!(compared(order, place, &left, &right, closer_move(order)), moved);
                }
            }
        }
    }
    for (order, moved) in farthest.iter().enumerate().skip(1) {
        assert_eq!(moved, &[Some(order - 1); 2], "order {order}");
    }
}

/// From states of the caller's own making.
#[test]
fn from_own_states() {
    let mut random = Random::new(2);
    for i in 0..10_000 {
        let order = 1 + i % 5;
        let rows = lists::small_or_dense(&mut random, order);
        let list = list(&rows);
        for _ in 0..5 {
            let (place, one, two) = misheard(&mut random, &rows);
            let state = own_state(&mut random, order as i32, &one);
            compared(order, place, &list.run(state, &one), &list.run(state, &two), total_move(order));
        }
    }
}

/// Both are refused by one number, with totals of 0 and the given state, whatever word stands at the place.
#[test]
fn refused_alike() {
    let list = list(&lists::sample());
    let (mut one, mut two) = (vec![5; LONGEST_RUN + 1], vec![5; LONGEST_RUN + 1]);
    (one[7], two[7]) = (4, SENTENCE_END);
    for (count, room, number) in [(LONGEST_RUN + 1, LONGEST_RUN + 1, 14), (20, 19, 15)] {
        for words in [&one[..count], &two[..count]] {
            let (mut state, mut points, mut lengths) = (list.start(), vec![9; room], vec![9; room]);
            let answer = backoff::run(&list.arrays.base, &list.arrays.check, &mut state, words, &mut points, &mut lengths);
            assert_eq!((answer.number, answer.place, answer.total, state), (number, 0, 0, list.start()));
            let answer = backoff::plain(&list.table, true, words, &mut points, &mut lengths);
            assert_eq!((answer.number, answer.place, answer.total), (number, 0, 0));
            assert!(points == vec![9; room] && lengths == vec![9; room]);
        }
    }
}

fn row(words: &[i32], p: i32, b: i32) -> Row {
    Row { words: words.to_vec(), p, b }
}

/// How far the totals of two sequences after `<s>` lie apart, by runs and by plain scoring.
fn apart(rows: &[Row], one: &[u32], two: &[u32]) -> i64 {
    let list = list(rows);
    let by_runs = list.run(list.start(), one).total - list.run(list.start(), two).total;
    assert_eq!(by_runs, list.plain(true, one).total - list.plain(true, two).total);
    by_runs.abs()
}

/// The lists of `crates/theorems/specs/OneWordExample.antt`, which reach the most that the rule allows.
#[test]
fn worked_examples() {
    let (most, least) = (LARGEST_B, -LARGEST_B);
    let single = |word, p, b| row(&[word], p, b);
    let order1 = [single(1, 0, 0), single(2, 0, 0), single(3, 0, 0), single(4, least, 0), single(5, 0, 0)];
    assert_eq!(apart(&order1, &[5], &[4]), 99_000_000);
    let order2 = [
        single(1, 0, 0),
        single(2, 0, least),
        single(3, 0, 0),
        single(4, least, least),
        single(5, 0, most),
        single(6, 0, 0),
        row(&[2, 5], 0, 0),
    ];
    assert_eq!(apart(&order2, &[5, 6], &[4, 6]), 4 * 99_000_000);
    let order3 = [
        single(1, 0, 0),
        single(2, 0, 0),
        single(3, 0, 0),
        single(4, 0, least),
        single(5, 0, 0),
        single(6, least, least),
        single(7, least, 0),
        single(8, 0, 0),
        row(&[2, 4], 0, least),
        row(&[4, 5], 0, most),
        row(&[5, 7], 0, most),
        row(&[2, 4, 5], 0, 0),
    ];
    assert_eq!(apart(&order3, &[4, 5, 7, 8], &[4, 6, 7, 8]), 7 * 99_000_000);
}

/// The word behind the place alone is moved 2n − 2 times the largest back-off: it pays the back-offs of one history and gains those of the other.
#[test]
fn one_word_by_more_than_n() {
    let list = list(&[
        row(&[1], 0, 0),
        row(&[2], 0, 0),
        row(&[3], 0, 0),
        row(&[4], 0, -LARGEST_B),
        row(&[5], 0, LARGEST_B),
        row(&[6], 0, 0),
        row(&[2, 4], 0, -LARGEST_B),
        row(&[2, 5], 0, LARGEST_B),
        row(&[4, 5], 0, 0),
        row(&[2, 4, 5], 0, 0),
    ]);
    let (one, two) = (list.run(list.start(), &[4, 6]), list.run(list.start(), &[5, 6]));
    assert_eq!((one.points, two.points), (vec![0, -2 * LARGEST_B], vec![0, 2 * LARGEST_B]));
}

/// The word that is listed after everything before it, the one that is backed off to, and the first of those behind either.
const LISTED: i32 = 20;
const BACKED_OFF: i32 = 21;
const NEXT: i32 = 30;

/// A list of an order, and the words before the place and behind it, where the two words lie 3n − 2 times the largest back-off apart: at the place n times, since the
/// one pays every back-off before it and its own p; at the next word n times, since the one pays its back-off and that word's p, and the other gains the n − 2 of its
/// rows; and at each further word one p, since the other has a row that begins with the listed word.
fn extreme(order: usize) -> (Vec<Row>, Vec<u32>, Vec<u32>) {
    let before: Vec<i32> = [2, 10, 11, 12][..order - 1].to_vec();
    let behind: Vec<i32> = (NEXT..).take(order - 1).collect();
    let mut parts = BTreeSet::new();
    for words in [&[1], &[2], &[3], &[BACKED_OFF], &[&before[..], &[LISTED]].concat()[..], &[&[LISTED], &behind[..]].concat()] {
        add_parts(&mut parts, words, order, MOST_ROWS);
    }
    let rows = parts.into_iter().map(|(_, newest_first)| extreme_row(order, newest_first.into_iter().rev().collect()));
    let numbers = |words: &[i32]| words.iter().map(|&word| word as u32).collect();
    (rows.collect(), numbers(before.get(1..).unwrap_or(&[])), numbers(&behind))
}

fn extreme_row(order: usize, words: Vec<i32>) -> Row {
    let b = match words[..] {
        _ if words.len() == order => 0,
        [.., BACKED_OFF] => -LARGEST_B,
        [_, .., LISTED] => LARGEST_B,
        [.., last] if last < LISTED => -LARGEST_B,
        _ => 0,
    };
    Row { p: if words[0] > LISTED { LOWEST_P } else { 0 }, words, b }
}

/// Every order reaches the most that the rule allows: 1, 4, 7, 10 and 13 times the largest back-off.
#[test]
fn extreme_lists() {
    for (order, times) in [(1, 1), (2, 4), (3, 7), (4, 10), (5, 13)] {
        let (rows, before, behind) = extreme(order);
        let words = |word: i32| [&before[..], &[word as u32], &behind[..]].concat();
        assert_eq!(apart(&rows, &words(LISTED), &words(BACKED_OFF)), times * 99_000_000, "order {order}");
    }
}
