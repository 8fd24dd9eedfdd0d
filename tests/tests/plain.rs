//! `backoff_plain` against the back-off rule over all preceding words.

use tests::damage::{self, Cells};
use tests::guard::Guarded;
use tests::lists::{self, ended_text, table, text};
use tests::random::Random;
use tests::reference::list::{Refusal, Row, ACCEPTED, MOST_ROWS};
use tests::reference::rule::{plain, LONGEST_RUN};

/// The answer, the points and the length bytes that the call and the second scorer agree on.
fn agreed(
    random: &mut Random,
    cells: &[i32],
    after_start: bool,
    words: &[u32],
    sizes: (usize, usize),
) -> (Refusal, i64, Vec<i32>, Vec<u8>) {
    let mut points: Vec<i32> = (0..sizes.0).map(|_| random.bits() as i32).collect();
    let mut lengths: Vec<u8> = (0..sizes.1).map(|_| random.bits() as u8).collect();
    let (mut lent_cells, mut lent_words) = (Guarded::new(cells), Guarded::new(words));
    let (mut lent_points, mut lent_lengths) = (Guarded::new(&points), Guarded::new(&lengths));
    let answer = backoff::plain(lent_cells.lend(), after_start, lent_words.lend(), lent_points.lend(), lent_lengths.lend());
    let refusal = (answer.number, answer.place);
    assert!(lent_cells.back() == cells && lent_words.back() == words, "a slice lent for reading was written");
    if refusal != ACCEPTED {
        assert!(answer.total == 0 && lent_points.back() == points && lent_lengths.back() == lengths, "written before {refusal:?}");
    }

    let second = plain(cells, after_start, words, &mut points, &mut lengths);
    assert_eq!((refusal, answer.total), second, "{} rows, {} words", cells.len() / 8, words.len());
    assert!(lent_points.back() == points, "points {:?}, by the second scorer {points:?}: {words:?}", lent_points.back());
    assert!(lent_lengths.back() == lengths, "lengths {:?}, by the second scorer {lengths:?}: {words:?}", lent_lengths.back());
    (refusal, answer.total, points, lengths)
}

/// The points of K1 to K4 from the plain sample. Rows 5 3, 2 4, 4 5 and 2 4 5 put a word in front of 3, 4, 5 and 4 5: 16 in their bytes.
#[test]
fn k1_to_k4() {
    let mut random = Random::new(1);
    let cells = table(&lists::sample());
    let cases: [(&[u32], &[i32], &[u8]); 4] = [
        (&[4, 5, 3], &[-4_000, -1_000, -1_500], &[2, 3, 2]),
        (&[5, 4, 3], &[-12_000, -7_000, -12_000], &[17, 17, 17]),
        (&[9, 3], &[-23_000, -10_000], &[9, 17]),
        (&[3], &[-13_000], &[17]),
    ];
    for (words, expected, expected_lengths) in cases {
        let (refusal, total, points, lengths) = agreed(&mut random, &cells, true, words, (words.len(), words.len()));
        assert_eq!((refusal, total), (ACCEPTED, expected.iter().map(|&p| p as i64).sum()));
        assert_eq!((&points[..], &lengths[..]), (expected, expected_lengths), "{words:?}");
    }
}

/// Without context the first word has no history: no back-off of `<s>` is added.
#[test]
fn with_no_context() {
    let cells = table(&lists::sample());
    let (_, total, points, lengths) = agreed(&mut Random::new(2), &cells, false, &[4, 5, 3], (3, 3));
    assert_eq!((total, &points[..], &lengths[..]), (-10_500, &[-6_000, -3_000, -1_500][..], &[17, 18, 2][..]));
}

/// After a 3 the history is `<s>` alone, also where the words before it had no context; the 3 itself is scored after its full history.
#[test]
fn sentence_ends() {
    let mut random = Random::new(9);
    let cells = table(&lists::sample());
    let (_, total, points, lengths) = agreed(&mut random, &cells, false, &[4, 5, 3, 4, 5, 3], (6, 6));
    assert_eq!((total, &points[..]), (-17_000, &[-6_000, -3_000, -1_500, -4_000, -1_000, -1_500][..]));
    assert_eq!(lengths, [17, 18, 2, 2, 3, 2]);
    assert_eq!(agreed(&mut random, &cells, true, &[3, 3, 5, 2, 4], (5, 5)).2, [-13_000, -13_000, -12_000, -991_000, -4_000]);
}

/// An unknown word whose row others put a word in front of: 8 and 16.
#[test]
fn unknown_and_extended() {
    let mut rows = lists::sample();
    rows.insert(5, Row { words: vec![2, 1], p: -700, b: 0 });
    let (_, _, points, lengths) = agreed(&mut Random::new(8), &table(&rows), true, &[9, 9, 1], (3, 3));
    assert_eq!((&points[..], &lengths[..]), (&[-700, -20_000, -20_000][..], &[2 + 8, 1 + 8 + 16, 1 + 8 + 16][..]));
}

/// Random lists of order 1 to 5 and texts with unknown words and marks anywhere, after `<s>` and without context.
#[test]
fn random_texts() {
    let mut random = Random::new(3);
    let mut met = [0; 32];
    for i in 0..3_000 {
        let rows = lists::small(&mut random, 1 + i % 5);
        let length = random.below(30);
        let words = if i % 3 == 0 { ended_text(&mut random, &rows, length, 4) } else { text(&mut random, &rows, length) };
        let sizes = (length + random.below(3), length + random.below(3));
        for after_start in [false, true] {
            let (refusal, _, _, lengths) = agreed(&mut random, &table(&rows), after_start, &words, sizes);
            assert_eq!(refusal, ACCEPTED);
            lengths[..length].iter().for_each(|&byte| met[byte as usize] += 1);
        }
    }
    // Every matched length, known and unknown, with and without a row that puts a word in front; five words have none.
    let possible = |byte: usize| (1..=5).contains(&(byte % 8)) && byte % 8 + byte / 16 <= 5;
    assert!((0..32).all(|byte| (met[byte] > 0) == possible(byte)), "{met:?}");
}

/// The longest text over the longest list; one word more gives 14.
#[test]
fn longest_text() {
    let mut random = Random::new(4);
    let rows = lists::natural(&mut random, 5, 30_000, MOST_ROWS);
    let words = text(&mut random, &rows, LONGEST_RUN + 1);
    let size = LONGEST_RUN + 1;
    assert_eq!(agreed(&mut random, &table(&rows), true, &words[1..], (size, size)).0, ACCEPTED);
    assert_eq!(agreed(&mut random, &table(&rows), true, &words, (size, size)).0, (14, 0));
}

/// Output slices shorter than the words give 15.
#[test]
fn output_lengths() {
    let mut random = Random::new(5);
    let cells = table(&lists::sample());
    for points in 0..6 {
        for lengths in 0..6 {
            let (refusal, ..) = agreed(&mut random, &cells, true, &[4, 5, 9], (points, lengths));
            assert_eq!(refusal.0, if points < 3 || lengths < 3 { 15 } else { 0 }, "{points} {lengths}");
        }
    }
}

/// Damaged lists are refused as the list check refuses them, before 14 and 15.
#[test]
fn damaged_lists() {
    let mut random = Random::new(6);
    let mut met = [0; 10];
    for i in 0..500 {
        let cells: Vec<Cells> = lists::small(&mut random, 1 + i % 5).iter().map(|row| row.cells()).collect();
        for (_, damage) in damage::kinds() {
            let mut damaged = cells.clone();
            let row = random.below(cells.len());
            damage(&mut random, &mut damaged, row);
            met[agreed(&mut random, &damaged.concat(), true, &[4, 9, 2], (3, 3)).0 .0 as usize] += 1;
        }
    }
    assert!([0, 3, 4, 5, 6, 7, 8, 9].iter().all(|&number| met[number] > 0), "{met:?}");
}

/// The order of the refusals: 1, the rows, 9, then 14, then 15.
#[test]
fn order_of_refusals() {
    let mut random = Random::new(7);
    let cells = table(&lists::sample());
    let too_many = vec![4; LONGEST_RUN + 1];
    let mut number = |cells: &[i32], words: &[u32]| agreed(&mut random, cells, false, words, (1, 1)).0 .0;
    let mut faulty = cells.clone();
    faulty[6] = 1;
    assert_eq!(number(&faulty[..71], &too_many), 1);
    assert_eq!(number(&faulty, &too_many), 5);
    assert_eq!(number(&cells[8..], &too_many), 9);
    assert_eq!(number(&cells, &too_many), 14);
    assert_eq!(number(&cells, &[4, 4]), 15);
}
