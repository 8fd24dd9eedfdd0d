//! `backoff_fill` against the second implementation, and what a filled list promises: an accepted list of the same order with the same points.

use std::collections::BTreeSet;
use tests::damage::{self, Cells};
use tests::guard::Guarded;
use tests::lists::{self, ended_text, mild, pruned, table};
use tests::random::Random;
use tests::reference::build::{place, slots_used};
use tests::reference::filling::fill;
use tests::reference::list::{rows, verdict, Refusal, Row, ACCEPTED, LARGEST_B, MOST_ROWS};
use tests::reference::rule::Rule;

/// The refusal, the row count and the second table that the call and the second implementation agree on.
fn agreed(random: &mut Random, cells: &[i32], size: usize) -> (Refusal, u32, Vec<i32>) {
    let mut filled: Vec<i32> = (0..size).map(|_| random.bits() as i32).collect();
    let (mut lent, mut lent_filled) = (Guarded::new(cells), Guarded::new(&filled));
    let answer = backoff::fill(lent.lend(), lent_filled.lend());
    assert!(lent.back() == cells, "a slice lent for reading was written");
    let refusal = (answer.number, answer.place as u32);
    if refusal != ACCEPTED {
        assert!(answer.rows == 0 && lent_filled.back() == filled, "written before {refusal:?}");
    }
    let second = fill(cells, &mut filled);
    let shown = || if cells.len() > 8 * 30 { String::new() } else { format!("{:?}", cells.chunks(8).collect::<Vec<_>>()) };
    assert_eq!((refusal, answer.rows), second, "{}", shown());
    assert!(lent_filled.back() == filled, "{}", shown());
    (refusal, answer.rows, filled)
}

/// The rows of an accepted filling in a table that is exactly long enough; one number less gives 15, and one more stays as it was.
fn filled(random: &mut Random, list: &[Row]) -> Vec<Row> {
    let cells = table(list);
    let most = 4 * cells.len();
    let (refusal, count, all) = agreed(random, &cells, most);
    assert_eq!(refusal, ACCEPTED);
    let items = 8 * count as usize;
    assert_eq!(agreed(random, &cells, items - 1).0, (15, 0));
    assert_eq!(agreed(random, &cells, items).2, all[..items]);
    rows(&all[..items])
}

fn row(words: &[i32], p: i32, b: i32) -> Row {
    Row { words: words.to_vec(), p, b }
}

/// The sample without rows of two words, by hand.
#[test]
fn the_sample() {
    let mut random = Random::new(1);
    let sample = lists::sample();
    assert_eq!(filled(&mut random, &sample), sample, "a complete list comes back as it is");
    // Without 4 5: b of 4, then p of 5.
    let list: Vec<Row> = sample.iter().filter(|row| row.words != [4, 5]).cloned().collect();
    assert_eq!(verdict(&table(&list)), (8, 8));
    let mut expected = sample.clone();
    expected[7].p = -11_000;
    assert_eq!(filled(&mut random, &list), expected);
    // Without 5 3: no row is longer on its left, so nothing is added.
    let list: Vec<Row> = sample.iter().filter(|row| row.words != [5, 3]).cloned().collect();
    assert_eq!(filled(&mut random, &list), list);
    // Without 2 4, which is 2 4 5 without its last word.
    let list: Vec<Row> = sample.iter().filter(|row| row.words != [2, 4]).cloned().collect();
    assert_eq!(agreed(&mut random, &table(&list), 200).0, (8, 8));
}

/// A row of five words without any of the rows that it has on its right: three are added, each with the points of the lent list.
#[test]
fn three_of_one() {
    let mut random = Random::new(2);
    let list = [
        row(&[1], -20_000, 0),
        row(&[2], -990_000, -3_000),
        row(&[3], -10_000, -40),
        row(&[4], -6_000, -2_000),
        row(&[4, 3], -700, -5),
        row(&[4, 3, 4], -800, -6),
        row(&[4, 3, 4, 4], -900, -7),
        row(&[4, 3, 4, 4, 3], -1_000, 0),
    ];
    let expected = [
        &list[..5],
        &[
            // A 3 among the words ends nothing: 3 4 has the back-off of 3, and 3 4 4 3 goes on with 4 3.
            row(&[3, 4], -40 - 6_000, 0),
            row(&[4, 4], -2_000 - 6_000, 0),
            row(&[4, 4, 3], -700, 0),
            list[5].clone(),
            row(&[3, 4, 4], -2_000 - 6_000, 0),
            row(&[3, 4, 4, 3], -700, 0),
            list[6].clone(),
            list[7].clone(),
        ],
    ]
    .concat();
    assert_eq!(filled(&mut random, &list), expected);
}

/// 8 is kept for an absent row without the last word, and for an absent row of the last word alone.
#[test]
fn shorter_rows_that_stay_needed() {
    let mut random = Random::new(3);
    let sample = lists::sample();
    let with = |words: &[i32]| {
        let mut list = sample.clone();
        list.push(row(words, -5, 0));
        list.sort_by_key(|row| (row.words.len(), row.words.iter().rev().copied().collect::<Vec<i32>>()));
        list
    };
    // 6 has no row of its own; 4 4 and 5 4 are absent.
    for (words, place) in [(&[4, 6][..], 9), (&[6, 4], 8), (&[2, 4, 6], 10), (&[4, 4, 5], 10), (&[5, 4, 3], 9)] {
        assert_eq!(agreed(&mut random, &table(&with(words)), 200).0, (8, place), "{words:?}");
    }
    // 2 4 4 has 2 4; 4 4 is added.
    assert_eq!(filled(&mut random, &with(&[2, 4, 4])).len(), 11);
}

/// The first row of the lent list that needs a row whose p is out of range, above 0 or below the least; a p at a limit passes.
#[test]
fn p_out_of_range() {
    let mut random = Random::new(4);
    for (b, p, fits) in [
        (9_000, -9_000, true),
        (9_001, -9_000, false),
        (LARGEST_B, -LARGEST_B, true),
        (LARGEST_B, 1 - LARGEST_B, false),
        (-1, 1 - LARGEST_B, true),
        (-1, -LARGEST_B, false),
        (-LARGEST_B, 0, true),
        (-LARGEST_B, -1, false),
    ] {
        let mut list: Vec<Row> = lists::sample().into_iter().filter(|row| row.words != [4, 5]).collect();
        (list[3].b, list[4].p) = (b, p);
        assert_eq!(agreed(&mut random, &table(&list), 72).0, if fits { ACCEPTED } else { (5, 8) }, "{b} {p}");
    }
    // Of two such rows the first of the lent list counts: 1 2 3 needs 2 3, 1 2 4 needs 2 4.
    let list = [
        row(&[1], 0, 0),
        row(&[2], 0, 5),
        row(&[3], 0, 0),
        row(&[4], 0, 0),
        row(&[1, 2], 0, 0),
        row(&[1, 2, 3], 0, 0),
        row(&[1, 2, 4], 0, 0),
    ];
    assert_eq!(agreed(&mut random, &table(&list), 200).0, (5, 6));
    let mut other = list.clone();
    other[2].p = -5;
    assert_eq!(agreed(&mut random, &table(&other), 200).0, (5, 7));
}

/// A list of words 1 to so many, of 1 w for each and of so many 1 v w: each of these needs v w.
fn wide(words: i32, triples: usize) -> Vec<Row> {
    let ones = (1..=words).map(|w| row(&[w], -10, -1));
    let twos = (2..=words).map(|w| row(&[1, w], -20, -2));
    let threes = (2..=words).flat_map(|w| (2..=words).map(move |v| row(&[1, v, w], -30, 0))).take(triples);
    ones.chain(twos).chain(threes).collect()
}

/// The complete list may have 65,535 rows and not one more; that is tried before the length of the second table.
#[test]
fn too_many_rows() {
    let mut random = Random::new(5);
    let fixed = 300 + 299;
    let half = (MOST_ROWS - fixed) / 2;
    let (refusal, count, _) = agreed(&mut random, &table(&wide(300, half)), 8 * MOST_ROWS);
    assert_eq!((refusal, count as usize), (ACCEPTED, fixed + 2 * half));
    assert_eq!(MOST_ROWS - (fixed + 2 * half), 0);
    assert_eq!(agreed(&mut random, &table(&wide(300, half + 1)), 8 * MOST_ROWS).0, (1, 0));
    assert_eq!(agreed(&mut random, &table(&wide(300, half + 1)), 0).0, (1, 0));
    assert_eq!(agreed(&mut random, &table(&wide(300, half)), 8 * MOST_ROWS - 1).0, (15, 0));
}

/// Random pruned lists: accepted, of the same order, with exactly the rows that are wanting, and with the points of the lent list after any history.
#[test]
fn pruned_lists() {
    let mut random = Random::new(6);
    let mut added = 0;
    for i in 0..3_000 {
        let small = lists::small(&mut random, 1 + i % 5);
        let list = mild(&mut random, &small);
        let list = pruned(&mut random, &list, 10 * (i % 10));
        let complete = filled(&mut random, &list);
        assert_eq!(verdict(&table(&complete)), ACCEPTED);
        assert_eq!(backoff::check(&table(&complete)).number, 0);
        assert_eq!(complete.last().map(|row| row.words.len()), list.last().map(|row| row.words.len()));
        see_rows(&list, &complete);
        see_points(&mut random, &list, &complete);
        assert_eq!(filled(&mut random, &complete), complete, "nothing is added twice");
        added += complete.len() - list.len();
    }
    assert!(added > 3_000, "{added}");
}

/// "Each absent row of two or more words that is some listed row without its first words is added, and no other"; b of these is 0.
fn see_rows(list: &[Row], complete: &[Row]) {
    let listed: BTreeSet<&[i32]> = list.iter().map(|row| &row.words[..]).collect();
    let suffixes = list.iter().flat_map(|row| (1..row.words.len()).map(|first| &row.words[first..])).filter(|words| words.len() >= 2);
    let wanted: BTreeSet<&[i32]> = suffixes.chain(listed.iter().copied()).collect();
    assert!(complete.iter().map(|row| &row.words[..]).collect::<BTreeSet<_>>() == wanted && complete.len() == wanted.len());
    for row in complete {
        match list.iter().find(|old| old.words == row.words) {
            Some(old) => assert_eq!(row, old),
            None => assert_eq!(row.b, 0),
        }
    }
}

/// The rule's points over both lists, and those of runs over the filled list's array.
fn see_points(random: &mut Random, list: &[Row], complete: &[Row]) {
    let (before, after) = (Rule::new(list), Rule::new(complete));
    let words = ended_text(random, list, 12, 5);
    let slots = slots_used(&place(complete));
    let (mut base, mut check, mut work) = (vec![0; slots], vec![0; slots], vec![0; complete.len()]);
    assert_eq!(backoff::build(&table(complete), &mut base, &mut check, &mut work).number, 0);
    let (mut state, mut points, mut lengths) = ([0; 9], [0; 12], [0; 12]);
    assert_eq!(backoff::start(&base, &check, &mut state).number, 0);
    assert_eq!(backoff::run(&base, &check, &mut state, &words, &mut points, &mut lengths).number, 0);
    let mut preceding = vec![2];
    for (&word, points) in words.iter().zip(points) {
        let (old, new) = (before.score(&preceding, word), after.score(&preceding, word));
        assert_eq!((old.points, old.unknown), (new.points, new.unknown), "{word} after {preceding:?}");
        assert!(old.matched <= new.matched, "matched lengths may grow");
        assert_eq!(points, old.points);
        preceding.push(word);
    }
}

/// Pruned lists of any numbers: 5 is met, and where it is not the points are the same.
#[test]
fn any_numbers() {
    let mut random = Random::new(7);
    let mut met = [0; 10];
    for i in 0..3_000 {
        let list = lists::small(&mut random, 1 + i % 5);
        let list = pruned(&mut random, &list, 30);
        let (refusal, count, all) = agreed(&mut random, &table(&list), 32 * list.len());
        met[refusal.0 as usize] += 1;
        if refusal == ACCEPTED {
            see_points(&mut random, &list, &rows(&all[..8 * count as usize]));
        }
    }
    assert!(met[0] > 0 && met[5] > 0 && met[0] + met[5] == 3_000, "{met:?}");
}

/// Damaged lists, complete and pruned ones.
#[test]
fn damaged_lists() {
    let mut random = Random::new(8);
    let mut met = [0; 16];
    for i in 0..500 {
        let list = lists::small(&mut random, 1 + i % 5);
        let list = if i % 2 == 0 { list } else { pruned(&mut random, &list, 30) };
        let cells: Vec<Cells> = list.iter().map(|row| row.cells()).collect();
        for (_, damage) in damage::kinds() {
            let mut damaged = cells.clone();
            let row = random.below(cells.len());
            damage(&mut random, &mut damaged, row);
            let size = random.pick(&[0, 8 * list.len() - 1, 8 * list.len(), 32 * list.len()]);
            met[agreed(&mut random, &damaged.concat(), size).0 .0 as usize] += 1;
        }
    }
    assert!([0, 3, 4, 5, 6, 7, 8, 9, 15].iter().all(|&number| met[number] > 0), "{met:?}");
}

/// The order of the refusals: 1 of the table, the rows, 9, then 5, then 1 of the result, then 15.
#[test]
fn order_of_refusals() {
    let mut random = Random::new(9);
    // 1 v w for every v and w of 260 words needs too many rows; b of 2 makes the p of 2 w positive.
    let mut list = wide(260, MOST_ROWS / 2 + 2_000);
    let number = |random: &mut Random, cells: &[i32]| agreed(random, cells, 7).0;
    assert_eq!(number(&mut random, &table(&list)), (1, 0));
    list[1].b = 11;
    let first = list.iter().position(|row| row.words.len() == 3).unwrap();
    assert_eq!(number(&mut random, &table(&list)), (5, first as u32 + 1));
    let without_marks: Vec<Row> = list.iter().filter(|row| !row.words.contains(&3)).cloned().collect();
    assert_eq!(number(&mut random, &table(&without_marks)), (9, 0));
    let mut cells = table(&list);
    cells[8 * (first + 1) + 7] = 1;
    assert_eq!(number(&mut random, &cells), (6, first as u32 + 2));
    assert_eq!(number(&mut random, &cells[1..]), (1, 0));
    assert_eq!(number(&mut random, &[]), (1, 0));
    assert_eq!(number(&mut random, &vec![0; 8 * (MOST_ROWS + 1)]), (1, 0));
}
