//! Accepted lists: the sample of document 01 and random ones.
//!
//! A list is accepted only if every part of a row's words is a row too, so the random lists are the parts of random sentences.

use crate::random::Random;
use crate::reference::list::{Row, LARGEST_B, LARGEST_WORD, LOWEST_P, MOST_ROWS};
use std::collections::BTreeSet;

pub const MARKS: [i32; 3] = [1, 2, 3];

/// The eight numbers of each row.
pub fn table(rows: &[Row]) -> Vec<i32> {
    rows.iter().flat_map(Row::cells).collect()
}

/// The sample list of document 01.
pub fn sample() -> Vec<Row> {
    let row = |words: &[i32], p, b| Row { words: words.to_vec(), p, b };
    vec![
        row(&[1], -20_000, 0),
        row(&[2], -990_000, -3_000),
        row(&[3], -10_000, 0),
        row(&[4], -6_000, -2_000),
        row(&[5], -9_000, -1_000),
        row(&[5, 3], -1_500, 0),
        row(&[2, 4], -4_000, -500),
        row(&[4, 5], -3_000, 0),
        row(&[2, 4, 5], -1_000, 0),
    ]
}

/// The list of order 1 that has the words from 1 to this one, with p as many points below 0 as the word.
pub fn first_words(last: i32) -> Vec<Row> {
    (1..=last).map(|word| Row { words: vec![word], p: -word, b: 0 }).collect()
}

/// The list that has the words 1 to 3 and a row of 2s for each length up to the order, all with this p.
pub fn twos(order: usize, p: i32) -> Vec<Row> {
    let words = MARKS.into_iter().map(|mark| vec![mark]).chain((2..=order).map(|length| vec![2; length]));
    words.map(|words| Row { words, p, b: 0 }).collect()
}

/// The longest list of order 1: every word has its row.
pub fn all_words(random: &mut Random) -> Vec<Row> {
    let row = |w| Row { words: vec![w], p: log_probability(random), b: 0 };
    (1..=LARGEST_WORD).map(row).collect()
}

/// A list of up to a few hundred rows, of the order given.
pub fn small(random: &mut Random, order: usize) -> Vec<Row> {
    let words = vocabulary(random);
    let mut left = random.below(20);
    let sentence = |random: &mut Random| {
        left = left.checked_sub(1)?;
        let length = 1 + random.below(order + 2);
        Some((0..length).map(|_| random.pick(&words)).collect())
    };
    let first: Vec<i32> = (0..order).map(|_| random.pick(&words)).collect();
    from_sentences(random, order, MOST_ROWS, first, sentence)
}

/// A list of few words and many rows, so that nodes have many children and often lay them behind.
fn dense(random: &mut Random, order: usize) -> Vec<Row> {
    let mut words = MARKS.to_vec();
    words.extend((0..2 + random.below(8)).map(|_| random.between(4, 30)));
    let mut left = 10 + random.below(60);
    let sentence = |random: &mut Random| {
        left = left.checked_sub(1)?;
        Some((0..order + 2).map(|_| random.pick(&words)).collect())
    };
    from_sentences(random, order, MOST_ROWS, words.clone(), sentence)
}

pub fn small_or_dense(random: &mut Random, order: usize) -> Vec<Row> {
    if random.chance(50) {
        small(random, order)
    } else {
        dense(random, order)
    }
}

/// A list of up to 25 rows and words up to 30, whose array is small.
pub fn tiny(random: &mut Random, order: usize) -> Vec<Row> {
    loop {
        let rows = small(random, order);
        if rows.len() <= 25 && rows.iter().all(|row| row.words[0] <= 30) {
            return rows;
        }
    }
}

/// A list of an order with so many words besides `<s>` and `</s>`: word 1, and others that leave gaps between them.
pub fn with_usable(random: &mut Random, order: usize, usable: usize, sentences: usize) -> Vec<Row> {
    let highest = random.pick(&[4 + 2 * usable as i32, 300, LARGEST_WORD]);
    let mut words = BTreeSet::from(MARKS);
    while words.len() < MARKS.len() + usable - 1 {
        words.insert(random.between(4, highest));
    }
    of_words(random, order, &words.into_iter().collect::<Vec<i32>>(), sentences)
}

/// Such a list of few words, whose array is small.
pub fn tiny_usable(random: &mut Random, order: usize) -> Vec<Row> {
    loop {
        let (usable, sentences) = (1 + random.below(4), random.below(3));
        let rows = with_usable(random, order, usable, sentences);
        if rows.len() <= 25 && rows.iter().all(|row| row.words[0] <= 30) {
            return rows;
        }
    }
}

/// A list of an order with rows for the marks and each of these words, and for the parts of so many random sentences of them.
pub fn of_words(random: &mut Random, order: usize, words: &[i32], sentences: usize) -> Vec<Row> {
    let first = (0..order).map(|_| random.pick(words)).collect();
    let (mut alone, mut left) = (words.iter(), sentences);
    let sentence = |random: &mut Random| {
        if let Some(&word) = alone.next() {
            return Some(vec![word]);
        }
        left = left.checked_sub(1)?;
        Some((0..order + 2).map(|_| random.pick(words)).collect())
    };
    from_sentences(random, order, MOST_ROWS, first, sentence)
}

/// A list of the given number of rows whose words are all equally frequent.
pub fn uniform(random: &mut Random, order: usize, words: i32, rows: usize) -> Vec<Row> {
    let sentence = |random: &mut Random| Some((0..order).map(|_| random.between(1, words)).collect());
    let first = (1..=order as i32).collect();
    from_sentences(random, order, rows, first, sentence)
}

/// A list like natural ones, of the given number of rows: few words are frequent, most are rare, and the rows are those of a text.
pub fn natural(random: &mut Random, order: usize, words: i32, rows: usize) -> Vec<Row> {
    let sentence = |random: &mut Random| Some(natural_sentence(random, words));
    let first = (1..=order as i32).collect();
    from_sentences(random, order, rows, first, sentence)
}

/// A sentence between its marks, its words by Zipf's law.
pub fn natural_sentence(random: &mut Random, words: i32) -> Vec<i32> {
    let length = 5 + random.below(25);
    let mut sentence = vec![2];
    sentence.extend((0..length).map(|_| 3 + random.zipf(words - 3)));
    sentence.push(3);
    sentence
}

/// A pruned list: from the longest rows down to those of two words, each that no kept row continues goes in so many cases of a hundred. Rows without the last
/// word and rows of one word stay, and so does the last row, by which the order is told.
pub fn pruned(random: &mut Random, rows: &[Row], percent: usize) -> Vec<Row> {
    let mut kept: Vec<Row> = Vec::new();
    let mut continued: BTreeSet<Vec<i32>> = BTreeSet::new();
    for row in rows.iter().rev() {
        let needed = row.words.len() == 1 || kept.is_empty() || continued.contains(&row.words);
        if needed || !random.chance(percent) {
            continued.insert(row.words[..row.words.len() - 1].to_vec());
            kept.push(row.clone());
        }
    }
    kept.reverse();
    kept
}

/// The rows with numbers of which five in a row add up to a p in range.
pub fn mild(random: &mut Random, rows: &[Row]) -> Vec<Row> {
    let order = rows.last().map_or(0, |row| row.words.len());
    let points = |row: &Row| Row {
        words: row.words.clone(),
        p: random.between(-20_000_000, -8_000_000),
        b: if row.words.len() == order || random.chance(20) { 0 } else { random.between(-19_000_000, 2_000_000) },
    };
    rows.iter().map(points).collect()
}

/// The rows with few different numbers, so that many totals are equal.
pub fn even(random: &mut Random, rows: &[Row]) -> Vec<Row> {
    let order = rows.last().map_or(0, |row| row.words.len());
    let points = |row: &Row| Row {
        words: row.words.clone(),
        p: -random.between(0, 2),
        b: if row.words.len() == order { 0 } else { random.between(-1, 1) },
    };
    rows.iter().map(points).collect()
}

/// A text over a list: words of its rows, in their order or alone, and words that it may not have.
pub fn text(random: &mut Random, rows: &[Row], length: usize) -> Vec<u32> {
    let mut words = Vec::new();
    while words.len() < length {
        let row = &rows[random.below(rows.len())].words;
        match random.below(10) {
            0 => words.push(random.pick(&[0, 1, 2, 3, 65_535, 65_536, u32::MAX])),
            1 => words.push(random.bits() as u32),
            2..=4 => words.push(row[0] as u32),
            _ => words.extend(row.iter().map(|&word| word as u32)),
        }
    }
    words.truncate(length);
    words
}

/// A text with many sentence ends: each word is 3 in one case of `one_in`.
pub fn ended_text(random: &mut Random, rows: &[Row], length: usize, one_in: usize) -> Vec<u32> {
    let mut words = text(random, rows, length);
    words.iter_mut().for_each(|word| {
        if random.below(one_in) == 0 {
            *word = 3;
        }
    });
    words
}

/// The marks and some further words, the largest among them in one list of four.
fn vocabulary(random: &mut Random) -> Vec<i32> {
    let highest = if random.chance(50) { 20 } else { LARGEST_WORD };
    let mut words = MARKS.to_vec();
    words.extend((0..random.below(30)).map(|_| random.between(4, highest)));
    if random.chance(25) {
        words.push(LARGEST_WORD);
    }
    words
}

/// The list of the parts, up to `order` words long, of the marks, of `first` and of the sentences; at most `most` rows.
fn from_sentences(
    random: &mut Random,
    order: usize,
    most: usize,
    first: Vec<i32>,
    mut sentence: impl FnMut(&mut Random) -> Option<Vec<i32>>,
) -> Vec<Row> {
    let mut parts = BTreeSet::new();
    for mark in MARKS {
        add_parts(&mut parts, &[mark], order, most);
    }
    add_parts(&mut parts, &first, order, most);
    while parts.len() < most {
        let Some(words) = sentence(random) else { break };
        add_parts(&mut parts, &words, order, most);
    }
    with_points(random, parts)
}

/// The number of words and the words newest first: these ascend as the rows do.
pub type Part = (usize, Vec<i32>);

/// Adds the shorter parts first, so that the set is a list's wherever it stops.
pub fn add_parts(parts: &mut BTreeSet<Part>, words: &[i32], order: usize, most: usize) {
    for m in 1..=order.min(words.len()) {
        for part in words.windows(m) {
            if parts.len() == most {
                return;
            }
            parts.insert((m, part.iter().rev().copied().collect()));
        }
    }
}

fn with_points(random: &mut Random, parts: BTreeSet<Part>) -> Vec<Row> {
    let order = parts.last().map_or(0, |part| part.0);
    let row = |(m, newest_first): Part| Row {
        words: newest_first.into_iter().rev().collect(),
        p: log_probability(random),
        b: if m == order { 0 } else { back_off(random) },
    };
    parts.into_iter().map(row).collect()
}

fn log_probability(random: &mut Random) -> i32 {
    match random.below(8) {
        0 => 0,
        1 => LOWEST_P,
        _ => random.between(LOWEST_P, 0),
    }
}

fn back_off(random: &mut Random) -> i32 {
    match random.below(8) {
        0..=2 => 0,
        3 => LARGEST_B,
        4 => -LARGEST_B,
        _ => random.between(-LARGEST_B, LARGEST_B),
    }
}
