//! `backoff_check` against the second checker: exact number and place for every list.

use tests::damage::{self, Cells};
use tests::guard::Guarded;
use tests::lists::{self, table};
use tests::random::Random;
use tests::reference::list::{verdict, Refusal, ACCEPTED, MOST_ROWS};

/// The call's number and place; the list that it was lent, and what lies around it, must be as they were.
fn check(table: &[i32]) -> Refusal {
    let mut lent = Guarded::new(table);
    let status = backoff::check(lent.lend());
    assert!(lent.back() == table, "the lent list was written");
    (status.number, status.place)
}

/// The answer that the call and the second checker agree on.
fn agreed(table: &[i32], name: &str) -> Refusal {
    let answer = check(table);
    assert_eq!(answer, verdict(table), "{name}: {} rows {:?}", table.len() / 8, &table[..table.len().min(400)]);
    answer
}

/// The sample with one number of a row (from 1) changed.
fn sample_with(row: usize, column: usize, number: i32) -> Vec<i32> {
    let mut cells = table(&lists::sample());
    cells[(row - 1) * 8 + column] = number;
    cells
}

/// The sample list of document 01 is accepted.
#[test]
fn sample_is_accepted() {
    assert_eq!(agreed(&table(&lists::sample()), "sample"), ACCEPTED);
}

/// K9: p = 0 is accepted in row 1, p = 1 gives 5 at row 1.
#[test]
fn k9_log_probability_of_the_first_row() {
    assert_eq!(agreed(&sample_with(1, 6, 0), "p = 0"), ACCEPTED);
    assert_eq!(agreed(&sample_with(1, 6, 1), "p = 1"), (5, 1));
}

/// The run-only cases of document 01: word 65,536 gives 4, b 99,000,001 gives 6.
#[test]
fn just_above_the_limits() {
    assert_eq!(agreed(&sample_with(5, 1, 65_536), "word"), (4, 5));
    assert_eq!(agreed(&sample_with(9, 3, 65_536), "word"), (4, 9));
    assert_eq!(agreed(&sample_with(4, 7, 99_000_001), "b"), (6, 4));
}

/// Changes of single numbers in the sample, with the answers worked by hand.
#[test]
fn sample_changed_by_hand() {
    let cases: [(usize, usize, i32, Refusal); 23] = [
        (1, 0, 0, (3, 1)),
        (5, 0, 6, (3, 5)),
        (9, 0, 0, (3, 9)),
        (1, 0, 2, (4, 1)),
        (3, 1, 0, (4, 3)),
        (5, 1, 65_535, (8, 6)),
        (9, 4, 1, (4, 9)),
        (7, 6, -99_000_000, ACCEPTED),
        (7, 6, -99_000_001, (5, 7)),
        (8, 7, 99_000_000, ACCEPTED),
        (8, 7, -99_000_000, ACCEPTED),
        (8, 7, -99_000_001, (6, 8)),
        (9, 7, 1, (6, 9)),
        (2, 1, 1, (7, 2)),
        (4, 1, 3, (7, 4)),
        (8, 2, 3, (7, 8)),
        (8, 2, 4, (8, 9)),
        (6, 1, 6, (8, 6)),
        (9, 1, 5, (8, 9)),
        (9, 3, 4, (8, 9)),
        (1, 1, 4, (7, 2)),
        (9, 0, 2, (6, 7)),
        (5, 1, 1, (7, 5)),
    ];
    for (row, column, number, expected) in cases {
        assert_eq!(agreed(&sample_with(row, column, number), "changed"), expected, "row {row} column {column} = {number}");
    }
}

/// The order is the last row's m even where that row is the faulty one: a one-word row at the end makes row 2's b the first fault.
#[test]
fn order_is_that_of_the_last_row() {
    let mut cells = table(&lists::sample());
    cells.extend([1, 9, 0, 0, 0, 0, 0, 0]);
    assert_eq!(agreed(&cells, "one-word row at the end"), (6, 2));
}

/// Each of the words 1, 2 and 3 needs its row, whatever else is there.
#[test]
fn each_mark_needs_its_row() {
    for mark in lists::MARKS {
        let mut rows = lists::sample();
        rows.retain(|row| !row.words.contains(&mark));
        assert_eq!(agreed(&table(&rows), "mark removed"), (9, 0), "mark {mark}");
    }
}

/// A length of 0, no multiple of 8, or above 65,535 rows gives 1 before anything else is looked at.
#[test]
fn lengths() {
    assert_eq!(agreed(&[], "empty"), (1, 0));
    let sample = table(&lists::sample());
    for length in 1..=sample.len() {
        let (number, _) = agreed(&sample[..length], "cut");
        assert_eq!(number == 1, length % 8 != 0, "length {length}");
    }
    let mut longest = table(&lists::all_words(&mut Random::new(1)));
    assert_eq!(agreed(&longest, "65,535 rows"), ACCEPTED);
    for _ in 0..7 {
        longest.push(0);
        assert_eq!(agreed(&longest, "65,535 rows and a bit"), (1, 0));
    }
    longest.push(0);
    assert_eq!(agreed(&longest, "65,536 rows"), (1, 0));
    longest[0] = 9;
    assert_eq!(agreed(&longest, "65,536 rows, the first of them bad"), (1, 0));
}

/// Random accepted lists of order 1 to 5 are accepted.
#[test]
fn random_accepted_lists() {
    let mut random = Random::new(2);
    for i in 0..5_000 {
        let order = 1 + i % 5;
        let cells = table(&lists::small(&mut random, order));
        assert_eq!(cells[cells.len() - 8], order as i32, "the generator gives the order asked for");
        assert_eq!(agreed(&cells, "accepted"), ACCEPTED);
    }
}

/// The longest lists, with words up to 65,535, are accepted; damage to them is found at its row.
#[test]
fn longest_lists() {
    let mut random = Random::new(3);
    for order in 2..=5 {
        for rows in [lists::uniform(&mut random, order, 65_535, MOST_ROWS), lists::natural(&mut random, order, 30_000, MOST_ROWS)] {
            let mut cells = table(&rows);
            assert_eq!(cells.len(), 8 * MOST_ROWS);
            assert_eq!(agreed(&cells, "longest"), ACCEPTED);
            let row = random.below(MOST_ROWS);
            cells[8 * row + 6] = 1;
            assert_eq!(agreed(&cells, "longest, p = 1"), (5, row as u32 + 1));
        }
    }
}

/// How often each number was met at the first row, in the middle, at the last row, and with place 0.
#[derive(Default)]
struct Met([[usize; 4]; 10]);

impl Met {
    fn add(&mut self, (number, place): Refusal, rows: usize) {
        let at = match place as usize {
            0 => 3,
            1 => 0,
            p if p == rows => 2,
            _ => 1,
        };
        self.0[number as usize][at] += 1;
    }

    fn assert_all_rows(&self) {
        for number in [3, 4, 5, 6, 8] {
            assert!(self.0[number][..3].iter().all(|&n| n > 0), "{number} was not met at every place: {:?}", self.0[number]);
        }
        // No row is before the first one, so 7 cannot be met there.
        assert!(self.0[7][0] == 0 && self.0[7][1] > 0 && self.0[7][2] > 0, "7: {:?}", self.0[7]);
        assert!(self.0[9][3] > 0 && self.0[0][3] > 0, "9 or an accepted list was not met");
    }
}

/// Every kind of damage at first, middle and last rows: the number and place of the second checker, and each of 3 to 9 is met.
#[test]
fn damaged_lists() {
    let mut random = Random::new(4);
    let mut met = Met::default();
    for i in 0..2_000 {
        let cells: Vec<Cells> = lists::small(&mut random, 1 + i % 5).iter().map(|row| row.cells()).collect();
        for row in [0, cells.len() / 2, cells.len() - 1, random.below(cells.len())] {
            for (name, damage) in damage::kinds() {
                let mut damaged = cells.clone();
                damage(&mut random, &mut damaged, row);
                met.add(agreed(&damaged.concat(), name), damaged.len());
            }
        }
    }
    met.assert_all_rows();
}

/// Several faults in one list: the first faulty row decides, and in it the lowest number.
#[test]
fn several_faults_at_once() {
    let mut random = Random::new(5);
    for i in 0..10_000 {
        let mut cells: Vec<Cells> = lists::small(&mut random, 1 + i % 5).iter().map(|row| row.cells()).collect();
        let row = random.below(cells.len());
        for (_, damage) in damage::OUT_OF_RANGE.into_iter().skip(random.below(5)) {
            damage(&mut random, &mut cells, row);
        }
        let other = random.below(cells.len());
        cells[other][6] = 1;
        assert_eq!(agreed(&cells.concat(), "several").1 as usize, row.min(other) + 1);
    }
}

/// Tables of any bits never trap and get the second checker's answer.
#[test]
fn random_bits() {
    let mut random = Random::new(6);
    for _ in 0..20_000 {
        let cells: Vec<i32> = (0..random.below(100)).map(|_| random.bits() as i32).collect();
        agreed(&cells, "bits");
    }
}

/// Tables of small numbers, near to rows of few words: the order and the shorter rows decide.
#[test]
fn random_small_numbers() {
    let mut random = Random::new(7);
    let mut met = Met::default();
    for _ in 0..50_000 {
        let rows = 1 + random.below(8);
        let mut cells: Vec<Cells> = (0..rows).map(|_| near_row(&mut random)).collect();
        if random.chance(80) {
            cells.sort_by_key(|c| (c[0], c[5], c[4], c[3], c[2], c[1]));
        }
        met.add(agreed(&cells.concat(), "small numbers"), rows);
    }
    assert!(met.0[7][1] > 100 && met.0[8][1] > 100 && met.0[9][3] > 100 && met.0[0][3] > 0);
}

/// Eight numbers that are mostly those of a row.
fn near_row(random: &mut Random) -> Cells {
    let m = random.pick(&[1, 1, 1, 1, 2, 2, 3]);
    let mut cells = [0; 8];
    cells[0] = m;
    for word in &mut cells[1..=m as usize] {
        *word = random.between(1, 3);
    }
    if random.chance(2) {
        cells[random.below(8)] = random.between(-1, 6);
    }
    cells
}
