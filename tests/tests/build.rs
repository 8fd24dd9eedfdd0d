//! `backoff_build` against the second builder: the answer, and BASE, CHECK and work number for number.

use tests::damage::{self, Cells};
use tests::guard::{Guard, Guarded};
use tests::lists::{self, table};
use tests::random::Random;
use tests::reference::array::MOST_SLOTS;
use tests::reference::build::{build, place, slots_used, FREE};
use tests::reference::list::{Refusal, Row, ACCEPTED, MOST_ROWS};

/// The lengths of BASE, CHECK and work.
#[derive(Clone, Copy, Debug)]
struct Lengths {
    base: usize,
    check: usize,
    work: usize,
}

impl Lengths {
    fn of(slots: usize, work: usize) -> Lengths {
        Lengths { base: slots, check: slots, work }
    }
}

/// Builds with both into slices of random numbers; gives what both agree on: the answer, BASE, CHECK and work.
fn agreed(random: &mut Random, cells: &[i32], lengths: Lengths) -> (Refusal, Vec<i32>, Vec<i32>, Vec<u32>) {
    let mut base: Vec<i32> = (0..lengths.base).map(|_| random.bits() as i32).collect();
    let mut check: Vec<i32> = (0..lengths.check).map(|_| random.bits() as i32).collect();
    let mut work: Vec<u32> = (0..lengths.work).map(|_| random.bits() as u32).collect();

    let mut lent_cells = Guarded::new(cells);
    let (mut lent_base, mut lent_check, mut lent_work) = (Guarded::new(&base), Guarded::new(&check), Guarded::new(&work));
    let status = backoff::build(lent_cells.lend(), lent_base.lend(), lent_check.lend(), lent_work.lend());
    let refusal = (status.number, status.place);
    assert!(lent_cells.back() == cells, "the lent list was written");
    if (1..=9).contains(&refusal.0) {
        let untouched = lent_base.back() == base && lent_check.back() == check && lent_work.back() == work;
        assert!(untouched, "written before {refusal:?}");
    }

    assert_eq!(refusal, build(cells, &mut base, &mut check, &mut work), "{lengths:?} {:?}", first_rows(cells));
    assert_same("BASE", cells, lent_base.back(), &base);
    assert_same("CHECK", cells, lent_check.back(), &check);
    assert_same("work", cells, lent_work.back(), &work);
    (refusal, base, check, work)
}

fn assert_same<T: Guard + std::fmt::Debug>(name: &str, cells: &[i32], ours: &[T], second: &[T]) {
    if let Some(i) = (0..second.len()).find(|&i| ours[i] != second[i]) {
        panic!("{name}[{i}] is {:?}, by the second builder {:?}: {:?}", ours[i], second[i], first_rows(cells));
    }
}

fn first_rows(cells: &[i32]) -> &[i32] {
    &cells[..cells.len().min(400)]
}

fn needed(rows: &[Row]) -> usize {
    slots_used(&place(rows))
}

/// The sample's array as worked by hand, K7 (N = 20 builds) and K8 (row 2 4: node in slot 12, marker in 16: CHECK −4001, BASE −1999). Row 2 4 5, the longest,
/// has its node in slot 19 and no marker: BASE there is −1001, and slot 18 is free.
#[test]
fn sample_array() {
    let cells = table(&lists::sample());
    let (refusal, base, check, work) = agreed(&mut Random::new(1), &cells, Lengths::of(20, 9));
    assert_eq!(refusal, ACCEPTED);
    assert_eq!(base, [1, 9, 7, 8, 9, 10, 11, 0, -11999, 2, -7997, -3997, 16, 0, 13, 17, -1999, 2, 0, -1001]);
    let expected = [27, -1, 0, 0, 0, 0, 0, -20001, -990001, -10001, -6001, -9001, 5, -1501, 4, 6, -4001, -3001, FREE, 15];
    assert_eq!(check, expected);
    assert_eq!(work, [2, 3, 4, 5, 6, 14, 12, 15, 19]);
}

/// K7: N = 19 gives 10; all slots are free then, the rows' work items 0 and those past the rows as they were.
#[test]
fn k7_one_slot_less() {
    let cells = table(&lists::sample());
    let lengths = Lengths { work: 12, ..Lengths::of(19, 9) };
    let (refusal, base, check, work) = agreed(&mut Random::new(1), &cells, lengths);
    assert_eq!(refusal, (10, 0));
    assert!(base.iter().all(|&cell| cell == 0) && check.iter().all(|&cell| cell == FREE));
    assert!(work[..9].iter().all(|&item| item == 0) && work[9..].iter().all(|&item| item != 0));
}

/// The answer over so many slots to the list of these rows' words, the slots of the rows' nodes, and the BASE of each: its d, or −2 where it has n words.
fn placed(words: &[&[i32]], slots: usize) -> (Refusal, Vec<u32>, Vec<i32>) {
    let rows: Vec<Row> = words.iter().map(|words| Row { words: words.to_vec(), p: -1, b: 0 }).collect();
    let (refusal, base, _, work) = agreed(&mut Random::new(9), &table(&rows), Lengths::of(slots, rows.len()));
    let ds = work.iter().map(|&slot| base[slot as usize]).collect();
    (refusal, work, ds)
}

/// Children behind their node's d, worked by hand: once the root and row 1 are placed, slots 1 to 5, 7 and 11 are taken. Row 2 has words 1 and 3 in
/// front. At d = 6 slots 5 and 7 are taken, at d = 8 slots 7 and 11; at d = 9 slots 8 and 6, behind, are free. So are 10 and 12, ahead, which are
/// tried later.
#[test]
fn children_behind() {
    let words: [&[i32]; 7] = [&[1], &[2], &[3], &[6], &[6, 1], &[1, 2], &[3, 2]];
    assert_eq!(placed(&words, 13), (ACCEPTED, vec![2, 3, 4, 7, 11, 8, 6], vec![5, 9, 10, 12, -2, -2, -2]));
    assert_eq!(placed(&words, 12).0, (10, 0));
}

/// "Slots ≥ N counting as free here": row 2 has its children, 1 and 6, ahead of 8 in 9 and 14, the smallest d that fits. In 14 slots this leaves the
/// array and gives 10, though with 12 for its d they would lie behind it, in 11 and 6, and all would fit.
#[test]
fn slots_past_the_end_count_as_free() {
    let words: [&[i32]; 6] = [&[1], &[2], &[3], &[6], &[1, 2], &[6, 2]];
    assert_eq!(placed(&words, 15), (ACCEPTED, vec![2, 3, 4, 7, 9, 14], vec![5, 8, 6, 10, -2, -2]));
    assert_eq!(placed(&words, 14).0, (10, 0));
}

/// "All children of a node lie on one side": row 2 has words 1 and 2 in front, and at d = 8 slot 6 behind is free, but slot 7 is not.
#[test]
fn children_on_one_side() {
    let words: [&[i32]; 6] = [&[1], &[2], &[3], &[2, 1], &[1, 2], &[2, 2]];
    assert_eq!(placed(&words, 11), (ACCEPTED, vec![2, 3, 4, 7, 9, 10], vec![5, 8, 6, -2, -2, -2]));
}

/// "All ≥ 1": at d = 5 the child for word 5 would lie in slot 0 behind; it lies ahead.
#[test]
fn no_child_in_slot_0() {
    let words: [&[i32]; 5] = [&[1], &[2], &[3], &[5], &[5, 1]];
    assert_eq!(placed(&words, 11), (ACCEPTED, vec![2, 3, 4, 6, 10], vec![5, 7, 8, 9, -2]));
}

/// n = 1: no row has a marker. The root keeps its own, in slot 1, so that word w is in slot w + 1 and no other slot is taken.
#[test]
fn one_word_rows_alone() {
    assert_eq!(placed(&[&[1], &[2], &[3]], 5), (ACCEPTED, vec![2, 3, 4], vec![-2; 3]));
    assert_eq!(placed(&[&[1], &[2], &[3]], 4).0, (10, 0));
    let mut random = Random::new(10);
    let cells = table(&lists::first_words(5));
    let (refusal, base, check, work) = agreed(&mut random, &cells, Lengths::of(9, 5));
    assert_eq!((refusal, &work[..]), (ACCEPTED, &[2, 3, 4, 5, 6][..]));
    assert_eq!((base, check), (vec![1, 5, -2, -3, -4, -5, -6, 0, 0], vec![25, -1, 0, 0, 0, 0, 0, FREE, FREE]));
    let all = table(&lists::all_words(&mut random));
    assert_eq!(agreed(&mut random, &all, Lengths::of(MOST_ROWS + 2, MOST_ROWS)).0, ACCEPTED);
    assert_eq!(agreed(&mut random, &all, Lengths::of(MOST_ROWS + 1, MOST_ROWS)).0, (10, 0));
}

/// p of a longest row at the ends of its range, for each order: BASE of its node is p − 1, so −1 and −99,000,001, and CHECK its parent's slot.
#[test]
fn longest_rows_hold_p() {
    for order in 1..=5 {
        for p in [0, -1, -98_999_999, -99_000_000] {
            let rows = lists::twos(order, p);
            let (refusal, base, check, work) = agreed(&mut Random::new(11), &table(&rows), Lengths::of(40, rows.len()));
            // From the root by word 2 as often as there are words.
            let path = [&[0, work[1]], &work[3..]].concat();
            let node = path[order] as usize;
            assert_eq!((refusal, base[node], check[node]), (ACCEPTED, p - 1, path[order - 1] as i32), "{order} {p}");
        }
    }
}

/// How many slots are not free: two for the root and for each row, but one for a row of n words.
fn slots_in_use(rows: &[Row]) -> usize {
    let order = rows[rows.len() - 1].words.len();
    2 * (rows.len() + 1) - rows.iter().filter(|row| row.words.len() == order).count()
}

/// Random lists with N exactly enough, one less, and more than enough; many lay children behind. As many slots are in use as rows and markers ask for.
#[test]
fn random_lists() {
    let mut random = Random::new(2);
    let mut behind = 0;
    for i in 0..1_500 {
        let rows = lists::small_or_dense(&mut random, 1 + i % 5);
        let (cells, slots) = (table(&rows), needed(&rows));
        let work = rows.len() + random.below(3);
        let (refusal, base, check, _) = agreed(&mut random, &cells, Lengths::of(slots, work));
        assert_eq!(refusal, ACCEPTED);
        assert_eq!(check.iter().filter(|&&cell| cell != FREE).count(), slots_in_use(&rows));
        behind += (1..slots).any(|slot| check[slot] >= 0 && (slot as i32) < base[check[slot] as usize]) as usize;
        assert_eq!(agreed(&mut random, &cells, Lengths::of(slots - 1, work)).0, (10, 0));
        let more = slots + random.below(100);
        assert_eq!(agreed(&mut random, &cells, Lengths::of(more, work)).0, ACCEPTED);
    }
    assert!(behind > 300, "{behind}");
}

/// A marker's BASE for each pair of e and f: no row on either side, one in front, one behind, both; and b at its limits. The rows of two words, the longest,
/// have none: BASE of their nodes is p − 1.
#[test]
fn left_extension_in_markers() {
    let row = |words: &[i32], b| Row { words: words.to_vec(), p: -1, b };
    let (least, largest) = (-99_000_000, 99_000_000);
    // Row 4 4 puts a word in front of 4 and goes on after it.
    let rows =
        [row(&[1], largest), row(&[2], largest), row(&[3], largest), row(&[4], least), row(&[5], least), row(&[2, 3], 0), row(&[4, 4], 0)];
    let (refusal, base, check, work) = agreed(&mut Random::new(8), &table(&rows), Lengths::of(40, 7));
    assert_eq!((refusal, check[0], base[1]), (ACCEPTED, 2 + 24, 7));
    let bases: Vec<i32> = work.iter().map(|&slot| base[slot as usize]).collect();
    let markers: Vec<i32> = bases[..5].iter().map(|&d| base[d as usize]).collect();
    assert_eq!(markers, [396_000_000, 396_000_001, 396_000_002, -395_999_997, -396_000_000]);
    assert_eq!(bases[5..], [-2, -2]);
}

/// Every N from 0 to 40 on the sample, and the largest ones: 2 out of range, 10 below 20, accepted from there.
#[test]
fn all_lengths() {
    let mut random = Random::new(3);
    let cells = table(&lists::sample());
    let mut number = |slots| agreed(&mut random, &cells, Lengths::of(slots, 9)).0 .0;
    for slots in 0..=40 {
        let expected = match slots {
            0..=1 => 2,
            2..=19 => 10,
            _ => 0,
        };
        assert_eq!(number(slots), expected, "N = {slots}");
    }
    assert_eq!(number(MOST_SLOTS), 0);
    assert_eq!(number(MOST_SLOTS + 1), 2);
}

/// BASE and CHECK of differing lengths, and a work slice shorter than the rows, give 2.
#[test]
fn lengths_that_do_not_fit() {
    let mut random = Random::new(4);
    let cells = table(&lists::sample());
    for (base, check) in [(20, 21), (21, 20), (0, 20), (20, 0), (2, 3), (MOST_SLOTS, MOST_SLOTS + 1)] {
        assert_eq!(agreed(&mut random, &cells, Lengths { base, check, work: 9 }).0, (2, 0), "{base} {check}");
    }
    for work in 0..=12 {
        let expected = if work < 9 { (2, 0) } else { ACCEPTED };
        assert_eq!(agreed(&mut random, &cells, Lengths::of(20, work)).0, expected, "work of {work}");
    }
}

/// The order of the refusals: 1 before 2, 2 before the rows, the rows before 10.
#[test]
fn order_of_refusals() {
    let mut random = Random::new(5);
    let mut cells = table(&lists::sample());
    cells[0] = 9;
    assert_eq!(agreed(&mut random, &cells[..71], Lengths { base: 1, check: 2, work: 0 }).0, (1, 0));
    assert_eq!(agreed(&mut random, &cells, Lengths { base: 1, check: 2, work: 0 }).0, (2, 0));
    assert_eq!(agreed(&mut random, &cells, Lengths::of(20, 8)).0, (2, 0));
    assert_eq!(agreed(&mut random, &cells, Lengths::of(2, 9)).0, (3, 1));
    cells = table(&lists::sample());
    cells.drain(..8);
    assert_eq!(agreed(&mut random, &cells, Lengths::of(2, 9)).0, (9, 0));
}

/// Damaged lists are refused as the list check refuses them, and nothing is written.
#[test]
fn damaged_lists() {
    let mut random = Random::new(6);
    let mut met = [0; 11];
    for i in 0..300 {
        let cells: Vec<Cells> = lists::small(&mut random, 1 + i % 5).iter().map(|row| row.cells()).collect();
        for (_, damage) in damage::kinds() {
            let mut damaged = cells.clone();
            let row = random.below(cells.len());
            damage(&mut random, &mut damaged, row);
            let work = damaged.len();
            let slots = random.pick(&[30, 100_000]);
            let (refusal, ..) = agreed(&mut random, &damaged.concat(), Lengths::of(slots, work));
            met[refusal.0 as usize] += 1;
        }
    }
    assert!([0, 3, 4, 5, 6, 7, 8, 9, 10].iter().all(|&number| met[number] > 0), "{met:?}");
}

/// The longest lists, in the largest array and in one exactly large enough.
#[test]
fn longest_lists() {
    let mut random = Random::new(7);
    let longest = [
        lists::all_words(&mut random),
        lists::uniform(&mut random, 5, 65_535, MOST_ROWS),
        lists::natural(&mut random, 5, 30_000, MOST_ROWS),
        lists::natural(&mut random, 3, 65_535, MOST_ROWS),
    ];
    for rows in longest {
        let (cells, slots) = (table(&rows), needed(&rows));
        for (slots, expected) in [(MOST_SLOTS, ACCEPTED), (slots, ACCEPTED), (slots - 1, (10, 0))] {
            assert_eq!(agreed(&mut random, &cells, Lengths::of(slots, MOST_ROWS)).0, expected, "N = {slots}");
        }
    }
}
