//! `backoff_unload` against the second unloader, over any lent arrays.

use tests::arrays::{built, drawn, each_change, spread, Arrays};
use tests::guard::Guarded;
use tests::lists::{self, table};
use tests::random::Random;
use tests::reference::array::{HEAD, MOST_SLOTS};
use tests::reference::build::FREE;
use tests::reference::list::{verdict, Refusal, Row, ACCEPTED, MOST_ROWS};
use tests::reference::unload::unload;

/// The answer, the table and work that the call and the second unloader agree on, with slices of random numbers.
fn agreed(random: &mut Random, arrays: &Arrays, sizes: (usize, usize)) -> (Refusal, Vec<i32>, Vec<u32>) {
    let cells = (0..sizes.0).map(|_| random.bits() as i32).collect();
    let work = (0..sizes.1).map(|_| random.bits() as u32).collect();
    agreed_over(arrays, cells, work)
}

/// The same with given slices.
fn agreed_over(arrays: &Arrays, mut cells: Vec<i32>, mut work: Vec<u32>) -> (Refusal, Vec<i32>, Vec<u32>) {
    let (mut base, mut check) = (Guarded::new(&arrays.base), Guarded::new(&arrays.check));
    let (mut lent_cells, mut lent_work) = (Guarded::new(&cells), Guarded::new(&work));
    let status = backoff::unload(base.lend(), check.lend(), lent_cells.lend(), lent_work.lend());
    let refusal = (status.number, status.place);
    assert!(base.back() == arrays.base && check.back() == arrays.check, "a slice lent for reading was written");
    if [11, 15].contains(&refusal.0) {
        assert!(lent_cells.back() == cells && lent_work.back() == work, "written before {refusal:?}");
    }

    let second = unload(&arrays.base, &arrays.check, &mut cells, &mut work);
    let shown = |arrays: &Arrays| if arrays.slots() > 100 { String::new() } else { format!("{arrays:?}") };
    assert_eq!(refusal, second, "{} slots {}", arrays.slots(), shown(arrays));
    assert!(lent_cells.back() == cells, "table after {refusal:?}: {}", shown(arrays));
    assert!(lent_work.back() == work, "work after {refusal:?}: {}", shown(arrays));
    (refusal, cells, work)
}

/// The same with slices a little longer than the rows that the head tells.
fn agreed_roomy(random: &mut Random, arrays: &Arrays) -> Refusal {
    let rows = arrays.base[1].clamp(0, MOST_ROWS as i32) as usize;
    agreed(random, arrays, (8 * rows + 3, rows + 2)).0
}

/// The sample's list row for row, and the slots of its nodes, in slices exactly long enough.
#[test]
fn sample_comes_back() {
    let rows = lists::sample();
    let (refusal, cells, work) = agreed(&mut Random::new(1), &built(&rows, 0), (72, 9));
    assert_eq!((refusal, cells), (ACCEPTED, table(&rows)));
    assert_eq!(work, [2, 3, 4, 5, 6, 14, 12, 15, 19]);
}

/// After a build the list comes back row for row, and work as the build left it.
#[test]
fn unload_after_build() {
    let mut random = Random::new(2);
    for i in 0..1_500 {
        let rows = lists::small_or_dense(&mut random, 1 + i % 5);
        let cells = table(&rows);
        let spare = random.below(50);
        let mut arrays = built(&rows, spare);
        arrays.base.fill(7);
        arrays.check.fill(7);
        let mut work = vec![7; rows.len()];
        assert_eq!(backoff::build(&cells, &mut arrays.base, &mut arrays.check, &mut work).number, 0);
        assert_eq!(agreed(&mut random, &arrays, (cells.len(), work.len())), (ACCEPTED, cells, work));
    }
}

/// The longest lists, in arrays of 262,144 and of 1,048,576 slots.
#[test]
fn longest_lists() {
    let mut random = Random::new(3);
    let longest = [
        lists::all_words(&mut random),
        lists::uniform(&mut random, 5, 65_535, MOST_ROWS),
        lists::natural(&mut random, 3, 65_535, MOST_ROWS),
    ];
    for rows in longest {
        for slots in [262_144, MOST_SLOTS] {
            let mut arrays = built(&rows, 0);
            arrays.base.resize(slots, 0);
            arrays.check.resize(slots, FREE);
            let (refusal, cells, _) = agreed(&mut random, &arrays, (8 * MOST_ROWS, MOST_ROWS));
            assert!(refusal == ACCEPTED && cells == table(&rows));
        }
    }
}

/// Arrays that another rule placed: the same list, and their own slots in work.
#[test]
fn arrays_of_another_placing() {
    let mut random = Random::new(4);
    for i in 0..1_000 {
        let rows = lists::small(&mut random, 1 + i % 5);
        let arrays = spread(&mut random, &rows);
        let (refusal, cells, work) = agreed(&mut random, &arrays, (8 * rows.len(), rows.len()));
        assert_eq!((refusal, cells), (ACCEPTED, table(&rows)));
        for (row, &slot) in rows.iter().zip(&work) {
            let base = arrays.base[slot as usize];
            let held = if base < 0 { (base, 0) } else { (arrays.check[base as usize], arrays.base[base as usize] >> 2) };
            assert_eq!((held, base < 0), ((row.p - 1, row.b), row.words.len() == arrays.order() as usize));
        }
    }
}

/// The sample with row 4 3 too, where row 3 (slot 4) has its marker in slot 30, and the children for words 4 and 5 lie in these slots, with their markers
/// in 21 and 13.
fn with_children_of_3(slot_of_4: usize, slot_of_5: usize) -> Arrays {
    let mut arrays = built(&lists::sample(), 20);
    (arrays.base[1], arrays.base[4], arrays.check[14]) = (10, 30, FREE);
    (arrays.base[30], arrays.check[30]) = (arrays.base[9], arrays.check[9]);
    (arrays.base[21], arrays.check[21]) = (0, -78);
    (arrays.base[slot_of_4], arrays.check[slot_of_4]) = (21, 4);
    (arrays.base[slot_of_5], arrays.check[slot_of_5]) = (13, 4);
    arrays
}

/// Children come back by their words, on whichever sides of d they lie, with their own slots.
#[test]
fn children_on_either_side() {
    let mut random = Random::new(15);
    let mut rows = lists::sample();
    rows.insert(5, Row { words: vec![4, 3], p: -77, b: 0 });
    for (slot_of_4, slot_of_5) in [(34, 35), (26, 25), (26, 35), (34, 25)] {
        let arrays = with_children_of_3(slot_of_4, slot_of_5);
        let (refusal, cells, work) = agreed(&mut random, &arrays, (80, 10));
        assert_eq!((refusal, cells), (ACCEPTED, table(&rows)));
        assert_eq!(work, [2, 3, 4, 5, 6, slot_of_4 as u32, slot_of_5 as u32, 12, 15, 19]);
    }
}

/// Where both slots of a word have the node as CHECK, the child is the one ahead, and the one behind is no node: it may be broken.
#[test]
fn one_word_on_both_sides() {
    let mut random = Random::new(16);
    let mut arrays = with_children_of_3(34, 35);
    (arrays.base[25], arrays.check[25]) = (21, 4);
    let (refusal, cells, work) = agreed(&mut random, &arrays, (80, 10));
    assert_eq!((refusal, work[6]), (ACCEPTED, 35));
    assert_eq!(cells[8 * 6..][..8], [2, 5, 3, 0, 0, 0, -1_500, 0]);
    arrays.base[25] = 0;
    assert_eq!(agreed(&mut random, &arrays, (80, 10)).0, ACCEPTED);
    (arrays.base[25], arrays.base[35]) = (13, 0);
    assert_eq!(agreed(&mut random, &arrays, (80, 10)).0, (12, 0));
}

/// Table and work exactly long enough, longer, and one too short (15).
#[test]
fn lengths_of_table_and_work() {
    let mut random = Random::new(5);
    let sample = built(&lists::sample(), 0);
    for cells in 60..85 {
        for work in 0..12 {
            let expected = if cells < 72 || work < 9 { (15, 0) } else { ACCEPTED };
            assert_eq!(agreed(&mut random, &sample, (cells, work)).0, expected, "{cells} {work}");
        }
    }
}

/// The order of the refusals: 11, 15, 12; after 12 the rows' part is 0 and the rest as it was.
#[test]
fn order_of_refusals() {
    let mut random = Random::new(6);
    let mut broken = built(&lists::sample(), 0);
    broken.base[2] = 0;
    let (refusal, cells, work) = agreed(&mut random, &broken, (75, 11));
    assert_eq!(refusal, (12, 0));
    assert!(cells[..72].iter().all(|&cell| cell == 0) && work[..9].iter().all(|&item| item == 0));
    assert!(cells[72..].iter().all(|&cell| cell != 0) && work[9..].iter().all(|&item| item != 0));
    assert_eq!(agreed(&mut random, &broken, (71, 9)).0, (15, 0));
    assert_eq!(agreed(&mut random, &broken, (72, 8)).0, (15, 0));
    broken.check[0] = 3;
    assert_eq!(agreed(&mut random, &broken, (0, 0)).0, (11, 0));
}

/// 11: lengths that do not fit.
#[test]
fn lengths_of_the_arrays() {
    let mut random = Random::new(7);
    let sample = built(&lists::sample(), MOST_SLOTS - 20 + 1);
    for (base, check, number) in
        [(0, 0, 11), (1, 1, 11), (20, 21, 11), (21, 20, 11), (2, 2, 12), (19, 19, 12), (20, 20, 0), (MOST_SLOTS, MOST_SLOTS, 0)]
    {
        let arrays = Arrays { base: sample.base[..base].to_vec(), check: sample.check[..check].to_vec() };
        assert_eq!(agreed(&mut random, &arrays, (72, 9)).0 .0, number, "{base} {check}");
    }
    assert_eq!(agreed(&mut random, &sample, (72, 9)).0, (11, 0));
}

/// Damage to the sample's array: its name, the array with spare slots from 20 on, and whether it is still accepted.
type Case = (&'static str, fn(&mut Arrays), bool);

const CASES: [Case; 43] = [
    ("nothing", |_| (), true),
    ("a lost child", |a| a.check[19] = -1, false),
    ("a lost child, and one row less", |a| (a.check[15], a.base[1]) = (-1, 7), false),
    // Row 5 3 hangs below row 3 in slot 14; its marker is in 13. It puts a word in front of row 3 (marker in 9) and goes on after row 5 (in 11).
    (
        "row 5 3 lost, one row less, f of row 5 and e of row 3 right",
        |a| (a.check[14], a.base[1], a.base[11], a.base[9]) = (-1, 8, -3_998, 0),
        true,
    ),
    ("row 5 3 lost, one row less and f of row 5 right", |a| (a.check[14], a.base[1], a.base[11]) = (-1, 8, -3_998), false),
    ("row 5 3 lost, one row less and e of row 3 right", |a| (a.check[14], a.base[1], a.base[9]) = (-1, 8, 0), false),
    ("row 5 3 lost, and one row less", |a| (a.check[14], a.base[1]) = (-1, 8), false),
    // Word 20 below the root: slot 21, marker in 22.
    ("an extra child", |a| add(a, 21, 0, 22), false),
    ("an extra child, and one row more", |a| add_row(a, 21, 0, 22), true),
    ("an extra child that shares the marker of row 1, and one row more", |a| add_row(a, 21, 0, 7), true),
    (
        "an extra child whose marker is a node, and one row more",
        |a| {
            add_row(a, 21, 0, 22);
            a.check[22] = 0;
        },
        false,
    ),
    // Word 20 below row 3 (slot 4, d = 9) would be row 20 3, but 20 has no row.
    ("a child whose row without the last word is missing", |a| add_row(a, 29, 4, 30), false),
    // Row 2 4 5 is in slot 19, with −1,001 as its BASE. What has 19 as its CHECK is no child of it, wherever it lies: a child would be deeper than n words.
    ("a slot with row 2 4 5 as its parent", |a| add(a, 21, 19, 22), true),
    ("a slot as far from BASE of row 2 4 5 as word 1,022", |a| a.check[21] = 19, true),
    ("all free slots with row 2 4 5 as their parent", |a| [18, 20, 21, 22, 34].iter().for_each(|&slot| a.check[slot] = 19), true),
    ("a marker of row 2 4 5, which it has given up", |a| (a.base[19], a.base[18], a.check[18]) = (18, 0, -1_001), false),
    (
        "a marker of row 2 4 5 and a child below n words",
        |a| {
            (a.base[19], a.base[18], a.check[18]) = (18, 2, -1_001);
            add(a, 21, 19, 22);
        },
        false,
    ),
    ("the highest p in row 2 4 5", |a| a.base[19] = -1, true),
    ("the least p in row 2 4 5", |a| a.base[19] = -99_000_001, true),
    ("a p below the least in row 2 4 5", |a| a.base[19] = -99_000_002, false),
    ("the lowest number in row 2 4 5", |a| a.base[19] = i32::MIN, false),
    ("0 in row 2 4 5", |a| a.base[19] = 0, false),
    ("5 in row 2 4 5", |a| a.base[19] = 5, false),
    ("p in the place of a d in row 4 5, which goes on to the left", |a| a.base[15] = -3_001, false),
    ("p in the place of a d in row 5 3, which does not", |a| a.base[14] = -1_501, false),
    ("a marker in slot 18 that no node has", |a| (a.base[18], a.check[18]) = (0, -1_001), true),
    ("a slot as of word 65,536", |a| a.plant(0, 65_536), true),
    ("a slot as of word 65,535", |a| a.plant(0, 65_535), false),
    ("f set where no row goes on", |a| a.base[7] = 1, false),
    ("f not set where a row goes on", |a| a.base[8] = -12_000, false),
    ("e set where no row puts a word in front", |a| a.base[7] = 2, false),
    ("e not set where a row puts a word in front", |a| a.base[17] = 0, false),
    ("e in the place of f", |a| a.base[8] = -11_998, false),
    ("a broken marker", |a| a.check[17] = 0, false),
    ("another p", |a| a.check[17] = -99_000_001, true),
    ("one row too few", |a| a.base[1] = 8, false),
    ("one row too many", |a| a.base[1] = 10, false),
    ("an order below the longest row", |a| a.check[0] = HEAD + 2, false),
    ("an order above the longest row", |a| a.check[0] = HEAD + 4, false),
    // Rows 5 3, 2 4 and 4 5 (slots 14, 12 and 15) are the longest then, and hold their p themselves; rows 4 and 5 still have e and f.
    (
        "an order that cuts the longest row off",
        |a| (a.check[0], a.base[1], a.base[14], a.base[12], a.base[15]) = (HEAD + 2, 8, -1_501, -4_001, -3_001),
        true,
    ),
    ("an order that cuts the longest row off, and the markers of the rows before it", |a| (a.check[0], a.base[1]) = (HEAD + 2, 8), false),
    ("no row for word 1", |a| (a.check[2], a.base[1]) = (-1, 8), false),
    (
        "cycles and rubbish in slots that no walk reaches",
        |a| {
            (a.base[20], a.check[20], a.base[21], a.check[21]) = (1, 20, 19, 22);
            (a.base[22], a.check[22], a.base[23], a.check[23]) = (20, 23, 22, 22);
            (a.base[24], a.check[24], a.base[25], a.check[25]) = (i32::MAX, i32::MAX, i32::MIN, 29);
        },
        true,
    ),
];

/// Adds a node in `slot` below `parent`, with its marker in `d`.
fn add(arrays: &mut Arrays, slot: usize, parent: i32, d: i32) {
    (arrays.base[slot], arrays.check[slot]) = (d, parent);
    (arrays.base[d as usize], arrays.check[d as usize]) = (0, -5);
}

/// The same, and the head tells of it.
fn add_row(arrays: &mut Arrays, slot: usize, parent: i32, d: i32) {
    add(arrays, slot, parent, d);
    arrays.base[1] += 1;
}

/// Each kind of damage, and what looks like damage but is not; also where the slices hold the right list from before.
#[test]
fn damaged_sample() {
    let mut random = Random::new(8);
    for (name, damage, accepted) in CASES {
        let mut arrays = built(&lists::sample(), 15);
        damage(&mut arrays);
        let expected = if accepted { ACCEPTED } else { (12, 0) };
        assert_eq!(agreed_roomy(&mut random, &arrays), expected, "{name}");
        let before = [table(&lists::sample()), vec![0; 8]].concat();
        assert_eq!(agreed_over(&arrays, before, vec![2, 3, 4, 5, 6, 14, 12, 15, 19, 0]).0, expected, "{name}");
    }
}

/// An e or an f that is wrong in any one marker gives 12, in arrays of either placing. A row of n words has no marker; the same change in its BASE is another p.
#[test]
fn one_wrong_bit() {
    let mut random = Random::new(13);
    for i in 0..200 {
        let rows = lists::tiny(&mut random, 1 + i % 5);
        for mut arrays in [built(&rows, 1), spread(&mut random, &rows)] {
            let (refusal, _, work) = agreed(&mut random, &arrays, (8 * rows.len(), rows.len()));
            assert_eq!(refusal, ACCEPTED);
            for &slot in &work {
                let Ok(marker) = usize::try_from(arrays.base[slot as usize]) else { continue };
                for bits in 1..=3 {
                    arrays.base[marker] ^= bits;
                    assert_eq!(agreed_roomy(&mut random, &arrays), (12, 0), "{rows:?} with the marker in {marker} changed by {bits}");
                    arrays.base[marker] ^= bits;
                }
            }
        }
    }
}

/// A row of n words that has kept a marker, as older arrays have them, gives 12: each alone, and all of them.
#[test]
fn longest_rows_with_markers() {
    let mut random = Random::new(17);
    for i in 0..100 {
        let rows = lists::tiny(&mut random, 1 + i % 5);
        let arrays = built(&rows, rows.len());
        let first = arrays.slots() - rows.len();
        let longest = rows.iter().filter(|row| row.words.len() == arrays.order() as usize);
        let mut all = arrays.clone();
        for (row, marker) in longest.zip(first..) {
            let mut one = arrays.clone();
            for changed in [&mut one, &mut all] {
                let node = changed.node(&row.words);
                changed.base[node] = marker as i32;
                (changed.base[marker], changed.check[marker]) = (0, row.p - 1);
            }
            assert_eq!(agreed_roomy(&mut random, &one), (12, 0), "{:?} of {rows:?}", row.words);
        }
        assert_eq!(agreed_roomy(&mut random, &all), (12, 0), "{rows:?}");
    }
}

/// CHECK[0] is n + 24 with n 1..5: the n, n + 8, n + 40 and n + 16 of older arrays and any other head give 11; another n is another order, and gives 12.
#[test]
fn other_heads() {
    let mut random = Random::new(14);
    let mut arrays = built(&lists::sample(), 0);
    for head in (-20..=60).chain([i32::MIN, i32::MAX]) {
        arrays.check[0] = head;
        let expected = match head {
            27 => ACCEPTED,
            25..=29 => (12, 0),
            _ => (11, 0),
        };
        assert_eq!(agreed(&mut random, &arrays, (72, 9)).0, expected, "{head}");
    }
}

/// Nodes of rows that are no accepted list: every kind of list fault that an array can hold gives 12. A row of n words has no place for a b.
#[test]
fn arrays_of_unaccepted_rows() {
    let mut random = Random::new(9);
    let mut met = [0; 10];
    for i in 0..3_000 {
        let mut rows = lists::tiny(&mut random, 1 + i % 5);
        let (changed, mark) = (random.below(rows.len()), random.between(1, 3));
        match random.below(2) {
            0 => rows.retain(|row| row.words != [mark]),
            _ => remove_with_ends(&mut rows, changed),
        }
        if rows.iter().any(|row| row.words.len() > 1 && !rows.iter().any(|other| other.words == row.words[1..])) || rows.len() < 3 {
            continue;
        }
        let order = rows[rows.len() - 1].words.len();
        rows.iter_mut().filter(|row| row.words.len() == order).for_each(|row| row.b = 0);
        let (number, _) = verdict(&table(&rows));
        met[number as usize] += 1;
        let expected = if number == 0 { ACCEPTED } else { (12, 0) };
        assert_eq!(agreed_roomy(&mut random, &built(&rows, 3)), expected, "{rows:?}");
    }
    assert!([0, 8, 9].iter().all(|&number| met[number] > 0), "{met:?}");
}

/// Removes a row and all that hang below its node: rows that end in its words.
fn remove_with_ends(rows: &mut Vec<Row>, removed: usize) {
    let words = rows[removed].words.clone();
    rows.retain(|row| !row.words.ends_with(&words));
}

/// Every single number of small arrays changed to each of several values.
#[test]
fn changed_arrays() {
    let mut random = Random::new(10);
    let mut met = [0; 16];
    for i in 0..60 {
        let rows = lists::tiny(&mut random, 1 + i % 5);
        let arrays = if i % 2 == 0 { built(&rows, 2) } else { spread(&mut random, &rows) };
        each_change(&arrays, |changed| met[agreed_roomy(&mut random, changed).0 as usize] += 1);
    }
    assert!([0, 11, 12].iter().all(|&number| met[number] > 0), "{met:?}");
}

/// Arrays that no build wrote.
#[test]
fn drawn_arrays() {
    let mut random = Random::new(11);
    for _ in 0..30_000 {
        let arrays = drawn(&mut random);
        agreed_roomy(&mut random, &arrays);
    }
}

/// Arrays made to mislead: very many nodes, shared markers, long chains. Each ends, and is refused.
#[test]
fn misleading_arrays() {
    let mut random = Random::new(12);
    for order in [1, 5] {
        for parent in [|_| 0, |slot: usize| slot as i32 - 1, |slot: usize| slot as i32, |slot: usize| slot as i32 / 2] {
            for d in [|_| 1, |slot: usize| slot as i32, |slot: usize| slot as i32 / 2] {
                let mut arrays = Arrays { base: (0..MOST_SLOTS).map(d).collect(), check: (0..MOST_SLOTS).map(parent).collect() };
                arrays.base[..2].copy_from_slice(&[1, MOST_ROWS as i32]);
                arrays.check[..2].copy_from_slice(&[HEAD + order, -1]);
                assert_eq!(agreed_roomy(&mut random, &arrays), (12, 0));
            }
        }
    }
}
