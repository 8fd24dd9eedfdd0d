//! Damage to accepted lists: each kind is done to one row.

use crate::random::Random;
use crate::reference::list::{LARGEST_B, LARGEST_WORD, LOWEST_P};

pub type Cells = [i32; 8];

/// A kind of damage: its name, and what it does to the list at a row (numbered from 0).
pub type Kind = (&'static str, fn(&mut Random, &mut Vec<Cells>, usize));

pub fn kinds() -> impl Iterator<Item = Kind> {
    OUT_OF_RANGE.into_iter().chain(MISFIT)
}

/// A number of the row leaves its range. They can be done one after another, in this order.
pub const OUT_OF_RANGE: [Kind; 5] = [
    ("p out of range", |random, list, row| list[row][6] = random.pick(&[1, LOWEST_P - 1, i32::MIN, i32::MAX])),
    ("b out of range", |random, list, row| list[row][7] = random.pick(&[LARGEST_B + 1, -LARGEST_B - 1, i32::MIN, i32::MAX])),
    ("unused word", |random, list, row| {
        let used = (list[row][0] as usize).min(4);
        list[row][1 + used + random.below(5 - used)] = random.pick(&[-1, LARGEST_WORD + 1, i32::MIN]);
    }),
    ("used word out of range", |random, list, row| {
        let used = list[row][0] as usize;
        list[row][1 + random.below(used)] = random.pick(&[0, -1, LARGEST_WORD + 1, i32::MIN, i32::MAX]);
    }),
    ("m out of range", |random, list, row| list[row][0] = random.pick(&[0, 6, -1, i32::MIN, i32::MAX])),
];

/// All numbers may be in range, but the rows no longer fit together.
const MISFIT: [Kind; 12] = [
    ("another m", |random, list, row| list[row][0] = random.between(1, 5)),
    ("another word", |random, list, row| {
        let used = list[row][0] as usize;
        list[row][1 + random.below(used)] = random.between(1, 8);
    }),
    ("one word more", |_, list, row| {
        let next = (list[row][0] as usize + 1).min(5);
        list[row][next] = LARGEST_WORD;
    }),
    ("b of one point", |random, list, row| list[row][7] = random.pick(&[1, -1])),
    ("row twice", |_, list, row| list.insert(row, list[row])),
    ("row before its predecessor", |_, list, row| list.swap(row, row.saturating_sub(1))),
    ("row of another place", |random, list, row| list[row] = list[random.below(list.len())]),
    ("row removed", |_, list, row| {
        list.remove(row);
    }),
    ("two words without a shorter row", |_, list, row| list[row] = [2, LARGEST_WORD - 1, LARGEST_WORD - 2, 0, 0, 0, 0, 0]),
    ("five words without a shorter row", |_, list, row| list[row] = [5, 7, 7, 7, 7, LARGEST_WORD, 0, 0]),
    ("mark removed", |random, list, _| {
        let mark = random.between(1, 3);
        list.retain(|cells| !cells[1..6].contains(&mark));
    }),
    ("any number", |random, list, row| list[row][random.below(8)] = random.bits() as i32),
];
