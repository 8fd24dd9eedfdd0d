//! One run of a text by each scorer, each in a function of its own whose name `bench/instructions` gives to callgrind.

use crate::lists::{Arrays, KINDS};
use crate::packed::Packed;
use crate::plain;
use crate::score::{self, Items, State};
use std::hint::black_box;

/// What each scorer is lent.
struct Lent<'a> {
    arrays: &'a Arrays,
    map: plain::Map,
    text: &'a [u32],
    points: Vec<i32>,
    lengths: Vec<u8>,
}

/// Scores by all of them and prints the number of words.
pub fn run(kind: &str, length: &str) {
    let kind = KINDS.iter().find(|known| known.name == kind).expect("a kind of list");
    let list = if length == "short" { kind.short() } else { kind.long() };
    let text = list.unseen_text();
    let mut lent = Lent {
        arrays: &list.arrays,
        map: plain::Map::new(&list.table),
        text: &text,
        points: vec![0; text.len()],
        lengths: vec![0; text.len()],
    };
    let totals = [count_ours(&mut lent), count_rust(&mut lent), count_packed(&mut lent), count_hash_map(&mut lent)];
    assert!(totals == [totals[0]; 4], "the scorers agree");
    println!("{}", text.len());
}

#[no_mangle]
#[inline(never)]
fn count_ours(lent: &mut Lent) -> i64 {
    let (base, check) = (&lent.arrays.base, &lent.arrays.check);
    let mut state = [0; 9];
    backoff::start(base, check, &mut state);
    black_box(backoff::run(base, check, &mut state, lent.text, &mut lent.points, &mut lent.lengths).total)
}

#[no_mangle]
#[inline(never)]
fn count_rust(lent: &mut Lent) -> i64 {
    scored::<Items>(lent)
}

#[no_mangle]
#[inline(never)]
fn count_packed(lent: &mut Lent) -> i64 {
    scored::<Packed>(lent)
}

#[inline(always)]
fn scored<S: State>(lent: &mut Lent) -> i64 {
    let (base, check) = (&lent.arrays.base, &lent.arrays.check);
    let mut state = [0; 9];
    score::start::<S>(base, check, &mut state);
    black_box(score::run::<S>(base, check, &mut state, lent.text, &mut lent.points, &mut lent.lengths).total)
}

#[no_mangle]
#[inline(never)]
fn count_hash_map(lent: &mut Lent) -> i64 {
    black_box(plain::score(&lent.map, true, lent.text, &mut lent.points, &mut lent.lengths))
}
