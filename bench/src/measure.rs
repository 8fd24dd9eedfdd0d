//! The calls and their counterparts on one list; each pair must leave and answer the same.

use crate::list::MOST_ROWS;
use crate::lists::{Arrays, List};
use crate::packed::Packed;
use crate::score::Items;
use crate::time::{compare, Compared};
use crate::{array, batch, filling, fragments, list, plain, score, unload};
use backoff::{Found, Fragment, Joined, Sheet, Status, Total};
use std::hint::black_box;

/// How many of a hundred rows that may go are pruned before a list is filled.
pub const PRUNED: usize = 70;

/// Nanoseconds that a call takes for a row, a lookup or a word, and the ratio of the two.
pub struct Measured {
    pub call: &'static str,
    pub unit: &'static str,
    pub ours: f64,
    pub rust: f64,
    pub ratio: f64,
}

impl Measured {
    /// From the seconds of a call that does `units` of its work.
    fn new(call: &'static str, unit: &'static str, units: usize, compared: Compared) -> Measured {
        let each = |seconds: f64| 1e9 * seconds / units as f64;
        Measured { call, unit, ours: each(compared.ours), rust: each(compared.rust), ratio: compared.ratio }
    }
}

pub fn measure(list: &List) -> Vec<Measured> {
    let text = list.unseen_text();
    let [run, packed, hashed] = run(list, &text);
    let [start, packed_start] = start(list);
    let built = build(list, list.arrays.slots());
    let mut measured = vec![check(list), built, lookup(list), start, packed_start, run, packed, ended_run(list), hashed];
    measured.extend(batch(list, &text));
    measured.extend(fragment(list, &text));
    measured.push(join(list, &text));
    measured.extend([plain(list, &text), fill(list), unload(list)]);
    measured
}

fn check(list: &List) -> Measured {
    let mut ours = || assert_eq!(backoff::check(&list.table).number, 0);
    let mut rust = || assert_eq!(list::check(&list.table).number, 0);
    let compared = compare(&mut ours, &mut rust);
    Measured::new("check", "row", list.rows(), compared)
}

pub fn build(list: &List, slots: usize) -> Measured {
    let (mut left, mut right) = (Arrays::new(slots, list.rows()), Arrays::new(slots, list.rows()));
    let mut ours = || assert_eq!(backoff::build(&list.table, &mut left.base, &mut left.check, &mut left.work).number, 0);
    let mut rust = || assert_eq!(array::build(&list.table, &mut right.base, &mut right.check, &mut right.work).number, 0);
    let compared = compare(&mut ours, &mut rust);
    assert!(left.base == right.base && left.check == right.check && left.work == right.work, "the builders agree");
    Measured::new("build", "row", list.rows(), compared)
}

fn lookup(list: &List) -> Measured {
    let Arrays { base, check, .. } = &list.arrays;
    let sequences = list.sequences();
    // All words lie in one slice: fetching them takes next to no time.
    let words = sequences.concat();
    let mut rest = &words[..];
    let parts: Vec<&[u32]> = sequences.iter().filter_map(|sequence| rest.split_off(..sequence.len())).collect();
    let answer = |found: Found| found.p as i64 + found.left as i64;
    let ours = || parts.iter().map(|words| answer(backoff::lookup(base, check, words))).sum::<i64>();
    let rust = || parts.iter().map(|words| answer(array::lookup(base, check, words))).sum::<i64>();
    let sum = rust();
    let compared = compare(&mut || assert_eq!(ours(), sum), &mut || assert_eq!(rust(), sum));
    Measured::new("lookup", "lookup", parts.len(), compared)
}

type Start = fn(&[i32], &[i32], &mut [i32]) -> Status;

/// Many starts, against Rust over the same arrays, and against the fastest such Rust.
fn start(list: &List) -> [Measured; 2] {
    const STARTS: usize = 10_000;
    let Arrays { base, check, .. } = &list.arrays;
    let many = |start: Start, state: &mut [i32]| (0..STARTS).for_each(|_| assert_eq!(start(black_box(base), check, state).number, 0));
    let rows: [(&str, Start); 2] = [("start", score::start::<Items>), ("start, against packed states", score::start::<Packed>)];
    rows.map(|(call, other)| {
        let (mut state, mut other_state) = ([0; 9], [0; 9]);
        let compared = compare(&mut || many(backoff::start, &mut state), &mut || many(other, &mut other_state));
        assert_eq!(state, other_state, "the states agree");
        Measured::new(call, "start", STARTS, compared)
    })
}

/// What a scorer leaves behind.
#[derive(PartialEq)]
pub struct Scores {
    pub points: Vec<i32>,
    pub lengths: Vec<u8>,
    pub total: i64,
}

impl Scores {
    pub fn new(words: usize) -> Scores {
        Scores { points: vec![0; words], lengths: vec![0; words], total: 0 }
    }
}

type Run = fn(&[i32], &[i32], &mut [i32], &[u32], &mut [i32], &mut [u8]) -> Total;

/// A run from start, against Rust over the same arrays, against the fastest such Rust, and against a HashMap of the rows.
fn run(list: &List, text: &[u32]) -> [Measured; 3] {
    let Arrays { base, check, .. } = &list.arrays;
    let map = plain::Map::new(&list.table);
    let [mut left, mut right, mut third] = [(); 3].map(|()| Scores::new(text.len()));
    let (mut state, mut other_state) = ([0; 9], [0; 9]);
    let mut ours = || {
        assert_eq!(backoff::start(base, check, &mut state).number, 0);
        left.total = backoff::run(base, check, &mut state, text, &mut left.points, &mut left.lengths).total;
    };
    let mut rust = |run: Run| {
        assert_eq!(score::start::<Items>(base, check, &mut other_state).number, 0);
        right.total = run(base, check, &mut other_state, text, &mut right.points, &mut right.lengths).total;
    };
    let mut hashed = || third.total = plain::score(&map, true, text, &mut third.points, &mut third.lengths);
    let with_rust = compare(&mut ours, &mut || rust(score::run::<Items>));
    let with_packed = compare(&mut ours, &mut || rust(score::run::<Packed>));
    let with_map = compare(&mut ours, &mut hashed);
    assert!(left == right && left == third && state == other_state, "the scorers agree");
    [("run", with_rust), ("run, against packed states", with_packed), ("run, against a HashMap", with_map)]
        .map(|(call, compared)| Measured::new(call, "word", text.len(), compared))
}

/// A run over many sentences, each of which ends with 3.
fn ended_run(list: &List) -> Measured {
    let Arrays { base, check, .. } = &list.arrays;
    let text = list.ended_text();
    let [mut left, mut right] = [(); 2].map(|()| Scores::new(text.len()));
    let (mut state, mut other_state) = ([0; 9], [0; 9]);
    let mut ours = || {
        state = [0; 9];
        left.total = backoff::run(base, check, &mut state, &text, &mut left.points, &mut left.lengths).total;
    };
    let mut rust = || {
        other_state = [0; 9];
        right.total = score::run::<Packed>(base, check, &mut other_state, &text, &mut right.points, &mut right.lengths).total;
    };
    let compared = compare(&mut ours, &mut rust);
    assert!(left == right && state == other_state, "the scorers agree");
    Measured::new("run, a 3 every 20 words, against packed states", "word", text.len(), compared)
}

type Batch = fn(&[i32], &[i32], &[u32], &[u32], &mut [i32], &mut [u8]) -> Sheet;

/// The text as a sheet, in sentences of 20 words and of one, against the calls that a caller makes for it otherwise, and against the fastest Rust.
fn batch(list: &List, text: &[u32]) -> [Measured; 4] {
    let Arrays { base, check, .. } = &list.arrays;
    let rows: [(&str, usize, Batch); 4] = [
        ("batch, sentences of 20, against start and runs", 20, batch::by_calls),
        ("batch, sentences of 1, against start and runs", 1, batch::by_calls),
        ("batch, sentences of 20, against packed states", 20, batch::batch::<Packed>),
        ("batch, sentences of 1, against packed states", 1, batch::batch::<Packed>),
    ];
    rows.map(|(call, length, other)| {
        let ends = batch::ends(text.len(), length);
        let [mut left, mut right] = [(); 2].map(|()| Scores::new(text.len()));
        let (mut sheet, mut other_sheet) = (None, None);
        let mut ours = || sheet = Some(backoff::batch(base, check, text, &ends, &mut left.points, &mut left.lengths));
        let mut rust = || other_sheet = Some(other(base, check, text, &ends, &mut right.points, &mut right.lengths));
        let compared = compare(&mut ours, &mut rust);
        assert!(left == right && sheet == other_sheet, "the sheets agree");
        Measured::new(call, "word", text.len(), compared)
    })
}

/// The text as one fragment, against a run of ours, which writes points and lengths too, and against Rust that writes nothing either.
fn fragment(list: &List, text: &[u32]) -> [Measured; 2] {
    let Arrays { base, check, .. } = &list.arrays;
    let mut scores = Scores::new(text.len());
    let (mut state, mut total, mut fragment, mut other) = ([0; 9], 0, None, None);
    let mut ours = || fragment = Some(backoff::score_fragment(base, check, text));
    let mut run = || {
        state = [0; 9];
        total = backoff::run(base, check, &mut state, text, &mut scores.points, &mut scores.lengths).total;
    };
    let with_run = compare(&mut ours, &mut run);
    let with_packed = compare(&mut ours, &mut || other = Some(fragments::score_fragment::<Packed>(base, check, text)));
    assert!(fragment == other && fragment.is_some_and(|joined| joined.fragment.total == total && joined.fragment.state == state));
    [("fragment, against a run", with_run), ("fragment, against packed states", with_packed)]
        .map(|(call, compared)| Measured::new(call, "word", text.len(), compared))
}

/// Neighbours of 20 words each, joined: twice n − 1 words are scored.
fn join(list: &List, text: &[u32]) -> Measured {
    let Arrays { base, check, .. } = &list.arrays;
    let parts: Vec<Fragment> = text.chunks(20).map(|words| backoff::score_fragment(base, check, words).fragment).collect();
    let sum = |join: &dyn Fn(Fragment, Fragment) -> Joined| parts.windows(2).map(|pair| join(pair[0], pair[1]).fragment.total).sum::<i64>();
    let expected = sum(&|one, two| fragments::join_fragments::<Packed>(base, check, one, two));
    let mut ours = || assert_eq!(sum(&|one, two| backoff::join_fragments(base, check, one, two)), expected);
    let mut rust = || assert_eq!(sum(&|one, two| fragments::join_fragments::<Packed>(base, check, one, two)), expected);
    let compared = compare(&mut ours, &mut rust);
    Measured::new("join, against packed states", "join", parts.len() - 1, compared)
}

/// Plain scoring with its check of the list, against Rust with binary search too.
fn plain(list: &List, text: &[u32]) -> Measured {
    let [mut left, mut right] = [(); 2].map(|()| Scores::new(text.len()));
    let mut ours = || left.total = backoff::plain(&list.table, true, text, &mut left.points, &mut left.lengths).total;
    let mut rust = || right.total = plain::plain(&list.table, true, text, &mut right.points, &mut right.lengths).total;
    let compared = compare(&mut ours, &mut rust);
    assert!(left == right, "the scorers agree");
    Measured::new("plain", "word", text.len(), compared)
}

/// A pruned list filled, for each row of the complete list.
fn fill(list: &List) -> Measured {
    let pruned = list.pruned_table(PRUNED);
    let [mut left, mut right] = [(); 2].map(|()| vec![0; 8 * MOST_ROWS]);
    let rows = filling::fill(&pruned, &mut right).rows;
    let mut ours = || assert_eq!(backoff::fill(&pruned, &mut left).rows, rows);
    let mut rust = || assert_eq!(filling::fill(&pruned, &mut right).rows, rows);
    let compared = compare(&mut ours, &mut rust);
    assert!(rows > 0 && left == right, "the fillers agree");
    Measured::new("fill", "row", rows as usize, compared)
}

pub fn unload(list: &List) -> Measured {
    let Arrays { base, check, work } = &list.arrays;
    let [mut left, mut right] = [(); 2].map(|()| (vec![0; list.table.len()], vec![0; list.rows()]));
    let mut ours = || assert_eq!(backoff::unload(base, check, &mut left.0, &mut left.1).number, 0);
    let mut rust = || assert_eq!(unload::unload(base, check, &mut right.0, &mut right.1).number, 0);
    let compared = compare(&mut ours, &mut rust);
    assert!(left == right && left.0 == list.table && left.1 == *work, "the list comes back");
    Measured::new("unload", "row", list.rows(), compared)
}
