//! What docs/performance.svg shows: words a second of our run beside scorers of others' making, and how check, build and unload grow.

use crate::figures::Table;
use crate::lists::{Arrays, Kind, List, KINDS, SIZES};
use crate::measure::Scores;
use crate::peer::Peer;
use crate::plain;
use crate::report::thousands;
use crate::time::fastest;

/// The heads of the two tables.
pub const SCORER: &str = "scorer";
pub const CALL: &str = "call and list";

/// The scorers in the order in which they are timed.
const SCORERS: [&str; 4] = ["ours", "Darts", "irstlm", "HashMap"];

const CALLS: [&str; 3] = ["check", "build", "unload"];

/// No word of the lists is larger, so that Darts takes each as one item of a key; the text below says it too.
const LARGEST_ITEM: i32 = 4_000;

/// The points that a word's score by irstlm may be from ours: it adds up to five numbers, and holds each in 24 bits, which near 99 is off by 4 points at
/// most.
const FLOATS: i32 = 20;

/// How long each list is timed, in seconds.
const SCORED: u64 = 3;
const GROWN: u64 = 1;

/// Prints both tables.
pub fn print() {
    println!("{WORDS}\n{}", words().markdown(1));
    print!("{GROWTH}\n{}", growth().markdown(3));
}

const WORDS: &str = "## Words a second

Million words a second over lists of 65,535 rows and at most 4,000 words, which Darts takes. All score the same 65,535 words, given as numbers, from start; their matched
lengths must be equal, and their points but for irstlm's. They are timed in turns, and the fastest round of each counts.

- Darts is the double-array trie of Debian's package `darts`. A key is the words of a row, newest word first, each of them one item; on larger words Darts' builder may write out of bounds. The
  scorer over it (`bench/peers/darts.cpp`) carries the sums of the back-offs, as our fastest Rust does. Darts tests no bounds.
- irstlm is asked for one word after the other through its own library (`bench/peers/irstlm.cpp`), with a context of the words that it matched. Reading the list and looking up the
  words' texts are not timed. Its logarithms are floating-point numbers of 24 bits: a word's may be 20 points from ours.
- HashMap is Rust's own map, with the rows in it. Its scorer backs off by the rule and carries no back-offs.
";

const GROWTH: &str = "## How check, build and unload grow

Milliseconds of a call for lists of 1,000 to 65,535 rows. The three calls are timed in turns, and the fastest round of each counts. The picture shows the lines of `natural`, and the
build of `order 2`.
";

/// Million words a second of each scorer over a longest list of each kind.
fn words() -> Table {
    let columns = KINDS.each_ref().map(|kind| {
        eprintln!("bench: words a second, {}", kind.name);
        words_a_second(&kind.long_within(LARGEST_ITEM))
    });
    let line = |i: usize| columns.iter().map(|scorers| scorers[i] / 1e6).collect();
    Table {
        head: SCORER.to_string(),
        columns: KINDS.iter().map(|kind| kind.name.to_string()).collect(),
        lines: SCORERS.iter().enumerate().map(|(i, scorer)| (scorer.to_string(), line(i))).collect(),
    }
}

fn words_a_second(list: &List) -> [f64; SCORERS.len()] {
    let text = list.unseen_text();
    let Arrays { base, check, .. } = &list.arrays;
    let map = plain::Map::new(&list.table);
    let [mut darts, mut irstlm] = ["darts", "irstlm"].map(|name| Peer::open(name, &list.table));
    let [mut first, mut second, mut third, mut fourth] = [(); SCORERS.len()].map(|()| Scores::new(text.len()));
    let mut ours = || {
        let mut state = [0; 9];
        assert_eq!(backoff::start(base, check, &mut state).number, 0);
        first.total = backoff::run(base, check, &mut state, &text, &mut first.points, &mut first.lengths).total;
    };
    let mut by_darts = || second.total = darts.score(&text, &mut second.points, &mut second.lengths);
    let mut by_irstlm = || third.total = irstlm.score(&text, &mut third.points, &mut third.lengths);
    let mut by_map = || fourth.total = plain::score(&map, true, &text, &mut fourth.points, &mut fourth.lengths);
    let seconds = fastest(SCORED, [&mut ours, &mut by_darts, &mut by_irstlm, &mut by_map]);
    assert!(first == second && first == fourth, "the scorers agree");
    // irstlm does not tell which rows are extended to the left.
    first.lengths.iter_mut().for_each(|length| *length &= 15);
    let distance = first.points.iter().zip(&third.points).map(|(ours, irstlm)| (ours - irstlm).abs()).max();
    assert!(first.lengths == third.lengths && distance <= Some(FLOATS), "irstlm agrees");
    seconds.map(|seconds| text.len() as f64 / seconds)
}

/// Milliseconds of each call for all lists of each kind.
fn growth() -> Table {
    let kinds = KINDS.each_ref().map(|kind| {
        eprintln!("bench: growth, {}", kind.name);
        kind.lists().each_ref().map(milliseconds)
    });
    let line = |call: usize, kind: usize| kinds[kind].iter().map(|calls| calls[call]).collect();
    let lines =
        |call: usize| KINDS.iter().enumerate().map(move |(kind, Kind { name, .. })| (format!("{}, {name}", CALLS[call]), line(call, kind)));
    Table {
        head: CALL.to_string(),
        columns: SIZES.iter().map(|&rows| thousands(rows)).collect(),
        lines: (0..CALLS.len()).flat_map(lines).collect(),
    }
}

fn milliseconds(list: &List) -> [f64; CALLS.len()] {
    let Arrays { base, check, .. } = &list.arrays;
    let mut arrays = Arrays::new(list.arrays.slots(), list.rows());
    let (mut table, mut work) = (vec![0; list.table.len()], vec![0; list.rows()]);
    let mut checked = || assert_eq!(backoff::check(&list.table).number, 0);
    let mut built = || assert_eq!(backoff::build(&list.table, &mut arrays.base, &mut arrays.check, &mut arrays.work).number, 0);
    let mut unloaded = || assert_eq!(backoff::unload(base, check, &mut table, &mut work).number, 0);
    let seconds = fastest(GROWN, [&mut checked, &mut built, &mut unloaded]);
    assert!(arrays.base == *base && arrays.check == *check && table == list.table, "the array holds the list");
    seconds.map(|seconds| 1e3 * seconds)
}
