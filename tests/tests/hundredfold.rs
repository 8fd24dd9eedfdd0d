//! "A list in the older points is taken over by multiplying p and b by 100, and every score of it is then exactly 100 times the earlier one" (T-08).

use tests::lists::{self, ended_text, table};
use tests::random::Random;
use tests::reference::list::Row;

/// A list with the words of another and p and b in the older range, −990,000..0 and ±990,000, its ends among them.
fn older(rows: &[Row]) -> Vec<Row> {
    rows.iter().map(|row| Row { words: row.words.clone(), p: row.p / 100, b: row.b / 100 }).collect()
}

fn taken_over(rows: &[Row]) -> Vec<Row> {
    rows.iter().map(|row| Row { words: row.words.clone(), p: 100 * row.p, b: 100 * row.b }).collect()
}

/// A list with its array and the slots of its rows.
struct Built {
    table: Vec<i32>,
    base: Vec<i32>,
    check: Vec<i32>,
    work: Vec<u32>,
}

/// Nothing where the list does not fit so many slots.
fn built(rows: &[Row], slots: usize) -> Option<Built> {
    let table = table(rows);
    let (mut base, mut check, mut work) = (vec![0; slots], vec![0; slots], vec![0; rows.len()]);
    match backoff::build(&table, &mut base, &mut check, &mut work).number {
        0 => Some(Built { table, base, check, work }),
        10 => None,
        number => panic!("refused by {number}"),
    }
}

/// A state's back-offs 100 times; the count and the words stay.
fn state_times(state: [i32; 9]) -> [i32; 9] {
    std::array::from_fn(|i| if i < 5 { state[i] } else { 100 * state[i] })
}

/// Points and length bytes of each word, the total and the state after them.
type Ran = (Vec<i32>, Vec<u8>, i64, [i32; 9]);

fn run(list: &Built, mut state: [i32; 9], words: &[u32]) -> Ran {
    let (mut points, mut lengths) = (vec![0; words.len()], vec![0; words.len()]);
    let total = backoff::run(&list.base, &list.check, &mut state, words, &mut points, &mut lengths);
    assert_eq!(total.number, 0);
    (points, lengths, total.total, state)
}

fn plain(list: &Built, after_start: bool, words: &[u32]) -> (Vec<i32>, Vec<u8>, i64) {
    let (mut points, mut lengths) = (vec![0; words.len()], vec![0; words.len()]);
    let total = backoff::plain(&list.table, after_start, words, &mut points, &mut lengths);
    assert_eq!(total.number, 0);
    (points, lengths, total.total)
}

fn hundredfold(points: &[i32]) -> Vec<i32> {
    points.iter().map(|points| 100 * points).collect()
}

/// Runs one after another from start and from no context, and plain scoring.
fn compare_runs(older: &Built, finer: &Built, words: &[u32], cut: usize) {
    for after_start in [false, true] {
        let (mut state, mut finer_state) = ([0; 9], [0; 9]);
        if after_start {
            assert_eq!(backoff::start(&older.base, &older.check, &mut state).number, 0);
            assert_eq!(backoff::start(&finer.base, &finer.check, &mut finer_state).number, 0);
        }
        assert_eq!(finer_state, state_times(state));
        for part in [&words[..cut], &words[cut..]] {
            let (points, lengths, total, next) = run(older, state, part);
            assert_eq!(run(finer, finer_state, part), (hundredfold(&points), lengths, 100 * total, state_times(next)));
            (state, finer_state) = (next, state_times(next));
        }
        let (points, lengths, total) = plain(older, after_start, words);
        assert_eq!(plain(finer, after_start, words), (hundredfold(&points), lengths, 100 * total));
    }
}

/// A sheet of two sentences, and two fragments joined.
fn compare_sheets_and_fragments(older: &Built, finer: &Built, words: &[u32], cut: usize) {
    let ends = [cut as u32, words.len() as u32];
    let sheet = |list: &Built| {
        let (mut points, mut lengths) = (vec![0; words.len()], vec![0; words.len()]);
        (backoff::batch(&list.base, &list.check, words, &ends, &mut points, &mut lengths), points, lengths)
    };
    let (earlier, points, lengths) = sheet(older);
    assert_eq!(sheet(finer), (backoff::Sheet { total: 100 * earlier.total, ..earlier }, hundredfold(&points), lengths));
    let joined = |list: &Built| {
        let fragment = |words: &[u32]| backoff::Fragment::score(&list.base, &list.check, words).unwrap();
        fragment(&words[..cut]).join(fragment(&words[cut..]), &list.base, &list.check).unwrap()
    };
    let earlier = joined(older);
    let expected = backoff::Fragment { total: 100 * earlier.total, state: state_times(earlier.state), ..earlier };
    assert_eq!(joined(finer), expected);
}

/// Every node has the slot and the parent that it had, and its BASE too, but for rows of n words, which hold p − 1 there; every row is found with p and b
/// 100 times.
fn compare_arrays(older: &Built, finer: &Built, rows: &[Row]) {
    assert_eq!(finer.work, older.work);
    let order = rows[rows.len() - 1].words.len();
    for (row, &slot) in rows.iter().zip(&older.work) {
        let slot = slot as usize;
        let base = if row.words.len() == order { 100 * (older.base[slot] + 1) - 1 } else { older.base[slot] };
        assert_eq!((finer.base[slot], finer.check[slot]), (base, older.check[slot]));
        let words: Vec<u32> = row.words.iter().map(|&word| word as u32).collect();
        let found = backoff::lookup(&older.base, &older.check, &words);
        let expected = backoff::Found { p: 100 * found.p, b: 100 * found.b, ..found };
        assert_eq!((found.found, backoff::lookup(&finer.base, &finer.check, &words)), (1, expected));
    }
}

#[test]
fn random_lists_and_texts() {
    let (mut accepted, mut no_room) = (0, 0);
    for seed in 0..600 {
        let random = &mut Random::new(seed);
        let order = 1 + random.below(5);
        let rows = older(&lists::small(random, order));
        let finer_rows = taken_over(&rows);
        let slots = random.pick(&[40, 4_096, 70_000]);
        match (built(&rows, slots), built(&finer_rows, slots)) {
            (Some(older), Some(finer)) => {
                accepted += 1;
                compare_arrays(&older, &finer, &rows);
                for _ in 0..5 {
                    let length = random.below(30);
                    let words = ended_text(random, &rows, length, 6);
                    let cut = random.below(length + 1);
                    compare_runs(&older, &finer, &words, cut);
                    compare_sheets_and_fragments(&older, &finer, &words, cut);
                }
            }
            (None, None) => no_room += 1,
            _ => panic!("seed {seed}: one of the two lists has no room"),
        }
    }
    assert!(accepted > 200 && no_room > 20, "{accepted} {no_room}");
}

/// The older range's ends become the finer range's.
#[test]
fn ends_of_the_range() {
    let rows = [(1, 0, 990_000), (2, -990_000, -990_000), (3, -1, 1)].map(|(word, p, b)| Row { words: vec![word], p, b });
    let longer = Row { words: vec![1, 2], p: -990_000, b: 0 };
    let rows = [&rows[..], &[longer]].concat();
    assert_eq!(backoff::check(&table(&taken_over(&rows))).number, 0);
    let (older, finer) = (built(&rows, 40).unwrap(), built(&taken_over(&rows), 40).unwrap());
    compare_arrays(&older, &finer, &rows);
    compare_runs(&older, &finer, &[2, 2, 9, 1, 2, 3, 3, 2], 3);
}
