//! The batch sheet as a caller makes it by start and runs, and as the team writes it in Rust; and many sheets by several threads.

use crate::array::{head_fits, order};
use crate::lists::{Arrays, List};
use crate::score::{begin, score, State, LONGEST_RUN};
use crate::time::median;
use backoff::Sheet;
use std::time::Instant;

const ZEROS: Sheet = Sheet { number: 0, sentences: 0, place: 0, total: 0, words: 0, unknown: 0, matched: [0; 5] };

/// The ends of sentences of so many words, the last one maybe shorter.
pub fn ends(words: usize, length: usize) -> Vec<u32> {
    (1..=words.div_ceil(length)).map(|sentence| (sentence * length).min(words) as u32).collect()
}

/// Counts a length byte of a word, or of a closing 3.
fn count(sheet: &mut Sheet, byte: u8) {
    sheet.matched[(byte & 7) as usize - 1] += 1;
}

/// The calls that a caller needs without `backoff_batch`, which are those of C: start, a run over the words, a run of the word 3; for ends that are in order.
pub fn by_calls(base: &[i32], check: &[i32], words: &[u32], ends: &[u32], points: &mut [i32], lengths: &mut [u8]) -> Sheet {
    let mut sheet = ZEROS;
    let mut from = 0;
    for &end in ends {
        let stretch = from..end as usize;
        let (mut state, mut last_points, mut last_length) = ([0; 9], [0], [0]);
        let lengths = &mut lengths[stretch.clone()];
        let started = backoff::start(base, check, &mut state);
        let run = backoff::run(base, check, &mut state, &words[stretch.clone()], &mut points[stretch], lengths);
        let last = backoff::run(base, check, &mut state, &[3], &mut last_points, &mut last_length);
        if started.number != 0 || run.number != 0 || last.number != 0 {
            return Sheet { number: 12, place: sheet.sentences as u64 + 1, ..ZEROS };
        }
        sheet.sentences += 1;
        sheet.words += lengths.len() as u32;
        sheet.total += run.total + last.total;
        for &byte in lengths.iter() {
            sheet.unknown += (byte & 8 != 0) as u32;
            count(&mut sheet, byte);
        }
        count(&mut sheet, last_length[0]);
        from = end as usize;
    }
    sheet
}

/// Scores the sentences of a sheet: 11, 20, 14, 15, 12.
pub fn batch<S: State>(base: &[i32], check: &[i32], words: &[u32], ends: &[u32], points: &mut [i32], lengths: &mut [u8]) -> Sheet {
    let refused = |number, place| Sheet { number, place, ..ZEROS };
    if !head_fits(base, check) {
        return refused(11, 0);
    }
    let mut last = 0;
    for (i, &end) in ends.iter().enumerate() {
        if end < last || end as usize > words.len() {
            return refused(20, i as u64 + 1);
        }
        last = end;
    }
    if words.len() > LONGEST_RUN || ends.len() > LONGEST_RUN {
        return refused(14, 0);
    }
    let last = last as usize;
    if points.len() < last || lengths.len() < last {
        return refused(15, 0);
    }
    let (points, lengths) = (&mut points[..last], &mut lengths[..last]);
    let order = order(check) as usize;
    let mut sheet = ZEROS;
    let mut from = 0;
    for (i, &end) in ends.iter().enumerate() {
        let stretch = from..end as usize;
        let words = &words[stretch.clone()];
        if sentence::<S>(base, check, order, words, &mut points[stretch.clone()], &mut lengths[stretch], &mut sheet).is_none() {
            points.fill(0);
            lengths.fill(0);
            return refused(12, i as u64 + 1);
        }
        from = end as usize;
    }
    sheet
}

/// Adds a sentence to the sheet; nothing where 12 refuses.
#[inline]
fn sentence<S: State>(
    base: &[i32],
    check: &[i32],
    order: usize,
    words: &[u32],
    points: &mut [i32],
    lengths: &mut [u8],
    sheet: &mut Sheet,
) -> Option<()> {
    let mut state: S = begin(base, check, order)?;
    for i in 0..words.len() {
        let (word_points, byte) = score(&mut state, base, check, order, words[i])?;
        points[i] = word_points;
        lengths[i] = byte;
        sheet.total += word_points as i64;
        sheet.unknown += (byte & 8 != 0) as u32;
        count(sheet, byte);
    }
    let (last_points, byte) = state.step(base, check, order, 3)?;
    sheet.total += last_points as i64;
    count(sheet, byte);
    sheet.sentences += 1;
    sheet.words += words.len() as u32;
    Some(())
}

const SHEETS: usize = 64;
const ROUNDS: usize = 9;

/// Sheets of the most words, scored by one thread and by two over one array.
pub fn print_threads(list: &List) {
    println!("\n## More than one core\n\nWords that {SHEETS} sheets of 65,535 words in sentences of 20 score in a second by the clock, over one array. The threads share the");
    println!("array and take the sheets in turn; nothing else is shared. docs/scoring.md says how a sheet is split.\n");
    println!("| threads | million words a second | times as fast as one |\n|--:|--:|--:|");
    let words = list.unseen_text();
    let ends = ends(words.len(), 20);
    let mut rounds = [(); 2].map(|()| Vec::new());
    for _ in 0..ROUNDS {
        for (threads, times) in (1..).zip(&mut rounds) {
            times.push(seconds(&list.arrays, &words, &ends, threads));
        }
    }
    let [one, two] = rounds.map(median);
    for (threads, seconds) in [(1, one), (2, two)] {
        println!("| {threads} | {:.1} | {:.2} |", (SHEETS * words.len()) as f64 / seconds / 1e6, one / seconds);
    }
}

/// The seconds by the clock in which so many threads score all sheets.
fn seconds(arrays: &Arrays, words: &[u32], ends: &[u32], threads: usize) -> f64 {
    let begin = Instant::now();
    std::thread::scope(|scope| {
        for thread in 0..threads {
            scope.spawn(move || {
                let (mut points, mut lengths) = (vec![0; words.len()], vec![0; words.len()]);
                for _ in (thread..SHEETS).step_by(threads) {
                    assert_eq!(backoff::batch(&arrays.base, &arrays.check, words, ends, &mut points, &mut lengths).number, 0);
                }
            });
        }
    });
    begin.elapsed().as_secs_f64()
}

#[cfg(test)]
mod tests {
    use crate::packed::Packed;
    use tests::arrays::drawn;
    use tests::random::Random;
    use tests::reference;

    /// The sheets that ours is timed against are the same over any arrays.
    #[test]
    fn same_sheets() {
        let mut random = Random::new(1);
        for _ in 0..20_000 {
            let arrays = drawn(&mut random);
            let words: Vec<u32> = (0..6).map(|_| if random.chance(20) { 3 } else { random.below(30) as u32 }).collect();
            let mut ends: Vec<u32> = (0..random.below(4)).map(|_| random.below(8) as u32).collect();
            if random.chance(80) {
                ends.sort();
            }
            let (mut ours, mut second) = (([1; 6], [1; 6]), ([1; 6], [1; 6]));
            let sheet = super::batch::<Packed>(&arrays.base, &arrays.check, &words, &ends, &mut ours.0, &mut ours.1);
            let expected = reference::batch::batch(&arrays.base, &arrays.check, &words, &ends, &mut second.0, &mut second.1);
            assert_eq!(ours, second);
            let counts = (sheet.sentences, sheet.words, sheet.unknown, sheet.matched);
            assert_eq!((sheet.number, sheet.place, sheet.total), (expected.number, expected.place, expected.total));
            assert_eq!(counts, (expected.sentences, expected.words, expected.unknown, expected.matched));
        }
    }
}
