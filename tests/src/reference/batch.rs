//! Request T-04 of document 02: the hourly batch sheet over any lent arrays.

use super::array::Array;
use super::list::ACCEPTED;
use super::rule::{LONGEST_RUN, SENTENCE_END};
use super::score::{run, start, EMPTY};

/// "The sheet gives sentences, words, unknown words (closing 3s in neither), total points, and for each matched length 1 to 5 how many scored words had it."
#[derive(Clone, Copy, Debug, Default, PartialEq, Eq)]
pub struct Sheet {
    pub number: u32,
    pub place: u64,
    pub sentences: u32,
    pub words: u32,
    pub unknown: u32,
    pub total: i64,
    pub matched: [u32; 5],
}

impl Sheet {
    /// "A refused sheet is all zeros."
    fn refused(number: u32, place: u64) -> Sheet {
        Sheet { number, place, ..Sheet::default() }
    }

    /// The sheet of two parts of a text, one after the other.
    pub fn joined(self, other: Sheet) -> Sheet {
        let mut joined = self;
        joined.sentences += other.sentences;
        joined.words += other.words;
        joined.unknown += other.unknown;
        joined.total += other.total;
        joined.matched.iter_mut().zip(other.matched).for_each(|(count, more)| *count += more);
        joined
    }
}

/// Scores the sentences of a sheet: 11, 20, 14, 15, 12.
pub fn batch(base: &[i32], check: &[i32], words: &[u32], ends: &[u32], points: &mut [i32], lengths: &mut [u8]) -> Sheet {
    if Array::new(base, check).is_none() {
        return Sheet::refused(11, 0);
    }
    // "An end below the one before or past the words."
    let starts: Vec<u32> = [0].iter().chain(ends).copied().take(ends.len()).collect();
    if let Some(i) = (0..ends.len()).find(|&i| ends[i] < starts[i] || ends[i] as usize > words.len()) {
        return Sheet::refused(20, i as u64 + 1);
    }
    if words.len() > LONGEST_RUN || ends.len() > LONGEST_RUN {
        return Sheet::refused(14, 0);
    }
    let last = ends.last().map_or(0, |&end| end as usize);
    if points.len() < last || lengths.len() < last {
        return Sheet::refused(15, 0);
    }
    let mut sheet = Sheet::default();
    for (i, (&from, &end)) in starts.iter().zip(ends).enumerate() {
        let stretch = from as usize..end as usize;
        match sentence(base, check, &words[stretch.clone()], &mut points[stretch.clone()], &mut lengths[stretch]) {
            Some(one) => sheet = sheet.joined(one),
            None => {
                points[..last].fill(0);
                lengths[..last].fill(0);
                return Sheet::refused(12, i as u64 + 1);
            }
        }
    }
    sheet
}

/// "Each is scored from `<s>` and closed with a 3, whose points count in the totals without a place in the slice": the sheet of one sentence, nothing where 12
/// refuses.
fn sentence(base: &[i32], check: &[i32], words: &[u32], points: &mut [i32], lengths: &mut [u8]) -> Option<Sheet> {
    let (mut state, mut last_points, mut last_length) = (EMPTY, [0], [0]);
    if start(base, check, &mut state) != ACCEPTED {
        return None;
    }
    let (refusal, total) = run(base, check, &mut state, words, points, lengths);
    let (last_refusal, last_total) = run(base, check, &mut state, &[SENTENCE_END], &mut last_points, &mut last_length);
    if refusal != ACCEPTED || last_refusal != ACCEPTED {
        return None;
    }
    let mut sheet = Sheet { sentences: 1, words: words.len() as u32, total: total + last_total, ..Sheet::default() };
    sheet.unknown = lengths.iter().filter(|&byte| byte & 8 != 0).count() as u32;
    for byte in lengths.iter().chain(&last_length) {
        sheet.matched[(byte & 7) as usize - 1] += 1;
    }
    Some(sheet)
}
