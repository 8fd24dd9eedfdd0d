//! "The totals program" of document 01, with the columns of T-08: what it prints for the bytes of LIST and TEXT; a file that is not there has none.

use super::build::build;
use super::list::{rows, Refusal, ACCEPTED};
use super::rule::{Rule, SENTENCE_END, SENTENCE_START};
use std::str::from_utf8;

pub const MOST_LINES: usize = 512;
pub const MOST_WORDS: usize = 64;
pub const SLOTS: usize = 4_096;

/// "Columns of LIST grow to twelve characters .. TEXT and the printed columns don't change."
pub const LIST_WIDTH: usize = 12;
pub const TEXT_WIDTH: usize = 8;

pub fn output(list: &[u8], text: &[u8]) -> String {
    match read_list(list).and_then(accepted) {
        Ok(rule) => totals(&rule, text),
        Err(refusal) => refused(refusal),
    }
}

/// "A refusal prints `refused`, then number and place, 8 wide each."
pub fn refused((number, place): Refusal) -> String {
    format!("refused{number:>8}{place:>8}\n")
}

/// LIST is read whole: its numbers, or 13 at its first line that is not in form.
fn read_list(bytes: &[u8]) -> Result<Vec<i32>, Refusal> {
    let row = |(i, line): (usize, &[u8])| {
        let numbers = line.strip_suffix(b"\n").and_then(|line| columns(line, LIST_WIDTH));
        let numbers = numbers.filter(|numbers| numbers.len() == 8 && i < MOST_LINES);
        numbers.ok_or((13, i as u32 + 1))
    };
    let rows: Result<Vec<Vec<i32>>, Refusal> = lines(bytes).enumerate().map(row).collect();
    Ok(rows?.concat())
}

/// "The array has 4,096 slots."
fn accepted(table: Vec<i32>) -> Result<Rule, Refusal> {
    let (mut base, mut check, mut work) = ([0; SLOTS], [0; SLOTS], [0; MOST_LINES]);
    match build(&table, &mut base, &mut check, &mut work) {
        ACCEPTED => Ok(Rule::new(&rows(&table))),
        refusal => Err(refusal),
    }
}

/// The lines of the sentences, up to the first refusal.
fn totals(rule: &Rule, text: &[u8]) -> String {
    let mut printed = String::new();
    for (number, line) in (1..).zip(lines(text)) {
        let Some(words) = line.strip_suffix(b"\n").and_then(|line| columns(line, TEXT_WIDTH)).and_then(words) else {
            return printed + &refused((13, number));
        };
        printed += &sentence(rule, number, &words);
    }
    printed
}

/// "A sentence a line .. up to 64 words, each in such a column and none negative."
fn words(numbers: Vec<i32>) -> Option<Vec<u32>> {
    let words: Option<Vec<u32>> = numbers.into_iter().map(|number| u32::try_from(number).ok()).collect();
    words.filter(|words| words.len() <= MOST_WORDS)
}

/// "Each sentence is scored from `<s>` and closed with 3. A line holds sentence number, words, unknown words (8 wide each) and total (16 wide)."
fn sentence(rule: &Rule, number: u32, words: &[u32]) -> String {
    let mut preceding = vec![SENTENCE_START];
    let (mut unknown, mut total) = (0, 0i64);
    for &word in words {
        let scored = rule.score(&preceding, word);
        unknown += scored.unknown as usize;
        total += scored.points as i64;
        preceding.push(word);
    }
    total += rule.score(&preceding, SENTENCE_END).points as i64;
    format!("{number:>8}{:>8}{unknown:>8}{total:>16}\n", words.len())
}

/// The lines with their LF; what stands behind the last LF, if anything does, is a line without one.
fn lines(bytes: &[u8]) -> impl Iterator<Item = &[u8]> {
    bytes.split_inclusive(|&byte| byte == b'\n')
}

fn columns(line: &[u8], width: usize) -> Option<Vec<i32>> {
    line.chunks(width).map(|text| column(text, width)).collect()
}

/// A column's number: it must stand there as it is printed, "right-justified .., spaces before it, no leading zeros, no −0". One "that signed 32 bits
/// don't hold gives 13".
fn column(text: &[u8], width: usize) -> Option<i32> {
    let number: i32 = from_utf8(text).ok()?.trim_start_matches(' ').parse().ok()?;
    (format!("{number:>width$}").as_bytes() == text).then_some(number)
}
