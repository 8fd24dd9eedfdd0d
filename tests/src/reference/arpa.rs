//! Request T-02 of document 02: an ARPA text read into rows and texts, with the refusals 17, 18, 15 and 19, and then those of the list.

use super::list::{verdict_by, Needs, Row, ACCEPTED};
use std::collections::HashMap;
use std::str::from_utf8;

pub const RECORD: usize = 64;
pub const LONGEST_TEXT: usize = 63;
pub const MOST_LENGTHS: usize = 5;
pub const MARKS: [&[u8]; 3] = [b"<unk>", b"<s>", b"</s>"];

/// What the call returns: the number and place of a refusal, (0, 0) for accepted, and the row count.
#[derive(Clone, Copy, Debug, PartialEq, Eq)]
pub struct Answer {
    pub number: u32,
    pub rows: u32,
    pub place: u64,
}

/// A refusal's number and place.
type Refused = (u32, u64);

/// "A reader fills the eight-number rows and a lent store of word texts .. all that no row or met text fills is 0 .. Any refusal leaves table and store 0."
/// "Told that filling follows", it keeps 8 for fewer rows (T-07).
pub fn read_arpa(text: &[u8], to_be_filled: bool, table: &mut [i32], store: &mut [u8]) -> Answer {
    table.fill(0);
    store.fill(0);
    let needs = if to_be_filled { Needs::ToBeFilled } else { Needs::Both };
    match read(text, needs, table.len(), store.len()) {
        Ok((rows, texts)) => {
            table[..8 * rows.len()].copy_from_slice(rows.as_flattened());
            for (text, word) in texts {
                let record = &mut store[RECORD * word as usize..][..RECORD];
                record[0] = text.len() as u8;
                record[1..=text.len()].copy_from_slice(&text);
            }
            Answer { number: 0, rows: rows.len() as u32, place: 0 }
        }
        Err((number, place)) => Answer { number, rows: 0, place },
    }
}

/// The rows in list order and the words' numbers.
fn read(text: &[u8], needs: Needs, items: usize, bytes: usize) -> Result<(Vec<[i32; 8]>, HashMap<Vec<u8>, i32>), Refused> {
    let mut reader = Reader::new(items, bytes);
    let mut next = 1;
    for line in text.split_inclusive(|&byte| byte == b'\n') {
        reader.line(line).map_err(|number| (number, next))?;
        next += 1;
    }
    if !matches!(reader.expected, Expected::Nothing) {
        return Err((17, next));
    }
    let mut rows = reader.rows;
    // Rust's sort is stable: "those of equal words as they came".
    rows.sort_by_key(|row| (row.words.len(), row.words.iter().rev().copied().collect::<Vec<i32>>()));
    let rows: Vec<[i32; 8]> = rows.iter().map(Row::cells).collect();
    match verdict_by(rows.as_flattened(), needs) {
        ACCEPTED => Ok((rows, reader.words)),
        (number, place) => Err((number, place as u64)),
    }
}

/// What a line that is not empty may be.
enum Expected {
    Data,
    /// A count or, where there is one already, the heading of the rows of one word.
    Counts,
    /// A row of so many words, or what follows the section.
    Rows(usize),
    Nothing,
}

struct Reader {
    /// The lengths of table and store.
    items: usize,
    bytes: usize,
    expected: Expected,
    /// The counts announced.
    counts: Vec<usize>,
    /// The lines of this section.
    lines: usize,
    /// The rows as they came.
    rows: Vec<Row>,
    words: HashMap<Vec<u8>, i32>,
    /// How many of the words are no marks.
    others: i32,
}

impl Reader {
    fn new(items: usize, bytes: usize) -> Reader {
        let (expected, counts, rows, words) = (Expected::Data, Vec::new(), Vec::new(), HashMap::new());
        Reader { items, bytes, expected, counts, lines: 0, rows, words, others: 0 }
    }

    /// Takes a line with its LF, or gives the number of a refusal.
    fn line(&mut self, line: &[u8]) -> Result<(), u32> {
        // "Each line ends with LF and has its place in this form or is empty and skipped."
        let line = line.strip_suffix(b"\n").ok_or(17u32)?;
        if line.is_empty() {
            return Ok(());
        }
        match self.expected {
            Expected::Data if line == b"\\data\\" => self.expected = Expected::Counts,
            Expected::Counts => self.count_or_heading(line)?,
            Expected::Rows(m) if line == self.after_section(m) => self.end_section(m)?,
            Expected::Rows(m) => self.row(line, m)?,
            _ => return Err(17),
        }
        Ok(())
    }

    /// "One to five lengths are announced, from 1 upwards, and their sections follow so."
    fn count_or_heading(&mut self, line: &[u8]) -> Result<(), u32> {
        let m = self.counts.len() + 1;
        match count(line, m) {
            Some(count) if m <= MOST_LENGTHS => self.counts.push(count),
            None if m > 1 && line == heading(1) => self.expected = Expected::Rows(1),
            _ => return Err(17),
        }
        Ok(())
    }

    fn after_section(&self, m: usize) -> Vec<u8> {
        if m < self.counts.len() {
            heading(m + 1)
        } else {
            b"\\end\\".to_vec()
        }
    }

    /// "19 for a section whose line count is not the one announced .. the next heading or the end line."
    fn end_section(&mut self, m: usize) -> Result<(), u32> {
        if self.lines != self.counts[m - 1] {
            return Err(19);
        }
        self.lines = 0;
        self.expected = if m < self.counts.len() { Expected::Rows(m + 1) } else { Expected::Nothing };
        Ok(())
    }

    /// "Line by line 17 before 18 .. 15 with the line whose row or text no longer fits comes after that line's 17 and 18."
    fn row(&mut self, line: &[u8], m: usize) -> Result<(), u32> {
        let (p, texts, b) = fields(line, m).ok_or(17u32)?;
        if m == 1 {
            self.number(texts[0]);
        }
        let words: Vec<i32> = texts.iter().map(|&text| self.words.get(text).copied()).collect::<Option<_>>().ok_or(18u32)?;
        let record_fits = |&word: &i32| RECORD * (word as usize + 1) <= self.bytes;
        if 8 * (self.rows.len() + 1) > self.items || !words.iter().all(record_fits) {
            return Err(15);
        }
        self.rows.push(Row { words, p, b });
        self.lines += 1;
        Ok(())
    }

    /// "A text met again keeps its number. `<unk>`, `<s>` and `</s>` become 1, 2, 3; the others count up from 4 as the one-word section brings them."
    fn number(&mut self, text: &[u8]) {
        if self.words.contains_key(text) {
            return;
        }
        let mark = MARKS.iter().position(|&mark| mark == text);
        let word = mark.map_or(4 + self.others, |mark| 1 + mark as i32);
        self.others += mark.is_none() as i32;
        self.words.insert(text.to_vec(), word);
    }
}

fn heading(m: usize) -> Vec<u8> {
    format!("\\{m}-grams:").into_bytes()
}

/// "One space on either side of `=` may be absent, counts have one to nine digits."
fn count(line: &[u8], m: usize) -> Option<usize> {
    let rest = line.strip_prefix(format!("ngram {m}").as_bytes())?;
    let digits = [&b" = "[..], b" =", b"= ", b"="].iter().find_map(|&sign| rest.strip_prefix(sign))?;
    number(digits, 9).map(|count| count as usize)
}

/// The value of one to `most` digits.
fn number(digits: &[u8], most: usize) -> Option<i64> {
    let is_number = (1..=most).contains(&digits.len()) && digits.iter().all(u8::is_ascii_digit);
    from_utf8(digits).ok().filter(|_| is_number)?.parse().ok()
}

/// "A tab parts the fields, one space the words .. A missing back-off is 0." p, the words' texts, b.
fn fields(line: &[u8], m: usize) -> Option<(i32, Vec<&[u8]>, i32)> {
    let fields: Vec<&[u8]> = line.split(|&byte| byte == b'\t').collect();
    let (p, words, b) = match fields[..] {
        [p, words] => (points(p)?, words, 0),
        [p, words, b] => (points(p)?, words, points(b)?),
        _ => return None,
    };
    let texts: Vec<&[u8]> = words.split(|&byte| byte == b' ').collect();
    let is_text = |text: &&[u8]| (1..=LONGEST_TEXT).contains(&text.len()) && text.iter().all(|&byte| byte > b' ');
    (texts.len() == m && texts.iter().all(is_text)).then_some((p, texts, b))
}

/// "A log is an optional minus, one to three digits and optionally a point with one to seven digits, rounded to the nearest point, a half away from zero."
fn points(log: &[u8]) -> Option<i32> {
    let (sign, log) = log.strip_prefix(b"-").map_or((1, log), |log| (-1, log));
    let (whole, decimals) = match log.iter().position(|&byte| byte == b'.') {
        Some(point) => (number(&log[..point], 3)?, decimals(&log[point + 1..])?),
        None => (number(log, 3)?, 0),
    };
    // A point is 1/1,000,000: ten of the units of the seventh decimal.
    let units = 10_000_000 * whole + decimals;
    Some(sign * ((units + 5) / 10) as i32)
}

/// One to seven decimals, in units of the seventh.
fn decimals(digits: &[u8]) -> Option<i64> {
    Some(number(digits, 7)? * 10i64.pow(7 - digits.len() as u32))
}
