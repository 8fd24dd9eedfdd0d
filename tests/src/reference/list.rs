//! "The list" of document 01 and the refusals 1 and 3 to 9, in the points of T-08; of a list that is to be filled too (T-07).

use std::collections::HashSet;

pub const MOST_ROWS: usize = 65_535;
pub const LARGEST_WORD: i32 = 65_535;
/// "p is −99,000,000..0, b is ±99,000,000, in rows, markers and states alike."
pub const LOWEST_P: i32 = -99_000_000;
pub const LARGEST_B: i32 = 99_000_000;

/// Number and place of a refusal, (0, 0) for accepted.
pub type Refusal = (u32, u32);

pub const ACCEPTED: Refusal = (0, 0);

/// A row of a list; the words oldest first.
#[derive(Clone, Debug, PartialEq, Eq)]
pub struct Row {
    pub words: Vec<i32>,
    pub p: i32,
    pub b: i32,
}

impl Row {
    /// Reads eight numbers, the first of them in 1..5.
    pub fn read(cells: &[i32]) -> Row {
        Row { words: cells[1..=cells[0] as usize].to_vec(), p: cells[6], b: cells[7] }
    }

    pub fn cells(&self) -> [i32; 8] {
        let mut cells = [0; 8];
        cells[0] = self.words.len() as i32;
        cells[1..=self.words.len()].copy_from_slice(&self.words);
        cells[6] = self.p;
        cells[7] = self.b;
        cells
    }
}

/// The rows of an accepted list.
pub fn rows(table: &[i32]) -> Vec<Row> {
    table.chunks(8).map(Row::read).collect()
}

/// The sequences that some row follows with one more word: a row's f is 1 if its words are one of them.
pub fn continued<'a>(rows: impl IntoIterator<Item = &'a Row>) -> HashSet<&'a [i32]> {
    rows.into_iter().map(|row| &row.words[..row.words.len() - 1]).collect()
}

/// The sequences in front of which some row puts a further word: a row's e is 1 if its words are one of them.
pub fn extended<'a>(rows: impl IntoIterator<Item = &'a Row>) -> HashSet<&'a [i32]> {
    rows.into_iter().map(|row| &row.words[1..]).collect()
}

/// Which shorter rows a row needs: both, or, where filling follows, "8 is kept for an absent row without the last word and for an absent one-word row" (T-07).
#[derive(Clone, Copy, Debug, PartialEq, Eq)]
pub enum Needs {
    Both,
    ToBeFilled,
}

/// The verdict on a lent list: 1, then row by row 3 to 8, then 9.
pub fn verdict(table: &[i32]) -> Refusal {
    verdict_by(table, Needs::Both)
}

/// The same by the shorter rows that a row needs.
pub fn verdict_by(table: &[i32], needs: Needs) -> Refusal {
    if table.is_empty() || !table.len().is_multiple_of(8) || table.len() / 8 > MOST_ROWS {
        return (1, 0);
    }
    let order = table[table.len() - 8];
    let mut before = Before::default();
    for (i, cells) in table.chunks(8).enumerate() {
        if let Some(number) = field_fault(cells, order) {
            return (number, i as u32 + 1);
        }
        let row = Row::read(cells);
        if let Some(number) = before.fault(&row.words, needs) {
            return (number, i as u32 + 1);
        }
        before.push(row.words);
    }
    if [1, 2, 3].iter().any(|&mark| !before.holds(&[mark])) {
        return (9, 0);
    }
    ACCEPTED
}

/// The faults 3 to 6, which a row has by itself.
fn field_fault(cells: &[i32], order: i32) -> Option<u32> {
    let (m, p, b) = (cells[0], cells[6], cells[7]);
    if !(1..=5).contains(&m) {
        return Some(3);
    }
    let (used, unused) = cells[1..6].split_at(m as usize);
    if used.iter().any(|w| !(1..=LARGEST_WORD).contains(w)) || unused.iter().any(|&w| w != 0) {
        return Some(4);
    }
    if !(LOWEST_P..=0).contains(&p) {
        return Some(5);
    }
    if !(-LARGEST_B..=LARGEST_B).contains(&b) || (m == order && b != 0) {
        return Some(6);
    }
    None
}

/// The words of the rows before a row.
#[derive(Default)]
struct Before {
    all: HashSet<Vec<i32>>,
    last: Option<Vec<i32>>,
}

impl Before {
    /// The faults 7 and 8, which a row has by the rows before it.
    fn fault(&self, words: &[i32], needs: Needs) -> Option<u32> {
        if self.last.as_ref().is_some_and(|last| !ascends(last, words)) {
            return Some(7);
        }
        let newest = match needs {
            Needs::Both => &words[1..],
            Needs::ToBeFilled => &words[words.len() - 1..],
        };
        if words.len() >= 2 && !(self.holds(newest) && self.holds(&words[..words.len() - 1])) {
            return Some(8);
        }
        None
    }

    fn holds(&self, words: &[i32]) -> bool {
        self.all.contains(words)
    }

    fn push(&mut self, words: Vec<i32>) {
        self.all.insert(words.clone());
        self.last = Some(words);
    }
}

/// "Rows ascend strictly by m, then by last word, then the word before it, and so on."
fn ascends(last: &[i32], words: &[i32]) -> bool {
    last.len() < words.len() || (last.len() == words.len() && last.iter().rev().lt(words.iter().rev()))
}
