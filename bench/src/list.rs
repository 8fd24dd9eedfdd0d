//! The list check as the team writes it in Rust: the shorter rows among the rows of one length ahead, by keys of 64 bits, no memory of its own. The row without
//! the first word only moves on from row to row; the row without the last word is searched by halves, but for a word that is the number of its own row.

use backoff::Status;

pub const MOST_ROWS: usize = 65_535;
pub const LARGEST_WORD: i32 = 65_535;
pub const LOWEST_P: i32 = -99_000_000;
pub const LARGEST_B: i32 = 99_000_000;

/// The verdict on a list: 1, then row by row 3 to 8, then 9.
pub fn check(table: &[i32]) -> Status {
    check_by::<false>(table)
}

/// The same; where filling follows, a row needs the row without its last word and that of its last word alone.
pub fn check_by<const TO_BE_FILLED: bool>(table: &[i32]) -> Status {
    if !length_fits(table) {
        return Status { number: 1, place: 0 };
    }
    let (rows, _) = table.as_chunks::<8>();
    match first_fault::<TO_BE_FILLED>(rows) {
        Some((number, row)) => Status { number, place: row as u32 + 1 },
        None if has_marks(rows) => Status { number: 0, place: 0 },
        None => Status { number: 9, place: 0 },
    }
}

pub fn length_fits(table: &[i32]) -> bool {
    !table.is_empty() && table.len().is_multiple_of(8) && table.len() / 8 <= MOST_ROWS
}

pub type Row = [i32; 8];

fn first_fault<const TO_BE_FILLED: bool>(rows: &[Row]) -> Option<(u32, usize)> {
    let order = rows[rows.len() - 1][0];
    let mut last = Key { high: 0, low: 0 };
    let mut ahead = Ahead { words: rows, shorter: &[], newest: 0, length: 0, start: 0 };
    for (i, row) in rows.iter().enumerate() {
        if let Some(number) = field_fault(row, order) {
            return Some((number, i));
        }
        let key = Key::of(row);
        if key <= last {
            return Some((7, i));
        }
        let m = row[0] as usize;
        if m != ahead.length {
            ahead.begin(rows, i, m);
        }
        if m > 1 && !ahead.both_listed::<TO_BE_FILLED>(m, key) {
            return Some((8, i));
        }
        last = key;
    }
    None
}

fn field_fault(row: &Row, order: i32) -> Option<u32> {
    let &[m, w1, w2, w3, w4, w5, p, b] = row;
    if !(1..=5).contains(&m) {
        return Some(3);
    }
    for (place, word) in (1..).zip([w1, w2, w3, w4, w5]) {
        if place <= m {
            if !(1..=LARGEST_WORD).contains(&word) {
                return Some(4);
            }
        } else if word != 0 {
            return Some(4);
        }
    }
    if !(LOWEST_P..=0).contains(&p) {
        return Some(5);
    }
    if !(-LARGEST_B..=LARGEST_B).contains(&b) || (m == order && b != 0) {
        return Some(6);
    }
    None
}

/// Keys ascend as the rows do: m and the fifth word, then the fourth to the first.
#[derive(Clone, Copy, PartialEq, Eq, PartialOrd, Ord)]
pub struct Key {
    high: u32,
    low: u64,
}

impl Key {
    pub fn of(row: &Row) -> Key {
        Key { high: (row[0] as u32) << 16 | row[5] as u32, low: low(row) }
    }
}

/// The first four words in one number; rows of the same m below 5 ascend by it.
pub fn low(row: &Row) -> u64 {
    row[1] as u64 | (row[2] as u64) << 16 | (row[3] as u64) << 32 | (row[4] as u64) << 48
}

/// The rows ahead of the rows of one length, in which their shorter rows are searched.
struct Ahead<'a> {
    /// The rows of one word, once those of two begin.
    words: &'a [Row],
    /// The rows of one word fewer.
    shorter: &'a [Row],
    /// Where the row without the first word stood last, or that of the last word alone.
    newest: usize,
    /// The length, and the first row of it.
    length: usize,
    start: usize,
}

impl<'a> Ahead<'a> {
    /// Rows of m words begin with row i.
    fn begin(&mut self, rows: &'a [Row], i: usize, m: usize) {
        self.shorter = if m == self.length + 1 { &rows[self.start..i] } else { &[] };
        if m == 2 {
            self.words = self.shorter;
        }
        (self.newest, self.length, self.start) = (0, m, i);
    }

    /// Both shorter rows of a row of m words; or that without the last word, and that of the last word alone.
    fn both_listed<const TO_BE_FILLED: bool>(&mut self, m: usize, key: Key) -> bool {
        let without_first = key.low >> 16 | (key.high as u64 & 0xFFFF) << 48;
        let without_last = key.low & (u64::MAX >> (64 - 16 * (m - 1)));
        let (rows, newest) = if TO_BE_FILLED { (self.words, without_first >> (16 * (m - 2))) } else { (self.shorter, without_first) };
        self.newest += rows[self.newest..].iter().take_while(|&row| low(row) < newest).count();
        has_key(rows, self.newest, newest) && listed(self.shorter, without_last)
    }
}

/// Whether a row of so many rows of one length has this key.
fn listed(rows: &[Row], key: u64) -> bool {
    has_key(rows, key as usize - 1, key) || has_key(rows, rows.partition_point(|row| low(row) < key), key)
}

fn has_key(rows: &[Row], i: usize, key: u64) -> bool {
    rows.get(i).is_some_and(|row| low(row) == key)
}

/// The words 1, 2 and 3 are the first rows where they are listed at all.
fn has_marks(rows: &[Row]) -> bool {
    rows.len() >= 3 && (0..3).all(|i| rows[i][..2] == [1, i as i32 + 1])
}

#[cfg(test)]
mod tests {
    use tests::damage::{self, Cells};
    use tests::lists::small;
    use tests::random::Random;
    use tests::reference::list::verdict;

    /// The checker that ours is timed against gives the same answers, so it does the same work.
    #[test]
    fn same_answers() {
        let mut random = Random::new(1);
        for i in 0..2_000 {
            let cells: Vec<Cells> = small(&mut random, 1 + i % 5).iter().map(|row| row.cells()).collect();
            for (name, damage) in damage::kinds() {
                let mut damaged = cells.clone();
                let row = random.below(cells.len());
                damage(&mut random, &mut damaged, row);
                let status = super::check(&damaged.concat());
                assert_eq!((status.number, status.place), verdict(&damaged.concat()), "{name}");
            }
        }
    }
}
