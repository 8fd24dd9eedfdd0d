//! Reading an ARPA text as the team writes it in Rust: texts in a table of open addressing, rows in a vector that is sorted by keys made once, memory as it is needed.

use crate::list::{self, Row, MOST_ROWS};
use backoff::Rows;

const RECORD: usize = 64;
const LONGEST_TEXT: usize = 63;
const MOST_LENGTHS: usize = 5;
const HEADINGS: [&[u8]; MOST_LENGTHS] = [b"\\1-grams:\n", b"\\2-grams:\n", b"\\3-grams:\n", b"\\4-grams:\n", b"\\5-grams:\n"];
const COUNTS: [&[u8]; MOST_LENGTHS] = [b"ngram 1", b"ngram 2", b"ngram 3", b"ngram 4", b"ngram 5"];

/// Line by line 17, 18, 15, and 19 at a section's end; then 1, row by row 3 to 8, 9.
pub fn read_arpa(text: &[u8], table: &mut [i32], store: &mut [u8]) -> Rows {
    let mut reader = Reader {
        rest: text,
        line: 1,
        room: (table.len(), store.len()),
        rows: Vec::new(),
        words: Words { slots: vec![FREE; 16], texts: Vec::new() },
        next_word: 4,
    };
    let read = reader.read().and_then(|()| in_order(&mut reader.rows));
    table.fill(0);
    store.fill(0);
    match read {
        Ok(()) => {
            table[..8 * reader.rows.len()].copy_from_slice(reader.rows.as_flattened());
            for (word, text) in reader.words.texts {
                let record = &mut store[RECORD * word as usize..][..RECORD];
                record[0] = text.len() as u8;
                record[1..=text.len()].copy_from_slice(text);
            }
            Rows { number: 0, rows: reader.rows.len() as u32, place: 0 }
        }
        Err((number, place)) => Rows { number, rows: 0, place },
    }
}

/// Number and place.
type Refused = (u32, u64);

/// Sorts the rows, which keeps equal ones as they came, and checks the list.
fn in_order(rows: &mut [Row]) -> Result<(), Refused> {
    if rows.len() > MOST_ROWS {
        return Err((1, 0));
    }
    if !rows.is_sorted_by_key(key) {
        rows.sort_by_cached_key(key);
    }
    match list::check(rows.as_flattened()) {
        status if status.number == 0 => Ok(()),
        status => Err((status.number, status.place as u64)),
    }
}

/// 17 bits to a word: so many rows bring no word above 65,538.
fn key(row: &Row) -> u128 {
    row[1..6].iter().rev().fold(row[0] as u128, |key, &word| key << 17 | word as u128)
}

struct Reader<'a> {
    /// What is left of the text.
    rest: &'a [u8],
    /// The number of the line that it begins with.
    line: u64,
    /// The lengths of table and store.
    room: (usize, usize),
    rows: Vec<Row>,
    words: Words<'a>,
    /// The number of the next text that is no mark.
    next_word: i32,
}

impl<'a> Reader<'a> {
    fn read(&mut self) -> Result<(), Refused> {
        self.skip_empty();
        self.fixed(b"\\data\\\n")?;
        let (mut counts, mut lengths) = ([0; MOST_LENGTHS], 0);
        while lengths < MOST_LENGTHS && (lengths == 0 || !self.rest.starts_with(b"\\")) {
            counts[lengths] = self.count(lengths).ok_or((17, self.line))?;
            self.next_line();
            lengths += 1;
        }
        self.fixed(HEADINGS[0])?;
        for m in 1..=lengths {
            let lines = self.section(m)?;
            let line = self.line;
            self.fixed(if m < lengths { HEADINGS[m] } else { b"\\end\\\n" })?;
            if lines != counts[m - 1] {
                return Err((19, line));
            }
        }
        if self.rest.is_empty() {
            Ok(())
        } else {
            Err((17, self.line))
        }
    }

    /// The rows of a section, up to a line that begins otherwise.
    fn section(&mut self, m: usize) -> Result<u64, Refused> {
        let mut lines = 0;
        while self.rest.first().is_some_and(|&byte| byte != b'\\') {
            self.row(m).map_err(|number| (number, self.line))?;
            self.next_line();
            lines += 1;
        }
        Ok(lines)
    }

    fn row(&mut self, m: usize) -> Result<(), u32> {
        let (row, texts) = self.fields(m).ok_or(17u32)?;
        let mut row = row;
        if m == 1 {
            row[1] = self.number(texts[0]);
        } else {
            for i in 0..m {
                row[1 + i] = self.words.number(texts[i]).ok_or(18u32)?;
            }
        }
        let word_fits = m > 1 || RECORD * (row[1] as usize + 1) <= self.room.1;
        if !word_fits || 8 * (self.rows.len() + 1) > self.room.0 {
            return Err(15);
        }
        self.rows.push(row);
        Ok(())
    }

    /// The row but for its words, and their texts.
    fn fields(&mut self, m: usize) -> Option<(Row, [&'a [u8]; MOST_LENGTHS])> {
        let mut texts: [&[u8]; MOST_LENGTHS] = [&[]; MOST_LENGTHS];
        let mut row = [m as i32, 0, 0, 0, 0, 0, 0, 0];
        row[6] = self.log()?;
        for (i, text) in texts[..m].iter_mut().enumerate() {
            self.byte(if i == 0 { b'\t' } else { b' ' })?;
            *text = self.text()?;
        }
        if self.byte(b'\t').is_some() {
            row[7] = self.log()?;
        }
        self.byte(b'\n')?;
        Some((row, texts))
    }

    fn number(&mut self, text: &'a [u8]) -> i32 {
        if let Some(word) = self.words.number(text) {
            return word;
        }
        let word = match text {
            b"<unk>" => 1,
            b"<s>" => 2,
            b"</s>" => 3,
            _ => self.next_word,
        };
        self.next_word += (word > 3) as i32;
        self.words.add(word, text);
        word
    }

    fn skip_empty(&mut self) {
        while let [b'\n', rest @ ..] = self.rest {
            self.rest = rest;
            self.line += 1;
        }
    }

    /// Behind a line's LF: empty lines follow or none.
    fn next_line(&mut self) {
        self.line += 1;
        self.skip_empty();
    }

    fn fixed(&mut self, line: &[u8]) -> Result<(), Refused> {
        self.rest = self.rest.strip_prefix(line).ok_or((17, self.line))?;
        self.next_line();
        Ok(())
    }

    fn count(&mut self, length: usize) -> Option<u64> {
        self.rest = self.rest.strip_prefix(COUNTS[length])?;
        let _ = self.byte(b' ');
        self.byte(b'=')?;
        let _ = self.byte(b' ');
        let (count, _) = self.digits(9)?;
        self.byte(b'\n')?;
        Some(count)
    }

    fn byte(&mut self, byte: u8) -> Option<()> {
        let (&first, rest) = self.rest.split_first()?;
        if first != byte {
            return None;
        }
        self.rest = rest;
        Some(())
    }

    /// The value of one to `most` digits, and how many there are.
    fn digits(&mut self, most: usize) -> Option<(u64, usize)> {
        let mut value = 0;
        let mut taken = 0;
        while let Some(digit) = self.rest.get(taken).map(|byte| byte.wrapping_sub(b'0')).filter(|&digit| digit < 10 && taken < most) {
            value = 10 * value + digit as u64;
            taken += 1;
        }
        self.rest = &self.rest[taken..];
        (taken > 0).then_some((value, taken))
    }

    fn log(&mut self) -> Option<i32> {
        const UNITS: [u64; 8] = [10_000_000, 1_000_000, 100_000, 10_000, 1_000, 100, 10, 1];
        let negative = self.byte(b'-').is_some();
        let (whole, _) = self.digits(3)?;
        let (decimals, digits) = if self.byte(b'.').is_some() { self.digits(7)? } else { (0, 0) };
        let points = ((whole * UNITS[0] + decimals * UNITS[digits] + 5) / 10) as i32;
        Some(if negative { -points } else { points })
    }

    fn text(&mut self) -> Option<&'a [u8]> {
        let rest = self.rest;
        let length = rest.iter().take(LONGEST_TEXT + 1).take_while(|&&byte| byte > b' ').count();
        let (text, rest) = rest.split_at(length);
        self.rest = rest;
        (1..=LONGEST_TEXT).contains(&length).then_some(text)
    }
}

const FREE: u32 = u32::MAX;

/// The texts with their numbers, and slots that have a text's place among them or are free: at least half of them are, and their number is a power of 2.
struct Words<'a> {
    slots: Vec<u32>,
    texts: Vec<(i32, &'a [u8])>,
}

impl<'a> Words<'a> {
    fn number(&self, text: &[u8]) -> Option<i32> {
        let place = self.slots[self.slot(text)];
        (place != FREE).then(|| self.texts[place as usize].0)
    }

    fn add(&mut self, word: i32, text: &'a [u8]) {
        self.texts.push((word, text));
        if 2 * self.texts.len() > self.slots.len() {
            self.slots = vec![FREE; 2 * self.slots.len()];
            for place in 0..self.texts.len() {
                self.take_slot(place);
            }
        } else {
            self.take_slot(self.texts.len() - 1);
        }
    }

    fn take_slot(&mut self, place: usize) {
        let slot = self.slot(self.texts[place].1);
        self.slots[slot] = place as u32;
    }

    /// The slot that has the text, or that is free for it.
    fn slot(&self, text: &[u8]) -> usize {
        let mut slot = hash(text) as usize & (self.slots.len() - 1);
        while self.slots[slot] != FREE && self.texts[self.slots[slot] as usize].1 != text {
            slot = (slot + 1) & (self.slots.len() - 1);
        }
        slot
    }
}

/// Eight bytes at a time.
fn hash(text: &[u8]) -> u64 {
    text.chunks(8).fold(text.len() as u64, |hash, chunk| {
        let mut bytes = [0; 8];
        bytes[..chunk.len()].copy_from_slice(chunk);
        let product = (hash ^ u64::from_le_bytes(bytes)).wrapping_mul(0x9E37_79B9_7F4A_7C15);
        product ^ product >> 32
    })
}

#[cfg(test)]
mod tests {
    use tests::arpa::{bytes, damage_bytes, damage_lines, dense, print_varied, shuffle, texts, with_blanks};
    use tests::lists::small;
    use tests::random::Random;
    use tests::reference;

    /// The reader that ours is timed against gives the same answers and leaves the same, so it does the same work.
    #[test]
    fn same_answers() {
        let mut random = Random::new(1);
        for i in 0..20_000 {
            let mut rows = dense(&small(&mut random, 1 + i % 5));
            let texts = texts(&mut random, rows.len());
            shuffle(&mut random, &mut rows);
            let arpa = print_varied(&mut random, &rows, &texts);
            let mut lines = with_blanks(&mut random, &arpa.lines());
            for _ in 0..random.below(3) {
                damage_lines(&mut random, &mut lines);
            }
            let mut text = bytes(&lines);
            for _ in 0..random.below(2) {
                damage_bytes(&mut random, &mut text);
            }
            let room = if random.chance(80) { (10_000, 64 * 1_000) } else { (random.below(200), random.below(3_000)) };
            let [mut ours, mut second] = [(); 2].map(|()| (vec![1; room.0], vec![1; room.1]));
            let read = super::read_arpa(&text, &mut ours.0, &mut ours.1);
            let answer = reference::arpa::read_arpa(&text, false, &mut second.0, &mut second.1);
            assert_eq!((read.number, read.rows, read.place), (answer.number, answer.rows, answer.place));
            assert!(ours == second);
        }
    }
}
