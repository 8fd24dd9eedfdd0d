//! The array file. All numbers are little-endian and have 32 bits.
//!
//! ```text
//! 8 bytes   the letters `backoff` and a line feed
//! u32       format version: 1
//! u32       order n
//! u32       rows of the list
//! u32       words W
//! u32       slots N
//! u32       bytes of the texts T
//! N x i32   base
//! N x i32   check
//! T bytes   for each word 1 to W: one byte with the length of its text, then the text
//! u32       CRC-32 of all bytes before it
//! ```

use crate::array::Array;
use crate::checksum::crc32;
use crate::list::{is_text, List, RESERVED_TEXTS};
use backoff::limits::{ORDER_LIMIT, ROW_ITEMS, ROW_LIMIT, SLOT_LIMIT, TEXT_LIMIT, WORD_LIMIT};
use backoff::number::{ACCEPTED, ARRAY_HEAD, SHORT_SLICE};
use std::collections::HashSet;

const FIRST_LINE: &[u8; 8] = b"backoff\n";
const VERSION: u32 = 1;
const NUMBER_BYTES: usize = 4;
const HEAD_NUMBERS: usize = 6;
const HEAD_BYTES: usize = FIRST_LINE.len() + HEAD_NUMBERS * NUMBER_BYTES;

/// What the arrays of earlier versions have as `check[0]` beside their order, and the version.
const EARLIER_HEADS: [(i32, u32); 3] = [(8, 1), (40, 2), (16, 3)];

/// The sizes that the head gives.
struct Head {
    order: usize,
    rows: usize,
    words: usize,
    slots: usize,
    text_bytes: usize,
}

/// Whether bytes begin as those of an array file.
pub fn is_array_file(bytes: &[u8]) -> bool {
    bytes.starts_with(FIRST_LINE)
}

pub fn encode(list: &List, array: &Array) -> Vec<u8> {
    let text_bytes: usize = list.texts.iter().map(|text| 1 + text.len()).sum();
    let head = [VERSION as usize, list.order(), list.row_count(), list.texts.len(), array.slots(), text_bytes];
    let mut bytes = FIRST_LINE.to_vec();
    bytes.extend(head.iter().flat_map(|&number| (number as u32).to_le_bytes()));
    bytes.extend(array.base.iter().chain(&array.check).flat_map(|number| number.to_le_bytes()));
    for text in &list.texts {
        bytes.push(text.len() as u8);
        bytes.extend(text);
    }
    let sum = crc32(&bytes);
    bytes.extend(sum.to_le_bytes());
    bytes
}

/// The list and the array of a file, or what is wrong with it. The array is unloaded, so that what passes is what a build writes.
pub fn decode(bytes: &[u8]) -> Result<(List, Array), String> {
    let head = Head::read(bytes)?;
    head.fits(bytes)?;
    let numbers = bytes[HEAD_BYTES..].as_chunks::<NUMBER_BYTES>().0;
    let slots = |from: usize| numbers[from..from + head.slots].iter().map(|&number| i32::from_le_bytes(number)).collect();
    let array = Array { base: slots(0), check: slots(head.slots) }.cut();
    let texts_start = HEAD_BYTES + 2 * head.slots * NUMBER_BYTES;
    let texts = texts(&bytes[texts_start..texts_start + head.text_bytes], head.words)?;
    let list = List { table: table(&array, head.rows)?, texts };
    if list.order() != head.order {
        return Err(format!("the head says order {}, but the array has order {}", head.order, list.order()));
    }
    let words = list.lengths()[0];
    match list.rows().take(words).map(|row| row.words[0]).eq(1..=head.words as i32) {
        true => Ok((list, array)),
        false => Err(format!("the file has texts for {} words, but the array has other words than 1 to {0}", head.words)),
    }
}

impl Head {
    fn read(bytes: &[u8]) -> Result<Head, String> {
        if !is_array_file(bytes) && !FIRST_LINE.starts_with(bytes) {
            return Err("not an array file: its first line is not `backoff`".to_string());
        }
        let Some(head) = bytes.get(FIRST_LINE.len()..HEAD_BYTES) else { return Err(cut_file(bytes.len(), HEAD_BYTES)) };
        let number = |place: usize| head.as_chunks().0.get(place).map_or(0, |&number| u32::from_le_bytes(number)) as usize;
        if number(0) != VERSION as usize {
            return Err(format!("an array file of format version {}: this program reads version {VERSION}", number(0)));
        }
        let head = Head { order: number(1), rows: number(2), words: number(3), slots: number(4), text_bytes: number(5) };
        head.in_range()?;
        Ok(head)
    }

    fn in_range(&self) -> Result<(), String> {
        let sizes = [
            ("order", self.order, 1, ORDER_LIMIT),
            ("number of rows", self.rows, RESERVED_TEXTS.len(), ROW_LIMIT),
            ("number of words", self.words, RESERVED_TEXTS.len(), WORD_LIMIT),
            ("number of slots", self.slots, 2, SLOT_LIMIT),
            ("number of text bytes", self.text_bytes, 2 * self.words, (1 + TEXT_LIMIT) * self.words),
        ];
        match sizes.iter().find(|(_, size, low, high)| size < low || size > high) {
            Some((name, size, low, high)) => Err(format!("the head is broken: the {name} is {size}, not {low} to {high}")),
            None => Ok(()),
        }
    }

    /// Whether the file is as long as its head says, and its checksum is that of its bytes.
    fn fits(&self, bytes: &[u8]) -> Result<(), String> {
        let before_sum = HEAD_BYTES + 2 * self.slots * NUMBER_BYTES + self.text_bytes;
        let whole = before_sum + NUMBER_BYTES;
        if bytes.len() < whole {
            return Err(cut_file(bytes.len(), whole));
        }
        if bytes.len() > whole {
            return Err(format!("the file is too long: {} bytes, where its head says {whole}", bytes.len()));
        }
        if crc32(&bytes[..before_sum]).to_le_bytes() != bytes[before_sum..] {
            return Err("the checksum is not that of the bytes: some of them were changed".to_string());
        }
        Ok(())
    }
}

fn cut_file(bytes: usize, whole: usize) -> String {
    format!("the array file is cut: {bytes} bytes are there, {whole} are needed")
}

/// The list that the array holds.
fn table(array: &Array, rows: usize) -> Result<Vec<i32>, String> {
    let (mut table, mut work) = (vec![0; ROW_ITEMS * rows], vec![0; rows]);
    let status = backoff::unload(&array.base, &array.check, &mut table, &mut work);
    // A build writes the number of rows here.
    let held = array.base.get(1).copied().unwrap_or(0);
    match status.number {
        ACCEPTED if held as usize == rows => Ok(table),
        ACCEPTED | SHORT_SLICE => Err(format!("the head says {rows} rows, but the array has {held}")),
        ARRAY_HEAD => Err(format!("refused by {ARRAY_HEAD}: {}{}", backoff::reason(ARRAY_HEAD), earlier(array))),
        number => Err(format!("refused by {number}: {}", backoff::reason(number))),
    }
}

/// The sentence on an array of an earlier version.
fn earlier(array: &Array) -> String {
    let head = array.check.first().copied().unwrap_or(0);
    let is_order = |offset: i32| (1..=ORDER_LIMIT as i32).contains(&head.wrapping_sub(offset));
    let version = EARLIER_HEADS.iter().find(|&&(offset, _)| is_order(offset));
    version.map_or(String::new(), |(_, version)| format!(" Version {version} wrote it."))
}

fn texts(mut bytes: &[u8], words: usize) -> Result<Vec<Vec<u8>>, String> {
    let mut texts = Vec::with_capacity(words);
    let mut met = HashSet::with_capacity(words);
    while let Some((&length, rest)) = bytes.split_first() {
        let word = texts.len() + 1;
        let Some((text, rest)) = rest.split_at_checked(length as usize) else { return Err(format!("the text of word {word} is cut")) };
        if !is_text(text) || RESERVED_TEXTS.get(word - 1).is_some_and(|reserved| *reserved != text) || !met.insert(text) {
            return Err(format!("word {word} has a text that it may not have: '{}'", text.escape_ascii()));
        }
        texts.push(text.to_vec());
        bytes = rest;
    }
    match texts.len() == words {
        true => Ok(texts),
        false => Err(format!("the head says {words} words, but there are {} texts", texts.len())),
    }
}
