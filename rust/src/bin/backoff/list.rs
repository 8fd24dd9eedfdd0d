//! A list and the texts of its words.

use backoff::limits::{ROW_ITEMS, TEXT_LIMIT};
use std::collections::HashMap;

/// The texts of words 1, 2 and 3.
pub const RESERVED_TEXTS: [&[u8]; 3] = [b"<unk>", b"<s>", b"</s>"];

/// An accepted list, whose words are 1 to the number of texts.
pub struct List {
    /// Eight numbers to a row.
    pub table: Vec<i32>,
    /// The text of word k is in place k - 1.
    pub texts: Vec<Vec<u8>>,
}

/// A row: its words oldest first, and its points.
pub struct Row<'a> {
    pub words: &'a [i32],
    pub p: i32,
    pub b: i32,
}

impl List {
    pub fn rows(&self) -> impl Iterator<Item = Row<'_>> {
        let (rows, _) = self.table.as_chunks::<ROW_ITEMS>();
        rows.iter().map(|[m, words @ .., p, b]| Row { words: &words[..(*m as usize).min(words.len())], p: *p, b: *b })
    }

    pub fn order(&self) -> usize {
        self.rows().last().map_or(0, |row| row.words.len())
    }

    pub fn row_count(&self) -> usize {
        self.table.len() / ROW_ITEMS
    }

    /// How many rows there are of one word, of two, and so on up to the order.
    pub fn lengths(&self) -> Vec<usize> {
        let mut lengths = vec![0; self.order()];
        for row in self.rows() {
            lengths[row.words.len() - 1] += 1;
        }
        lengths
    }

    /// The number of each text.
    pub fn numbers(&self) -> HashMap<&[u8], u32> {
        self.texts.iter().map(Vec::as_slice).zip(1..).collect()
    }

    /// The text of a word that the list has.
    pub fn text(&self, word: i32) -> &[u8] {
        usize::try_from(word - 1).ok().and_then(|place| self.texts.get(place)).map_or(b"", Vec::as_slice)
    }
}

/// Whether an ARPA text may have it as a word.
pub fn is_text(text: &[u8]) -> bool {
    (1..=TEXT_LIMIT).contains(&text.len()) && text.iter().all(|&byte| byte > b' ')
}
