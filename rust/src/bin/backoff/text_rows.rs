//! The lines and rows of an ARPA text as they stand in it, for messages about a text that was refused. No score comes from here.

use crate::list::RESERVED_TEXTS;
use std::collections::HashMap;

/// A row of the text.
pub struct TextRow<'a> {
    /// The number of its line, from 1.
    pub line: usize,
    pub text: &'a [u8],
    /// Oldest first.
    pub words: Vec<&'a [u8]>,
}

/// The lines without their line feeds. What follows the last line feed is a line where it is not empty.
pub fn lines(text: &[u8]) -> impl Iterator<Item = &[u8]> {
    text.split_inclusive(|&byte| byte == b'\n').map(|line| line.strip_suffix(b"\n").unwrap_or(line))
}

/// The length of the rows whose section a heading begins.
pub fn heading(line: &[u8]) -> Option<usize> {
    let length = line.strip_prefix(b"\\")?.strip_suffix(b"-grams:")?;
    std::str::from_utf8(length).ok()?.parse().ok()
}

/// The rows of a text whose lines are in form, as they come.
pub fn rows(text: &[u8]) -> Vec<TextRow<'_>> {
    let in_section = |section: &mut usize, line: &[u8]| {
        *section = heading(line).unwrap_or(*section);
        Some(*section > 0 && !line.is_empty() && !line.starts_with(b"\\"))
    };
    let is_row = lines(text).scan(0, in_section);
    let row = |(line, (text, _)): (usize, (_, bool))| TextRow { line, text, words: words(text) };
    (1..).zip(lines(text).zip(is_row)).filter(|(_, (_, is_row))| *is_row).map(row).collect()
}

/// The words of a row's line.
pub fn words(line: &[u8]) -> Vec<&[u8]> {
    let field = line.split(|&byte| byte == b'\t').nth(1).unwrap_or_default();
    field.split(|&byte| byte == b' ').collect()
}

/// The rows as the list has them: by their number of words, then by the number of the last word, of the word before it, and so on; equal ones as they came.
pub fn in_list_order(mut rows: Vec<TextRow>) -> Vec<TextRow> {
    let mut numbers: HashMap<Vec<u8>, usize> = RESERVED_TEXTS.iter().map(|text| text.to_vec()).zip(1..).collect();
    for row in rows.iter().filter(|row| row.words.len() == 1) {
        let next = numbers.len() + 1;
        numbers.entry(row.words[0].to_vec()).or_insert(next);
    }
    rows.sort_by_cached_key(|row| (row.words.len(), row.words.iter().rev().map(|&word| numbers.get(word).copied()).collect::<Vec<_>>()));
    rows
}
