//! Rows as people find them: by the texts of their words, and by their line in the ARPA file.

use crate::list::List;
use crate::model_file::ModelFile;
use crate::text_rows;
use std::collections::HashMap;

pub struct RowNames<'a> {
    list: &'a List,
    /// The line of each row, by its words; none where the list comes from an array file.
    lines: Option<HashMap<Vec<u32>, usize>>,
}

impl<'a> RowNames<'a> {
    /// The names of the rows of a file's list.
    pub fn new(list: &'a List, file: &ModelFile) -> RowNames<'a> {
        let lines = || {
            let numbers = list.numbers();
            let words = |row: &text_rows::TextRow| row.words.iter().filter_map(|word| numbers.get(word).copied()).collect();
            text_rows::rows(file.text()).iter().map(|row| (words(row), row.line)).collect()
        };
        RowNames { list, lines: (!file.is_array_file()).then(lines) }
    }

    /// The texts of a row's words, parted by spaces.
    pub fn text(&self, row: &[u32]) -> Vec<u8> {
        row.iter().map(|&word| self.list.text(word as i32)).collect::<Vec<_>>().join(&b' ')
    }

    /// Where a listed row stands; nothing is said where there are no lines.
    pub fn place(&self, row: &[u32]) -> String {
        match &self.lines {
            None => String::new(),
            Some(lines) => lines.get(row).map_or(" (added)".to_string(), |line| format!(" (line {line})")),
        }
    }
}
