//! A text as numbers: the words of its lines, and what each scores.

use crate::subcommands::Marks;
use crate::text;
use backoff::limits::{END_WORD, UNKNOWN_LENGTH};
use std::collections::HashMap;
use std::ops::Range;

/// A word's matched length is the rest of its length byte.
const MATCHED: u8 = 7;

/// How the closing `</s>` is printed.
const END_TEXT: &[u8] = b"</s>";

/// A word that no list has.
const UNLISTED: u32 = 0;

/// The words of all lines of a text. Each line is closed with `</s>`, also where that is not asked for: then it belongs to no line.
#[derive(Clone)]
pub struct Reading<'t> {
    pub texts: Vec<&'t [u8]>,
    pub words: Vec<u32>,
    /// For each line, the number of words up to its end, the closing one too.
    ends: Vec<usize>,
    marks: Marks,
    pub points: Vec<i32>,
    pub lengths: Vec<u8>,
}

impl<'t> Reading<'t> {
    /// The words of a text, not yet scored.
    pub fn new(text: &'t [u8], numbers: &HashMap<&[u8], u32>, marks: Marks) -> Reading<'t> {
        let (mut texts, mut words, mut ends) = (Vec::new(), Vec::new(), Vec::new());
        for line in text::lines(text) {
            for word in text::words(line) {
                texts.push(word);
                words.push(numbers.get(word).copied().unwrap_or(UNLISTED));
            }
            texts.push(END_TEXT);
            words.push(END_WORD);
            ends.push(words.len());
        }
        let (points, lengths) = (vec![0; words.len()], vec![0; words.len()]);
        Reading { texts, words, ends, marks, points, lengths }
    }

    /// How many words there are, the closing ones too.
    pub fn len(&self) -> usize {
        self.words.len()
    }

    pub fn marks(&self) -> Marks {
        self.marks
    }

    /// The places of each line's words.
    pub fn lines(&self) -> impl Iterator<Item = Range<usize>> + '_ {
        let closing = if self.marks.eos { 0 } else { 1 };
        self.closed_lines().map(move |line| line.start..line.end - closing)
    }

    /// The places that are scored from a beginning of their own: without `<s>` those of each line; with it all, since a 3 leads back to the beginning.
    pub fn stretches(&self) -> Vec<Range<usize>> {
        match self.marks.bos {
            true => std::iter::once(0..self.len()).collect(),
            false => self.closed_lines().collect(),
        }
    }

    fn closed_lines(&self) -> impl Iterator<Item = Range<usize>> + '_ {
        let starts = [0].into_iter().chain(self.ends.iter().copied());
        starts.zip(&self.ends).map(|(start, &end)| start..end)
    }

    pub fn is_unknown(&self, place: usize) -> bool {
        self.lengths[place] & UNKNOWN_LENGTH != 0
    }

    /// The number of words in the row whose p was used.
    pub fn matched(&self, place: usize) -> usize {
        (self.lengths[place] & MATCHED) as usize
    }
}
