//! All sentences of a few words with their totals, as `backoff_sentences` and `backoff_largest_move` list them.

use crate::failure::Failure;
use crate::list::List;
use crate::model::Model;
use crate::refusal;
use crate::subcommands::Source;
use backoff::limits::LISTING_LIMIT;
use backoff::number::ACCEPTED;

/// Room for any listing, and what a call left in it.
pub struct Listing {
    length: usize,
    words: Vec<u32>,
    totals: Vec<i64>,
}

impl Listing {
    /// Calls a listing of sentences of so many words over a model; or the refusal in words.
    pub fn call<T>(
        model: &Model,
        source: &Source,
        length: u32,
        call: impl Fn(&[i32], &[i32], &mut [u32], &mut [i64]) -> (u32, T),
    ) -> Result<(Listing, T), Failure> {
        let (mut words, mut totals) = (vec![0; length as usize * LISTING_LIMIT], vec![0; LISTING_LIMIT]);
        let (number, answer) = call(&model.array.base, &model.array.check, &mut words, &mut totals);
        match number {
            ACCEPTED => Ok((Listing { length: length as usize, words, totals }, answer)),
            number => Err(Failure::file(&source.path, refusal::of_listing(number, model.list.texts.len()))),
        }
    }

    /// The line of a sentence, numbered from 1: number, total, the texts of its words and their numbers.
    pub fn line(&self, number: usize, list: &List) -> Vec<u8> {
        let words = &self.words[self.length * (number - 1)..self.length * number];
        let texts: Vec<&[u8]> = words.iter().map(|&word| list.text(word as i32)).collect();
        let numbers: Vec<String> = words.iter().map(u32::to_string).collect();
        let total = self.totals[number - 1];
        [format!("{number}\t{total}\t").as_bytes(), &texts.join(&b' '), format!("\t{}\n", numbers.join(" ")).as_bytes()].concat()
    }
}
