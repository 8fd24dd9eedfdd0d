//! `backoff sentences`: every sentence of a few words, with its total.

use crate::failure::Failure;
use crate::listing::Listing;
use crate::model::Model;
use crate::progress::Progress;
use crate::subcommands::Source;
use std::io::Write;

pub fn sentences(source: &Source, length: u32, out: &mut impl Write) -> Result<(), Failure> {
    let model = Model::load(source, &Progress::start(true))?;
    let (listing, sentences) = Listing::call(&model, source, length, |base, check, words, totals| {
        let answer = backoff::sentences(base, check, length, words, totals);
        (answer.number, answer.sentences)
    })?;
    for number in 1..=sentences as usize {
        out.write_all(&listing.line(number, &model.list)).map_err(Failure::output)?;
    }
    Ok(())
}
