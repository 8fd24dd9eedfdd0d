//! `backoff largest-move`: how far one word can move a total, exactly.

use crate::decimal::log10_text;
use crate::failure::Failure;
use crate::listing::Listing;
use crate::model::Model;
use crate::progress::Progress;
use crate::subcommands::Source;
use std::io::Write;

pub fn largest_move(source: &Source, length: u32, out: &mut impl Write) -> Result<(), Failure> {
    let model = Model::load(source, &Progress::start(true))?;
    let (listing, answer) = Listing::call(&model, source, length, |base, check, words, totals| {
        let answer = backoff::largest_move(base, check, length, words, totals);
        (answer.number, answer)
    })?;
    let mut lines = format!("largest move: {} points (log10 {})\n", answer.distance, log10_text(answer.distance)).into_bytes();
    match (answer.first, answer.second) {
        (0, 0) => lines.extend(b"There is no pair, since fewer than two words are used.\n"),
        pair => [pair.0, pair.1].iter().for_each(|&number| lines.extend(listing.line(number as usize, &model.list))),
    }
    out.write_all(&lines).map_err(Failure::output)
}
