//! `backoff query`: a text's scores.

use crate::failure::Failure;
use crate::model::{Model, ModelList};
use crate::model_file::ModelFile;
use crate::progress::Progress;
use crate::score::{Scorer, With};
use crate::side_by_side::side_by_side;
use crate::subcommands::{Asked, Shown, Source, Way};
use crate::tally::Tally;
use crate::text::parts;
use crate::text_file::TextFile;
use std::io::Write;

/// About as many bytes of the text are scored by one thread at a time.
pub const PART_BYTES: usize = 1 << 19;

pub fn query(source: &Source, asked: &Asked, out: &mut impl Write) -> Result<(), Failure> {
    let progress = Progress::start(true);
    if asked.way == Way::Plain {
        progress.say("reading the model");
        let read = ModelList::read(&ModelFile::read(source)?, source)?;
        return score(Scorer::new(&read.list, With::ListAlone, asked.text.marks), asked, &progress, out);
    }
    let model = Model::load(source, &progress)?;
    let with = if asked.way == Way::Both { With::Both(&model.array) } else { With::Array(&model.array) };
    score(Scorer::new(&model.list, with, asked.text.marks), asked, &progress, out)
}

fn score(scorer: Scorer, asked: &Asked, progress: &Progress, out: &mut impl Write) -> Result<(), Failure> {
    progress.say("scoring");
    let mut text = TextFile::open(asked.text.path.as_deref())?;
    let mut tally = Tally::default();
    while let Some(piece) = text.next(asked.threads * PART_BYTES)? {
        let answer = |part| scorer.scored(part).map(|reading| asked.form.answer(&reading));
        for answer in side_by_side(parts(&piece, asked.threads), answer)? {
            out.write_all(&answer.lines).map_err(Failure::output)?;
            tally += answer.tally;
            progress.add_words(answer.tally.tokens);
        }
        out.flush().map_err(Failure::output)?;
    }
    if asked.form.shown != Shown::Totals {
        out.write_all(tally.summary().as_bytes()).map_err(Failure::output)?;
    }
    Ok(())
}
