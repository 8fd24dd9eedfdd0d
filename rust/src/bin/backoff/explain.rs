//! `backoff explain`: each word's points as the addition that the back-off rule makes.

use crate::about::About;
use crate::explained::{explained, Sentence};
use crate::failure::Failure;
use crate::files;
use crate::ledger;
use crate::model::Model;
use crate::model_file::ModelFile;
use crate::page::Page;
use crate::progress::Progress;
use crate::query::PART_BYTES;
use crate::row_names::RowNames;
use crate::score::{Scorer, With};
use crate::standard;
use crate::subcommands::{Source, Text};
use crate::text_file::TextFile;
use std::io::Write;
use std::path::Path;

/// Prints the additions, or writes them as a page to a file.
pub fn explain(source: &Source, text: &Text, page: Option<&Path>, out: &mut impl Write) -> Result<(), Failure> {
    let progress = Progress::start(true);
    progress.say("reading the model");
    for read in [source.path.as_path(), text.path.as_deref().unwrap_or(Path::new(standard::NAME))] {
        page.map_or(Ok(()), |page| files::require_another(page, read))?;
    }
    let file = ModelFile::read(source)?;
    let model = Model::of(&file, source, &progress)?;
    let names = RowNames::new(&model.list, &file);
    match page {
        None => print(&model, text, &names, out),
        Some(path) => {
            let mut page = Page::default();
            each_sentence(&model, text, |sentence| {
                page.add(sentence, &names);
                Ok(())
            })?;
            let about = About::new(source, &file, &model.list, model.added, text.marks);
            files::write_named(path, page.finish(&about).as_bytes(), out)
        }
    }
}

fn print(model: &Model, text: &Text, names: &RowNames, out: &mut impl Write) -> Result<(), Failure> {
    let (mut sentences, mut total) = (0, 0);
    each_sentence(model, text, |sentence| {
        let mut lines = if sentences == 0 { Vec::new() } else { vec![b'\n'] };
        sentences += 1;
        total += sentence.total;
        ledger::print(sentence, sentences, names, &mut lines);
        out.write_all(&lines).map_err(Failure::output)
    })?;
    if sentences < 2 {
        return Ok(());
    }
    let mut line = vec![b'\n'];
    ledger::print_total(sentences, total, &mut line);
    out.write_all(&line).map_err(Failure::output)
}

fn each_sentence(model: &Model, text: &Text, mut see: impl FnMut(&Sentence) -> Result<(), Failure>) -> Result<(), Failure> {
    let scorer = Scorer::new(&model.list, With::Array(&model.array), text.marks);
    let mut text = TextFile::open(text.path.as_deref())?;
    while let Some(piece) = text.next(PART_BYTES)? {
        for sentence in explained(model, &scorer, &piece).map_err(Failure::Told)? {
            see(&sentence)?;
        }
    }
    Ok(())
}
