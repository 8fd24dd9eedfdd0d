//! The program `backoff`: ARPA models checked, built, dumped and queried, scores explained and compared, over the calls of `include/backoff.h`. The calls are proved; the program is not.

mod about;
mod addition;
mod alignment;
mod arguments;
mod arpa_file;
mod array;
mod array_file;
mod bench;
mod build;
mod changes;
mod check;
mod checksum;
mod columns;
mod compare;
mod comparison;
mod decimal;
mod dump;
mod explain;
mod explained;
mod failure;
mod files;
mod form;
mod html;
mod in_form;
mod largest_move;
mod ledger;
mod lines;
mod list;
mod listing;
mod logarithm;
mod model;
mod model_file;
mod page;
mod page_sentence;
mod plain;
mod progress;
mod put_in_form;
mod query;
mod reading;
mod refusal;
mod row_names;
mod runs;
mod score;
mod sentences;
mod sha256;
mod side_by_side;
mod standard;
mod subcommands;
mod tally;
mod text;
mod text_file;
mod text_rows;

use failure::Failure;
use std::env::args_os;
use std::io::{stderr, BufWriter, Write};
use std::process::ExitCode;
use subcommands::Command;

fn main() -> ExitCode {
    match arguments::parse(args_os().skip(1)).and_then(run) {
        Ok(()) | Err(Failure::ClosedPipe) => ExitCode::SUCCESS,
        Err(Failure::Told(text)) => {
            // Where standard error is closed too, the status tells all that can be told.
            let _ = writeln!(stderr(), "backoff: {text}");
            ExitCode::FAILURE
        }
    }
}

fn run(command: Command) -> Result<(), Failure> {
    let mut out = BufWriter::new(standard::output());
    match command {
        Command::Help(text) => out.write_all(text.as_bytes()).map_err(Failure::output)?,
        Command::Check(source) => check::check(&source, &mut out)?,
        Command::Build(source, path) => build::build(&source, &path, &mut out)?,
        Command::Dump(path) => dump::dump(&path, &mut out)?,
        Command::Query(source, asked) => query::query(&source, &asked, &mut out)?,
        Command::Explain(source, text, page) => explain::explain(&source, &text, page.as_deref(), &mut out)?,
        Command::Compare(source, texts) => compare::compare(&source, &texts, &mut out)?,
        Command::Sentences(source, words) => sentences::sentences(&source, words, &mut out)?,
        Command::LargestMove(source, words) => largest_move::largest_move(&source, words, &mut out)?,
        Command::InForm(path) => in_form::in_form(path.as_deref(), &mut out)?,
        Command::Bench(source, threads) => bench::bench(&source, threads, &mut out)?,
    }
    out.flush().map_err(Failure::output)
}
