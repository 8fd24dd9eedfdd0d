//! `backoff check`: what a list has.

use crate::decimal::thousands;
use crate::failure::Failure;
use crate::model::Model;
use crate::progress::Progress;
use crate::subcommands::Source;
use std::io::Write;

pub fn check(source: &Source, out: &mut impl Write) -> Result<(), Failure> {
    let model = Model::load(source, &Progress::start(false))?;
    let (slots, in_use) = (model.array.slots(), model.array.slots_in_use());
    let mut lines = vec![("order".to_string(), model.list.order().to_string()), line("rows", model.list.row_count())];
    for (length, count) in (1..).zip(model.list.lengths()) {
        lines.push(line(&format!("{length}-grams"), count));
    }
    if source.fill {
        lines.push(line("rows added", model.added));
    }
    lines.extend([line("words", model.list.texts.len()), line("slots needed", slots), line("slots in use", in_use)]);
    lines.push(("fill".to_string(), format!("{:.1} %", 100.0 * in_use as f64 / slots as f64)));
    for (name, number) in lines {
        writeln!(out, "{name:<12}  {number:>9}").map_err(Failure::output)?;
    }
    Ok(())
}

fn line(name: &str, number: usize) -> (String, String) {
    (name.to_string(), thousands(number as u64))
}
