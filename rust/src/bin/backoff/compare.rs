//! `backoff compare`: two readings of a text, line by line.

use crate::comparison::{counted, signed, Readings};
use crate::decimal::log10_text;
use crate::failure::Failure;
use crate::model::Model;
use crate::progress::Progress;
use crate::score::{Scorer, With};
use crate::subcommands::{Source, Text};
use crate::text_file::TextFile;
use std::io::Write;

pub fn compare(source: &Source, texts: &[Text; 2], out: &mut impl Write) -> Result<(), Failure> {
    let progress = Progress::start(true);
    let model = Model::load(source, &progress)?;
    let whole = |text: &Text| TextFile::open(text.path.as_deref())?.whole();
    let [one, two] = [whole(&texts[0])?, whole(&texts[1])?];
    let scorer = Scorer::new(&model.list, With::Array(&model.array), texts[0].marks);
    let [one, two] = [scorer.scored(&one).map_err(Failure::Told)?, scorer.scored(&two).map_err(Failure::Told)?];
    let [first, second] = [one.lines().count(), two.lines().count()];
    if first != second {
        return Err(Failure::Told(format!("the texts have {first} and {second} lines: lines that are compared stand in the same place")));
    }
    let readings = Readings { one: &one, two: &two, count: model.list.order() - 1 };
    let (mut printed, mut differing, mut totals) = (Vec::new(), 0, [0; 2]);
    for (number, (one, two)) in (1..).zip(one.lines().zip(two.lines())) {
        let compared = readings.compare(number, [one, two], &mut printed).map_err(Failure::Told)?;
        differing += compared.differs as usize;
        totals = [totals[0] + compared.totals[0], totals[1] + compared.totals[1]];
    }
    printed.extend(summary(first, differing, totals, readings.count).as_bytes());
    out.write_all(&printed).map_err(Failure::output)
}

fn summary(lines: usize, differing: usize, [one, two]: [i64; 2], count: usize) -> String {
    let lines = format!("{}, of which {}", counted(lines, "line", "lines"), counted(differing, "differs", "differ"));
    let totals = format!("totals {one} and {two}: moved by {} (log10 {})", signed(two - one), log10_text(two - one));
    let after = match count {
        0 => String::new(),
        1 => " and the word after it (|)".to_string(),
        count => format!(" and the {count} words after it (|)"),
    };
    let longest = counted(count + 1, "word", "words");
    let moved = match differing {
        0 => String::new(),
        _ => format!("Only a word that differs (>){after} can have other points, since no row has more than {longest}; so it is here.\n"),
    };
    format!("{lines}\n{totals}\n{moved}")
}
