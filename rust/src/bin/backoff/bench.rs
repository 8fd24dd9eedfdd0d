//! `backoff bench`: words a second on this machine.

use crate::decimal::thousands;
use crate::failure::Failure;
use crate::list::{List, RESERVED_TEXTS};
use crate::model::Model;
use crate::progress::Progress;
use crate::query::PART_BYTES;
use crate::score::{Scorer, With};
use crate::side_by_side::side_by_side;
use crate::subcommands::{Form, Marks, Shown, Source};
use crate::text::parts;
use std::io::Write;
use std::time::{Duration, Instant};

/// How long each kind of work is timed.
const TIMED: Duration = Duration::from_millis(400);

/// The words of a line.
const LINE_WORDS: usize = 20;

pub fn bench(source: &Source, threads: usize, out: &mut impl Write) -> Result<(), Failure> {
    let progress = Progress::start(false);
    let model = Model::load(source, &progress)?;
    progress.say("timing");
    let text = text(&model.list, threads * PART_BYTES);
    let scorer = Scorer::new(&model.list, With::Array(&model.array), Marks { bos: true, eos: true });
    let mut readings: Vec<_> = parts(&text, threads).into_iter().map(|part| scorer.reading(part)).collect();
    let words: usize = readings.iter().map(|part| part.len()).sum();
    let runs = rate(words, || side_by_side(readings.iter_mut().collect(), |part| scorer.score(part)).map(drop))?;
    let query = |form: Form| {
        let answer = |part| scorer.scored(part).map(|reading| form.answer(&reading));
        rate(words, || side_by_side(parts(&text, threads), answer).map(drop))
    };
    let totals = query(Form { shown: Shown::Totals, ..Form::default() })?;
    let rates = [("runs alone", runs), ("query --totals", totals), ("query", query(Form::default())?)];
    drop(progress);
    writeln!(out, "words a second, {threads} thread{}", if threads == 1 { "" } else { "s" }).map_err(Failure::output)?;
    for (name, rate) in rates {
        writeln!(out, "{name:<14}  {:>13}", thousands(rate)).map_err(Failure::output)?;
    }
    Ok(())
}

/// Words a second, where the work is done on so many words.
fn rate(words: usize, mut work: impl FnMut() -> Result<(), Failure>) -> Result<u64, Failure> {
    let start = Instant::now();
    let mut done = 0;
    while start.elapsed() < TIMED {
        work()?;
        done += words;
    }
    Ok((done as f64 / start.elapsed().as_secs_f64()) as u64)
}

/// A text of the words of rows, in an order that looks random and is always the same.
fn text(list: &List, bytes: usize) -> Vec<u8> {
    let rows: Vec<_> = list.rows().filter(|row| row.words.iter().any(|&word| word as usize > RESERVED_TEXTS.len())).collect();
    let mut text = Vec::with_capacity(bytes);
    let (mut state, mut words) = (1u64, 0);
    while text.len() < bytes {
        // Knuth's MMIX constants.
        state = state.wrapping_mul(6_364_136_223_846_793_005).wrapping_add(1_442_695_040_888_963_407);
        let place = (state >> 33) as usize;
        let row = if rows.is_empty() { &[][..] } else { rows[place % rows.len()].words };
        for &word in row.iter().filter(|&&word| word as usize > RESERVED_TEXTS.len()) {
            text.extend(list.text(word));
            text.push(b' ');
            words += 1;
        }
        if rows.is_empty() || words >= LINE_WORDS {
            text.push(b'\n');
            words = 0;
        }
    }
    text.push(b'\n');
    text
}
