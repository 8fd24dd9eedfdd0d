//! Our points and matched lengths against those of irstlm; `tests/irstlm/run` calls this.
//!
//! `train` and `unseen` print the two texts, one sentence a line. `drop` reads an ARPA file and prints it without some rows of two words. `compare FOLDER NAME..` reads FOLDER/unseen.txt and, of each list, NAME.arpa and what
//! `compile-lm` printed of the text: NAME.eval by `--eval --debug=2`, with two decimals, and NAME.score by `--score`, with all digits. NAME.form is
//! NAME.arpa as `backoff in-form` prints it, for `backoff_arpa`, and NAME.query what `backoff query` prints of the text without marks.

mod arpa;
mod direct;
mod dropped;
mod printed;
mod query;
mod texts;

use arpa::{Arpa, POINTS};
use printed::Printed;
use std::fs::read_to_string;
use std::process::ExitCode;
use tests::lists::table;
use tests::reference::array::MOST_SLOTS;

/// The order that `run` trains.
const ORDER: usize = 3;

/// p and two back-offs are each rounded by half a point at most, and irstlm holds each of them in 24 bits: below 8 that is off by a quarter of a point at
/// most. Measured on these lists, irstlm's sums are up to 0.21 points from those of the file's decimals, and up to 0.6 from ours.
const ROUNDED: f64 = 3.0 * (0.5 + 0.25);

/// Where irstlm has its first count, padded with spaces.
const COUNTS_LINE: u64 = 3;

/// The refusal of a list in which a shorter row is missing.
const SHORTER_ROW: u32 = 8;

/// How many rows of a hundred are dropped.
const DROPPED: usize = 50;

/// Half of the second decimal.
const TWO_DECIMALS: f64 = 0.005 * POINTS;

fn main() -> ExitCode {
    let arguments: Vec<String> = std::env::args().skip(1).collect();
    match &arguments.iter().map(String::as_str).collect::<Vec<_>>()[..] {
        ["train"] => print!("{}", texts::train()),
        ["unseen"] => print!("{}", texts::unseen()),
        ["drop"] => print!("{}", dropped::drop(&read_to_string("/dev/stdin").expect("an ARPA file"), DROPPED)),
        ["compare", folder, names @ ..] => return compare_all(folder, names),
        _ => return ExitCode::from(2),
    }
    ExitCode::SUCCESS
}

fn compare_all(folder: &str, names: &[&str]) -> ExitCode {
    let mut count = Count::default();
    let file = |name: &str| read_to_string(format!("{folder}/{name}")).unwrap_or_else(|error| panic!("{folder}/{name}: {error}"));
    for name in names {
        let list = arpa::read(&file(&format!("{name}.arpa"))).unwrap_or_else(|error| panic!("{name}.arpa: {error}"));
        println!("{name}: {} rows, {} of them added", list.rows.len(), list.added.len());
        let answers = Answers {
            text: file("unseen.txt"),
            eval: printed::eval(&file(&format!("{name}.eval"))),
            score: printed::score(&file(&format!("{name}.score")), ORDER),
        };
        count.compare_list(name, &list, &answers);
        let refused = direct::read(file(&format!("{name}.arpa")).as_bytes()).err();
        count.test(&format!("{name}: as irstlm spells it, the text is refused by {refused:?}"), refused == Some((17, COUNTS_LINE)));
        match direct::read(file(&format!("{name}.form")).as_bytes()) {
            Ok(direct) => {
                let same_words =
                    direct.numbers == list.numbers && direct.rows.iter().map(|row| &row.words).eq(list.rows.iter().map(|row| &row.words));
                count.test(
                    &format!("{name}, read directly: the same {} rows and texts", direct.rows.len()),
                    same_words && list.added.is_empty(),
                );
                count.compare_list(&format!("{name}, read directly"), &direct, &answers);
            }
            Err(refused) => count.test(
                &format!("{name}, read directly: refused by {refused:?}, since shorter rows are absent"),
                refused.0 == SHORTER_ROW && !list.added.is_empty(),
            ),
        }
        let summary = printed::summary(&file(&format!("{name}.eval"))).unwrap_or_else(|| panic!("{name}.eval has no last line"));
        query::compare(&mut count, name, &file(&format!("{name}.query")), &summary, &answers);
        count.compare_filled(name, direct::read_filled(file(&format!("{name}.form")).as_bytes()), &list, &answers);
    }
    println!("{} passed, {} failed", count.passed, count.failed);
    ExitCode::from((count.failed > 0) as u8)
}

/// What irstlm answers to a text.
struct Answers {
    text: String,
    eval: Vec<Printed>,
    score: Vec<Printed>,
}

/// A word of the text with our answer.
struct Scored {
    text: String,
    /// How many words stand before it, `<s>` among them.
    preceding: usize,
    points: i32,
    /// The matched length, not counting rows that the ARPA file lacks.
    matched: usize,
    known: bool,
}

/// Scores each sentence from the state after `<s>`.
fn score(list: &Arpa, text: &str) -> Vec<Scored> {
    let mut work = vec![0; list.rows.len()];
    let (mut base, mut check) = (vec![0; MOST_SLOTS], vec![0; MOST_SLOTS]);
    let status = backoff::build(&table(&list.rows), &mut base, &mut check, &mut work);
    assert_eq!((status.number, status.place), (0, 0), "the list is accepted");
    let mut scored = Vec::new();
    for line in text.lines() {
        let texts: Vec<&str> = line.strip_prefix("<s> ").expect("a sentence begins with <s>").split(' ').collect();
        // Word 0 is unlisted.
        let words: Vec<u32> = texts.iter().map(|word| list.numbers.get(*word).copied().unwrap_or(0) as u32).collect();
        let (mut state, mut points, mut lengths) = ([0; 9], vec![0; words.len()], vec![0; words.len()]);
        assert_eq!(backoff::start(&base, &check, &mut state).number, 0);
        assert_eq!(backoff::run(&base, &check, &mut state, &words, &mut points, &mut lengths).number, 0);
        for i in 0..words.len() {
            let preceding = std::iter::once(2).chain(words[..i].iter().map(|&word| word.max(1) as i32));
            let matched = in_file(list, preceding.chain([words[i].max(1) as i32]).collect(), (lengths[i] & 7) as usize);
            scored.push(Scored { text: texts[i].to_string(), preceding: i + 1, points: points[i], matched, known: lengths[i] & 8 == 0 });
        }
    }
    scored
}

/// The matched length where rows that the file lacks do not count.
fn in_file(list: &Arpa, words: Vec<i32>, matched: usize) -> usize {
    (1..=matched).rev().find(|&m| !list.added.contains(&words[words.len() - m..])).unwrap_or(0)
}

#[derive(Default)]
struct Count {
    passed: usize,
    failed: usize,
}

impl Count {
    /// The list that was read directly and filled: the same rows are added as by the reader of the tests, and irstlm's points are ours.
    fn compare_filled(&mut self, name: &str, filled: Result<Arpa, (u32, u64)>, list: &Arpa, answers: &Answers) {
        match filled {
            Ok(filled) => {
                let words = |list: &Arpa| list.rows.iter().map(|row| row.words.clone()).collect::<Vec<_>>();
                let same = words(&filled) == words(list) && filled.added == list.added && filled.numbers == list.numbers;
                self.test(
                    &format!("{name}, filled: {} rows are added to {}", filled.added.len(), list.rows.len() - list.added.len()),
                    same,
                );
                self.compare_list(&format!("{name}, filled"), &filled, answers);
            }
            Err(refused) => self.test(&format!("{name}, filled: refused by {refused:?}"), false),
        }
    }

    /// The list is built and scores the text, beside both of irstlm's answers.
    fn compare_list(&mut self, name: &str, list: &Arpa, answers: &Answers) {
        let words = score(list, &answers.text);
        self.compare(&format!("{name}, --eval --debug=2"), &words.iter().collect::<Vec<_>>(), &answers.eval, TWO_DECIMALS + ROUNDED);
        // `--score` tells nothing of words with fewer than two words before them.
        let with_history: Vec<&Scored> = words.iter().filter(|word| word.preceding >= ORDER - 1).collect();
        self.compare(&format!("{name}, --score"), &with_history, &answers.score, ROUNDED);
    }

    /// Three tests: the words, the matched lengths, the points.
    fn compare(&mut self, name: &str, ours: &[&Scored], irstlm: &[Printed], bound: f64) {
        let pairs = || ours.iter().zip(irstlm);
        let same_word = |&(ours, irstlm): &(&&Scored, &Printed)| irstlm.word == if ours.known { &ours.text } else { "<unk>" };
        let words = pairs().filter(same_word).count();
        self.test(
            &format!("{name}: {words} words of {} and {}", ours.len(), irstlm.len()),
            words > 0 && words == ours.len() && words == irstlm.len(),
        );
        let lengths = pairs().filter(|(ours, irstlm)| ours.matched == irstlm.matched).count();
        self.test(&format!("{name}: {lengths} matched lengths are equal"), lengths == ours.len());
        let distance = pairs().map(|(ours, irstlm)| (ours.points as f64 - irstlm.points).abs()).fold(0.0, f64::max);
        self.test(&format!("{name}: points differ by {distance:.3} at most, {bound} are allowed"), distance <= bound);
    }

    fn test(&mut self, text: &str, holds: bool) {
        println!("{} {text}", if holds { "ok    " } else { "FAILED" });
        *(if holds { &mut self.passed } else { &mut self.failed }) += 1;
    }
}
