//! What `backoff query` prints of the text, beside irstlm: each sentence's total, and the perplexity of the whole.
//!
//! irstlm scores the marks of its text: it does not count `<s>`, and it counts `</s>`. `backoff query` gets the same lines without marks, and puts them there itself, so
//! that both count the same words.

use crate::arpa::POINTS;
use crate::printed::{Printed, Summary};
use crate::{Answers, Count, ROUNDED, TWO_DECIMALS};

/// Half of the second decimal of a perplexity.
const HALF: f64 = 0.005;

/// `backoff query` prints six digits of a perplexity, of which the last is rounded.
const SIX_DIGITS: f64 = 5e-6 * POINTS / std::f64::consts::LN_10;

/// A scored sentence: its words with the closing one, the unknown ones, and its total in points.
#[derive(Clone, Copy, Debug, Default, PartialEq)]
struct Sentence {
    words: usize,
    unknown: usize,
    points: f64,
}

/// The output of `backoff query`.
#[derive(Debug, PartialEq)]
struct Query {
    sentences: Vec<Sentence>,
    with_unknown: f64,
    without_unknown: f64,
    unknown: usize,
    words: usize,
}

/// Nothing where a line has another form.
fn read(text: &str) -> Option<Query> {
    let lines: Vec<&str> = text.lines().collect();
    let (sentences, last) = lines.split_last_chunk::<4>()?;
    let names = ["Perplexity including OOVs:\t", "Perplexity excluding OOVs:\t", "OOVs:\t", "Tokens:\t"];
    let number = |place: usize| last[place].strip_prefix(names[place])?.parse::<f64>().ok();
    Some(Query {
        sentences: sentences.iter().map(|line| sentence(line)).collect::<Option<_>>()?,
        with_unknown: number(0)?,
        without_unknown: number(1)?,
        unknown: number(2)? as usize,
        words: number(3)? as usize,
    })
}

fn sentence(line: &str) -> Option<Sentence> {
    let (words, total) = line.rsplit_once('\t')?;
    let (points, unknown) = total.strip_prefix("Total: ")?.split_once(" OOV: ")?;
    let points = points.parse::<f64>().ok()? * POINTS;
    Some(Sentence { words: words.split('\t').count(), unknown: unknown.parse().ok()?, points })
}

/// irstlm's sentences: the first word of each as `--eval` prints it, since `--score` tells nothing of it, the others as `--score` does.
fn sentences(eval: &[Printed], score: &[Printed]) -> Vec<Sentence> {
    let mut score = score.iter();
    let mut sentences = vec![Sentence::default()];
    for word in eval {
        let mut sentence = sentences.pop().unwrap_or_default();
        let printed = if sentence.words == 0 { Some(word) } else { score.next() };
        assert!(printed.is_some_and(|printed| printed.word == word.word), "{word:?} is {printed:?}");
        sentence.points += printed.map_or(0.0, |printed| printed.points);
        sentence.words += 1;
        sentence.unknown += (word.word == "<unk>") as usize;
        sentences.push(sentence);
        if word.word == "</s>" {
            sentences.push(Sentence::default());
        }
    }
    sentences.pop();
    sentences
}

/// The mean points of words with this perplexity.
fn mean(perplexity: f64) -> f64 {
    -perplexity.log10() * POINTS
}

/// Five tests: words and unknown words of each sentence and of the text, the sentences' totals, both perplexities.
pub fn compare(count: &mut Count, name: &str, printed: &str, summary: &Summary, answers: &Answers) {
    let Some(query) = read(printed) else { return count.test(&format!("{name}, query: the lines are KenLM's"), false) };
    let irstlm = sentences(&answers.eval, &answers.score);
    let pairs = || query.sentences.iter().zip(&irstlm);
    let same = pairs().filter(|(ours, irstlm)| (ours.words, ours.unknown) == (irstlm.words, irstlm.unknown)).count();
    count.test(
        &format!("{name}, query: {same} sentences have irstlm's words and unknown words"),
        same > 0 && same == irstlm.len() && same == query.sentences.len(),
    );
    // As a part of what rounding allows.
    let distance = pairs().map(|(ours, irstlm)| (ours.points - irstlm.points).abs() / (TWO_DECIMALS + ROUNDED * ours.words as f64));
    let distance = distance.fold(0.0, f64::max);
    count.test(&format!("{name}, query: totals differ by {distance:.3} at most of what rounding allows"), distance <= 1.0);
    count.test(
        &format!("{name}, query: {} words, {} of them unknown", query.words, query.unknown),
        (query.words, query.unknown) == (summary.words, summary.unknown),
    );
    let bounds = [-HALF, HALF].map(|half| mean(summary.perplexity + half));
    count.test(
        &format!("{name}, query: perplexity {}, irstlm's {}", query.with_unknown, summary.perplexity),
        bounds[1] - ROUNDED - SIX_DIGITS <= mean(query.with_unknown) && mean(query.with_unknown) <= bounds[0] + ROUNDED + SIX_DIGITS,
    );
    let known: Vec<f64> = answers.eval.iter().filter(|word| word.word != "<unk>").map(|word| word.points).collect();
    let expected = known.iter().sum::<f64>() / known.len() as f64;
    let distance = (mean(query.without_unknown) - expected).abs();
    let bound = TWO_DECIMALS + ROUNDED + SIX_DIGITS;
    count.test(
        &format!("{name}, query: perplexity without unknown words {}, {distance:.3} points from irstlm's words", query.without_unknown),
        distance <= bound,
    );
}

#[cfg(test)]
mod tests {
    use super::{read, sentences, Query, Sentence};
    use crate::printed::Printed;

    #[test]
    fn lines() {
        let last = "Perplexity including OOVs:\t12.5\nPerplexity excluding OOVs:\t1e+06\nOOVs:\t1\nTokens:\t3\n";
        let text = format!("a=0 1 -2\t</s>=3 1 -1\tTotal: -3 OOV: 1\n</s>=3 2 -0.5\tTotal: -0.5 OOV: 0\n{last}");
        let expected = vec![Sentence { words: 2, unknown: 1, points: -3e6 }, Sentence { words: 1, unknown: 0, points: -5e5 }];
        assert_eq!(read(&text), Some(Query { sentences: expected, with_unknown: 12.5, without_unknown: 1e6, unknown: 1, words: 3 }));
        assert_eq!(read(&text.replace("Total", "total")), None);
        assert_eq!(read(&text.replace("Tokens:\t3", "Tokens: 3")), None);
    }

    #[test]
    fn irstlm_sentences() {
        let word = |word: &str, points| Printed { word: word.to_string(), matched: 1, points };
        let eval = [word("a", -10.0), word("<unk>", -100.0), word("</s>", -100.0), word("</s>", -30.0)];
        let score = [word("<unk>", -101.0), word("</s>", -99.5)];
        let expected = [Sentence { words: 3, unknown: 1, points: -210.5 }, Sentence { words: 1, unknown: 0, points: -30.0 }];
        assert_eq!(sentences(&eval, &score), expected);
    }
}
