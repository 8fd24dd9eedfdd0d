//! The sentences of a text with the addition of each word, compared with the run's own answers.

use crate::addition::{Addition, Rule};
use crate::model::Model;
use crate::reading::Reading;
use crate::score::Scorer;
use std::ops::Range;

/// A word of the text.
pub struct Word<'t> {
    pub text: &'t [u8],
    pub addition: Addition,
}

pub struct Sentence<'t> {
    /// With the closing `</s>`, where it is scored.
    pub words: Vec<Word<'t>>,
    /// Without it.
    pub text: Vec<u8>,
    /// The sum of all points, as the run has them.
    pub total: i64,
}

/// The sentences of a text; or a refusal, or a fault of this program, in words.
pub fn explained<'t>(model: &Model, scorer: &Scorer, text: &'t [u8]) -> Result<Vec<Sentence<'t>>, String> {
    let reading = scorer.scored(text)?;
    let (order, marks) = (model.list.order(), reading.marks());
    let sentence = |places: Range<usize>| {
        let total = reading.points[places.clone()].iter().map(|&points| points as i64).sum();
        let text = reading.texts[places.start..places.end - marks.eos as usize].join(&b' ');
        let mut rule = Rule::new(&model.array, order, marks.bos);
        let word = |place: usize| {
            let addition = rule.add(reading.words[place])?;
            compare(&addition, &reading, place)?;
            Ok(Word { text: reading.texts[place], addition })
        };
        Ok(Sentence { words: places.map(word).collect::<Result<_, String>>()?, text, total })
    };
    reading.lines().map(sentence).collect()
}

/// The addition gives what the run answered.
fn compare(addition: &Addition, reading: &Reading, place: usize) -> Result<(), String> {
    let ours = (addition.points(), addition.matched(), addition.is_unknown());
    let the_runs = (reading.points[place], reading.matched(place), reading.is_unknown(place));
    if ours == the_runs {
        return Ok(());
    }
    let shown = |(points, matched, unknown): (i32, usize, bool)| {
        format!("{points} points, matched length {matched}{}", if unknown { ", unknown" } else { "" })
    };
    Err(format!(
        "a fault of this program: by its rows '{}' has {}; by the run it has {}",
        reading.texts[place].escape_ascii(),
        shown(ours),
        shown(the_runs)
    ))
}

#[cfg(test)]
mod tests {
    use super::compare;
    use crate::addition::{Added, Addition, Tried};
    use crate::reading::Reading;
    use crate::subcommands::Marks;
    use std::collections::HashMap;

    fn addition() -> Addition {
        let tried = |row: &[u32], added| Tried { row: row.to_vec(), added };
        Addition { tried: vec![tried(&[2, 4, 5], Added::Nothing), tried(&[4, 5], Added::Backoff(-2)), tried(&[5], Added::Probability(-9))] }
    }

    fn reading(points: i32, length: u8) -> Reading<'static> {
        let mut reading = Reading::new(b"five", &HashMap::from([(&b"five"[..], 5)]), Marks { bos: true, eos: true });
        reading.points[0] = points;
        reading.lengths[0] = length;
        reading
    }

    #[test]
    fn sums_that_are_the_runs() {
        assert_eq!(compare(&addition(), &reading(-11, 1), 0), Ok(()));
        // Whether the row can grow to the left is not part of an addition.
        assert_eq!(compare(&addition(), &reading(-11, 1 + 16), 0), Ok(()));
    }

    #[test]
    fn sums_that_are_not() {
        let told = |points, length| compare(&addition(), &reading(points, length), 0).unwrap_err();
        let by_rows = "a fault of this program: by its rows 'five' has -11 points, matched length 1; by the run it has ";
        assert_eq!(told(-12, 1), format!("{by_rows}-12 points, matched length 1"));
        assert_eq!(told(-11, 2), format!("{by_rows}-11 points, matched length 2"));
        assert_eq!(told(-11, 1 + 8), format!("{by_rows}-11 points, matched length 1, unknown"));
    }
}
