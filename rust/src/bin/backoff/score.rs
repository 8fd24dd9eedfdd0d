//! Texts scored by runs over the array, from the list alone, or by both.

use crate::array::Array;
use crate::list::List;
use crate::plain;
use crate::reading::Reading;
use crate::refusal;
use crate::runs;
use crate::subcommands::Marks;
use std::collections::HashMap;

/// What a text is scored with.
pub enum With<'a> {
    Array(&'a Array),
    ListAlone,
    Both(&'a Array),
}

pub struct Scorer<'a> {
    list: &'a List,
    with: With<'a>,
    marks: Marks,
    numbers: HashMap<&'a [u8], u32>,
}

impl<'a> Scorer<'a> {
    pub fn new(list: &'a List, with: With<'a>, marks: Marks) -> Scorer<'a> {
        Scorer { list, with, marks, numbers: list.numbers() }
    }

    /// A text, not yet scored.
    pub fn reading<'t>(&self, text: &'t [u8]) -> Reading<'t> {
        Reading::new(text, &self.numbers, self.marks)
    }

    /// A text with the points of its words; or the refusal in words.
    pub fn scored<'t>(&self, text: &'t [u8]) -> Result<Reading<'t>, String> {
        let mut reading = self.reading(text);
        self.score(&mut reading)?;
        Ok(reading)
    }

    pub fn score(&self, reading: &mut Reading) -> Result<(), String> {
        match self.with {
            With::Array(array) => runs::score(array, reading).map_err(refusal::of_array),
            With::ListAlone => plain::score(self.list, reading).map_err(refusal::of_list),
            With::Both(array) => {
                let mut again = reading.clone();
                runs::score(array, reading).map_err(refusal::of_array)?;
                plain::score(self.list, &mut again).map_err(refusal::of_list)?;
                agree(reading, &again)
            }
        }
    }
}

/// Both ways give each word the same points and the same length byte.
fn agree(by_runs: &Reading, plainly: &Reading) -> Result<(), String> {
    let answer = |reading: &Reading, place: usize| (reading.points[place], reading.lengths[place]);
    let Some(place) = (0..by_runs.len()).find(|&place| answer(by_runs, place) != answer(plainly, place)) else { return Ok(()) };
    let [(points, length), (plain_points, plain_length)] = [by_runs, plainly].map(|reading| answer(reading, place));
    Err(format!(
        "the run and plain scoring differ at '{}': {points} and {plain_points} points, length bytes {length} and {plain_length}",
        by_runs.texts[place].escape_ascii()
    ))
}

#[cfg(test)]
mod tests {
    use super::agree;
    use crate::reading::Reading;
    use crate::subcommands::Marks;
    use std::collections::HashMap;

    #[test]
    fn differences_are_told() {
        let reading = Reading::new(b"four five", &HashMap::new(), Marks { bos: true, eos: true });
        assert_eq!(agree(&reading, &reading), Ok(()));
        let mut other = reading.clone();
        other.points[1] = -7;
        let told = "the run and plain scoring differ at 'five': 0 and -7 points, length bytes 0 and 0";
        assert_eq!(agree(&reading, &other), Err(told.to_string()));
        let mut other = reading.clone();
        other.lengths[2] = 17;
        let told = "the run and plain scoring differ at '</s>': 0 and 0 points, length bytes 17 and 0";
        assert_eq!(agree(&other, &reading), Err(told.to_string()));
    }
}
