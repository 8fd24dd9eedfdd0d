//! Two readings of a line: which words differ, and which points moved.

use crate::alignment::{pairs, Mark, Pair};
use crate::columns::{Columns, Side};
use crate::reading::Reading;
use std::ops::Range;

/// Two readings of one text.
pub struct Readings<'a> {
    pub one: &'a Reading<'a>,
    pub two: &'a Reading<'a>,
    /// How many of the words before a word count for it.
    pub count: usize,
}

/// What a line came to.
pub struct Compared {
    pub differs: bool,
    pub totals: [i64; 2],
}

/// Mark, word and points of the one reading, word and points of the other, and how far the points moved.
type Cells = [Vec<u8>; 6];

/// A place of both readings, where both have one.
type Places = (Option<usize>, Option<usize>);

impl Readings<'_> {
    /// Compares a line of both, and prints it where a word differs; or says what is at fault.
    pub fn compare(&self, number: usize, [one, two]: [Range<usize>; 2], out: &mut Vec<u8>) -> Result<Compared, String> {
        let pairs = pairs(&self.one.texts[one.clone()], &self.two.texts[two.clone()], self.count);
        let places = |pair: &Pair| (pair.one.map(|place| one.start + place), pair.two.map(|place| two.start + place));
        for pair in pairs.iter().filter(|pair| pair.mark == Mark::Alike) {
            self.require_alike(places(pair))?;
        }
        let totals = [total(self.one, one.clone()), total(self.two, two.clone())];
        let differing = pairs.iter().filter(|pair| pair.mark == Mark::Differs).count();
        if differing > 0 {
            out.extend(format!("line {number}: {}\n", counted(differing, "word differs", "words differ")).as_bytes());
            print(pairs.iter().map(|pair| self.cells(pair.mark, places(pair))).collect(), totals, out);
        }
        Ok(Compared { differs: differing > 0, totals })
    }

    /// Where all words that count are alike, both readings have the same answers.
    fn require_alike(&self, places: Places) -> Result<(), String> {
        let (Some(one), Some(two)) = places else { return Ok(()) };
        let answers = [(self.one, one), (self.two, two)].map(|(reading, place)| (reading.points[place], reading.lengths[place]));
        match answers[0] == answers[1] {
            true => Ok(()),
            false => Err(format!(
                "a fault of this program: '{}' has {} and {} points, though all words that count for it are alike",
                self.one.texts[one].escape_ascii(),
                answers[0].0,
                answers[1].0,
            )),
        }
    }

    fn cells(&self, mark: Mark, (one, two): Places) -> Cells {
        let word = |reading: &Reading, place: Option<usize>| place.map_or(Vec::new(), |place| reading.texts[place].to_vec());
        let points = |reading: &Reading, place: Option<usize>| place.map(|place| reading.points[place]);
        let (first, second) = (points(self.one, one), points(self.two, two));
        let moved = i64::from(second.unwrap_or(0)) - i64::from(first.unwrap_or(0));
        let shown = |points: Option<i32>| points.map_or(Vec::new(), |points| points.to_string().into_bytes());
        let moved = if mark == Mark::Alike { Vec::new() } else { signed(moved).into_bytes() };
        [sign(mark), word(self.one, one), shown(first), word(self.two, two), shown(second), moved]
    }
}

fn sign(mark: Mark) -> Vec<u8> {
    match mark {
        Mark::Differs => b">".to_vec(),
        Mark::After => b"|".to_vec(),
        Mark::Alike => Vec::new(),
    }
}

fn total(reading: &Reading, places: Range<usize>) -> i64 {
    reading.points[places].iter().map(|&points| i64::from(points)).sum()
}

fn print(mut lines: Vec<Cells>, [one, two]: [i64; 2], out: &mut Vec<u8>) {
    let number = |number: i64| number.to_string().into_bytes();
    lines.push([vec![], b"total".to_vec(), number(one), vec![], number(two), signed(two - one).into_bytes()]);
    let mut columns = Columns::new([Side::Left, Side::Left, Side::Right, Side::Left, Side::Right, Side::Right]);
    lines.iter().for_each(|cells| columns.fit(cells));
    lines.iter().for_each(|cells| columns.print(0, cells, out));
    out.push(b'\n');
}

/// A number with its sign; 0 has none.
pub fn signed(number: i64) -> String {
    if number == 0 {
        "0".to_string()
    } else {
        format!("{number:+}")
    }
}

pub fn counted(number: usize, one: &str, more: &str) -> String {
    format!("{number} {}", if number == 1 { one } else { more })
}

#[cfg(test)]
mod tests {
    use super::Readings;
    use crate::reading::Reading;
    use crate::subcommands::Marks;
    use std::collections::HashMap;

    /// A point that moved where none can is told.
    #[test]
    fn a_move_that_cannot_be() {
        let reading = |text: &'static [u8]| Reading::new(text, &HashMap::new(), Marks { bos: true, eos: true });
        let (one, mut two) = (reading(b"a b c d"), reading(b"x b c d"));
        let compare = |two: &Reading| {
            let lines = [one.lines().next().unwrap(), two.lines().next().unwrap()];
            Readings { one: &one, two, count: 2 }.compare(1, lines, &mut Vec::new()).map(|compared| compared.totals)
        };
        two.points = vec![-5, -6, -7, 0, 0];
        assert_eq!(compare(&two), Ok([0, -18]));
        two.points[3] = -8;
        let told = "a fault of this program: 'd' has 0 and -8 points, though all words that count for it are alike";
        assert_eq!(compare(&two), Err(told.to_string()));
        two.points[3] = 0;
        two.lengths[4] = 1;
        assert!(compare(&two).unwrap_err().contains("'</s>'"));
    }
}
