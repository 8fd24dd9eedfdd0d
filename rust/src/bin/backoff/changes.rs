//! What is changed where a text is put in form, and how often.

use crate::decimal::thousands;
use crate::failure::shown;
use std::io::{stderr, Write};
use std::ops::AddAssign;
use std::path::Path;

#[derive(Clone, Copy)]
pub enum Change {
    ByteOrderMark,
    CarriageReturn,
    Before,
    Count,
    Blanks,
    Plus,
    Exponent,
    Decimals,
    Digits,
    Behind,
    LineFeed,
}

/// What is said of each change, of one and of several.
const SAID: [[&str; 2]; 11] = [
    ["byte order mark taken away", "byte order marks taken away"],
    ["carriage return taken away", "carriage returns taken away"],
    ["line before `\\data\\` emptied", "lines before `\\data\\` emptied"],
    ["count written without other blanks", "counts written without other blanks"],
    ["line parted by tabs and single spaces", "lines parted by tabs and single spaces"],
    ["plus sign taken away", "plus signs taken away"],
    ["exponent written out", "exponents written out"],
    ["logarithm cut behind the seventh decimal", "logarithms cut behind the seventh decimal"],
    ["logarithm with missing digits or leading zeros put right", "logarithms with missing digits or leading zeros put right"],
    ["line behind `\\end\\` emptied", "lines behind `\\end\\` emptied"],
    ["line feed put behind the last line", "line feeds put behind the last line"],
];

#[derive(Clone, Default, Debug, PartialEq)]
pub struct Changes([u64; SAID.len()]);

impl Changes {
    /// Counts a change if it was made.
    pub fn add(&mut self, change: Change, made: bool) {
        self.0[change as usize] += made as u64;
    }

    /// One line for each kind of change; nothing where nothing is changed.
    pub fn said(&self) -> String {
        let line = |(&count, [one, more]): (&u64, [&str; 2])| format!("\n  {} {}", thousands(count), if count == 1 { one } else { more });
        self.0.iter().zip(SAID).filter(|(&count, _)| count > 0).map(line).collect()
    }

    /// Tells standard error what was changed of a file.
    pub fn tell(&self, path: &Path) {
        let said = self.said();
        if !said.is_empty() {
            // A closed standard error is no reason to end.
            let _ = writeln!(stderr(), "backoff: {}: put in form:{said}", shown(path));
        }
    }
}

impl AddAssign for Changes {
    fn add_assign(&mut self, other: Changes) {
        self.0.iter_mut().zip(other.0).for_each(|(count, more)| *count += more);
    }
}
