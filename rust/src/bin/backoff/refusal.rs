//! Refusals in words: the number and what it says, where it is, what is wrong there, and what would mend it.

use crate::arpa_file;
use crate::decimal::thousands;
use crate::form;
use crate::list::RESERVED_TEXTS;
use crate::put_in_form::put_in_form;
use crate::text_rows::{heading, in_list_order, lines, rows, words, TextRow};
use backoff::limits::USABLE_LIMIT;
use backoff::number::*;
use std::collections::HashSet;

/// The most characters that are shown of a line.
const SHOWN: usize = 200;

/// What a message says behind the refusal's number; a part that is empty is left out.
#[derive(Default)]
struct Told {
    at: String,
    wrong: String,
    mend: String,
}

impl Told {
    fn of(self, number: u32) -> String {
        let mut text = format!("refused by {number}: {}", backoff::reason(number));
        for (name, part) in [("", &self.at), ("wrong: ", &self.wrong), ("to mend it: ", &self.mend)] {
            if !part.is_empty() {
                text += &format!("\n  {name}{part}");
            }
        }
        text
    }
}

/// Bytes as a message shows them: on one line, and not longer than fits a few.
pub fn shown(bytes: &[u8]) -> String {
    let text = String::from_utf8_lossy(bytes);
    let escaped = |letter: char| if letter.is_control() { letter.escape_default().to_string() } else { letter.to_string() };
    let mut shown: String = text.chars().take(SHOWN).map(escaped).collect();
    if text.chars().nth(SHOWN).is_some() {
        shown += " ..";
    }
    shown
}

/// The refusal of an ARPA text, whose place is a line or a row in list order.
pub fn of_text(text: &[u8], number: u32, place: usize, fill: bool) -> String {
    match number {
        SHORT_SLICE | ARPA_LINE | ARPA_WORD | ARPA_COUNT => of_line(text, number, place),
        ROW_LENGTH..=SHORTER_ROW => of_row(text, number, place, fill),
        RESERVED_WORD => of_reserved(text),
        TABLE_LENGTH => too_many(rows(text).len()),
        _ => Told::default(),
    }
    .of(number)
}

fn of_line(text: &[u8], number: u32, place: usize) -> Told {
    let line = lines(text).nth(place - 1);
    let at = match line {
        Some(line) => format!("line {place}: {}", shown(line)),
        None => format!("line {place} is missing"),
    };
    let (wrong, mend) = match number {
        ARPA_WORD => unlisted(text, line.unwrap_or_default()),
        ARPA_COUNT => miscounted(text, place),
        SHORT_SLICE => ("there are more rows than the 65,535 that a list may have".to_string(), PRUNE.to_string()),
        _ => {
            let fault = form::of_line(text, place);
            (fault.wrong, if is_put_in_form(text, place) { IN_FORM.to_string() } else { fault.mend })
        }
    };
    Told { at, wrong, mend }
}

/// Whether a text that is put in form is not refused by this line, or one before it.
fn is_put_in_form(text: &[u8], line: usize) -> bool {
    arpa_file::line_not_in_form(&put_in_form(text).text).is_none_or(|other| other > line)
}

const IN_FORM: &str = "run again with --in-form, or write the text anew: backoff in-form OLD >NEW";

const PRUNE: &str = "prune the model, or train one of a lower order";

/// The words of a line that have no row of their own.
fn unlisted(text: &[u8], line: &[u8]) -> (String, String) {
    let rows = rows(text);
    let listed: HashSet<&[u8]> = rows.iter().filter(|row| row.words.len() == 1).map(|row| row.words[0]).collect();
    let missing: Vec<String> = words(line).iter().filter(|word| !listed.contains(*word)).map(|word| format!("`{}`", shown(word))).collect();
    let wrong = format!("no line of the section `\\1-grams:` has {}", missing.join(" or "));
    (wrong, "add such a line and count it, or take this row away".to_string())
}

/// The section that ends before a line, its count and its rows.
fn miscounted(text: &[u8], place: usize) -> (String, String) {
    let before: Vec<&[u8]> = lines(text).take(place - 1).collect();
    let start = before.iter().rposition(|line| heading(line).is_some()).unwrap_or(0);
    let section = before.get(start).and_then(|line| heading(line)).unwrap_or(0);
    let rows = before[start..].iter().skip(1).filter(|line| !line.is_empty()).count();
    let count = lines(text).find(|line| line.starts_with(format!("ngram {section}").as_bytes())).unwrap_or_default();
    let wrong = format!("the number of rows before it is {rows}, but `{}` stands above", shown(count));
    (wrong, format!("write `ngram {section}={rows}`, if no row is lost"))
}

/// A row in list order. A row of a text has always one to five words with numbers.
fn of_row(text: &[u8], number: u32, place: usize, fill: bool) -> Told {
    let rows = in_list_order(rows(text));
    let Some(row) = rows.get(place - 1) else { return Told::default() };
    let at = format!("row {place} in list order, line {}: {}", row.line, shown(row.text));
    let (wrong, mend) = match number {
        ROW_PROBABILITY => (String::new(), "give the row a log-probability from -99 to 0".to_string()),
        ROW_BACKOFF => (String::new(), "give the row a back-off from -99 to 99, and none where no row is longer".to_string()),
        ROW_ORDER => (
            format!("line {} has the same words", rows.get(place.saturating_sub(2)).map_or(0, |row| row.line)),
            "take one of the two away".to_string(),
        ),
        SHORTER_ROW => missing_rows(text, &rows, row, fill),
        _ => Default::default(),
    };
    Told { at, wrong, mend }
}

/// The shorter row that is missing, and whether filling adds it.
fn missing_rows(text: &[u8], rows: &[TextRow], row: &TextRow, fill: bool) -> (String, String) {
    let listed: HashSet<&[&[u8]]> = rows.iter().map(|row| row.words.as_slice()).collect();
    let (words, last) = (&row.words[..], row.words.len() - 1);
    let needed = [&words[..last], if fill { &words[last..] } else { &words[1..] }];
    let missing = needed.iter().find(|words| !listed.contains(*words)).map_or(String::new(), |words| shown(&words.join(&b' ')));
    let wrong = format!("there is no row `{missing}`");
    let add = format!("add a row `{missing}`, or take away the rows that need it");
    match fill {
        true => (wrong, format!("{add}; filling adds rows without their first words alone")),
        false if arpa_file::read(text, true).is_ok() => {
            (wrong, "run again with --fill, which adds such rows; no word's score changes".to_string())
        }
        false => (wrong, add),
    }
}

/// The reserved words that have no row.
fn of_reserved(text: &[u8]) -> Told {
    let rows = rows(text);
    let listed = |text: &[u8]| rows.iter().any(|row| row.words == [text]);
    let missing: Vec<String> =
        RESERVED_TEXTS.iter().filter(|text| !listed(text)).map(|text| format!("`-99<tab>{}`", shown(text))).collect();
    Told { mend: format!("add {} to the section `\\1-grams:` and count it", missing.join(" and ")), ..Told::default() }
}

/// No rows, or too many.
fn too_many(rows: usize) -> Told {
    Told { wrong: format!("the text has {rows} rows"), mend: if rows == 0 { String::new() } else { PRUNE.to_string() }, ..Told::default() }
}

/// The refusal of a list that is filled, and was read before.
pub fn of_filling(text: &[u8], number: u32, place: usize) -> String {
    let rows = in_list_order(rows(text));
    let told = match (number, rows.get(place.wrapping_sub(1))) {
        (ROW_PROBABILITY, Some(row)) => Told {
            at: format!("row {place} in list order, line {}: {}", row.line, shown(row.text)),
            wrong: "a row that it needs is missing, and the points that the list gives it are above 0 or below -99".to_string(),
            mend: "add that row, or take this one away".to_string(),
        },
        (TABLE_LENGTH, _) => Told {
            wrong: format!("the text has {} rows, and with those that filling adds there are more than 65,535", rows.len()),
            mend: PRUNE.to_string(),
            ..Told::default()
        },
        _ => Told::default(),
    };
    told.of(number)
}

/// The refusal of an accepted list's array.
pub fn of_build(number: u32) -> String {
    let told = match number {
        NO_ROOM => Told {
            wrong: "the list is accepted, but its array needs more than 1,048,576 slots, the most there may be".to_string(),
            mend: PRUNE.to_string(),
            ..Told::default()
        },
        _ => Told::default(),
    };
    told.of(number)
}

/// The refusal of a list that was accepted before.
pub fn of_list(number: u32) -> String {
    Told::default().of(number)
}

/// The refusal of a listing of sentences over a list of so many words.
pub fn of_listing(number: u32, words: usize) -> String {
    let told = match number {
        LISTING_SIZE => Told {
            wrong: format!("the list has {} words, of which all but <s> and </s> are used", thousands(words as u64)),
            mend: format!("take a list of {USABLE_LIMIT} such words at most"),
            ..Told::default()
        },
        _ => return of_array(number),
    };
    told.of(number)
}

/// The refusal of an array that is not as a build writes it.
pub fn of_array(number: u32) -> String {
    of_array_file(&Told::default().of(number))
}

/// What is wrong with an array file.
pub fn of_array_file(wrong: &str) -> String {
    format!("{wrong}\n  to mend it: build the file again from its ARPA text: backoff build MODEL.arpa MODEL.array")
}
