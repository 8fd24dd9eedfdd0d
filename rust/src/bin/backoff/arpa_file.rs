//! ARPA texts read and printed.

use crate::decimal::write_log10;
use crate::list::{List, Row};
use crate::refusal;
use backoff::limits::{RECORD_BYTES, ROW_ITEMS, ROW_LIMIT};
use backoff::number::{ACCEPTED, ARPA_LINE};

/// What reading leaves: the answer, the rows and the texts of the words.
struct Read {
    answer: backoff::Rows,
    table: Vec<i32>,
    store: Vec<u8>,
}

fn call(text: &[u8], to_be_filled: bool) -> Read {
    let lines = text.iter().filter(|&&byte| byte == b'\n').count();
    // One row more than a list may have, so that a text of too many rows is refused without room for all of them.
    let rows = lines.min(ROW_LIMIT + 1);
    let (mut table, mut store) = (vec![0; ROW_ITEMS * rows], vec![0; RECORD_BYTES * (rows + 4)]);
    let answer = backoff::read_arpa(text, to_be_filled, &mut table, &mut store);
    table.truncate(ROW_ITEMS * answer.rows as usize);
    Read { answer, table, store }
}

/// The line that is not in form, if it is such a line by which a text is refused.
pub fn line_not_in_form(text: &[u8]) -> Option<usize> {
    let answer = call(text, false).answer;
    (answer.number == ARPA_LINE).then_some(answer.place as usize)
}

/// The list of a text, filled where asked, and how many rows filling added; or the refusal in words.
pub fn read(text: &[u8], fill: bool) -> Result<(List, usize), String> {
    let Read { answer, table, store } = call(text, fill);
    if answer.number != ACCEPTED {
        return Err(refusal::of_text(text, answer.number, answer.place as usize, fill));
    }
    let texts = backoff::texts(&store).map(|(_, text)| text.to_vec()).collect();
    if !fill {
        return Ok((List { table, texts }, 0));
    }
    let mut filled = vec![0; ROW_ITEMS * ROW_LIMIT];
    let complete = backoff::fill(&table, &mut filled);
    if complete.number != ACCEPTED {
        return Err(refusal::of_filling(text, complete.number, complete.place as usize));
    }
    filled.truncate(ROW_ITEMS * complete.rows as usize);
    Ok((List { table: filled, texts }, (complete.rows - answer.rows) as usize))
}

/// The list as a text that is read back as this list: the one-word rows come in the order of their words, which numbers them again as they are.
pub fn print(list: &List) -> Vec<u8> {
    let mut text = b"\\data\\\n".to_vec();
    for (length, count) in (1..).zip(list.lengths()) {
        text.extend(format!("ngram {length}={count}\n").as_bytes());
    }
    let mut section = 0;
    for row in list.rows() {
        if row.words.len() > section {
            section = row.words.len();
            text.extend(format!("\n\\{section}-grams:\n").as_bytes());
        }
        print_row(list, &row, &mut text);
    }
    text.extend(b"\n\\end\\\n");
    text
}

/// A row's line; a back-off of 0 is left out.
fn print_row(list: &List, row: &Row, text: &mut Vec<u8>) {
    write_log10(text, row.p as i64);
    text.push(b'\t');
    for (place, &word) in row.words.iter().enumerate() {
        if place > 0 {
            text.push(b' ');
        }
        text.extend(list.text(word));
    }
    if row.b != 0 {
        text.push(b'\t');
        write_log10(text, row.b as i64);
    }
    text.push(b'\n');
}
