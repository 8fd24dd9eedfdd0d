//! The additions of a sentence as lines: the rows that were tried, what each adds in one column, and each word's points in the next.

use crate::addition::{Added, Tried};
use crate::columns::{letters, space, Columns, Side};
use crate::decimal::log10_text;
use crate::explained::{Sentence, Word};
use crate::list::RESERVED_TEXTS;
use crate::put_in_form::BYTE_ORDER_MARK;
use crate::row_names::RowNames;

/// What stands before the rows of a word, and at least before a total.
const INDENT: usize = 2;

/// A row, whether it is listed and what it adds, the points, and the word's points in the last line of a word.
type Line = [Vec<u8>; 4];

/// Prints a sentence, whose number is that of its line in the text.
pub fn print(sentence: &Sentence, number: usize, names: &RowNames, out: &mut Vec<u8>) {
    let words: Vec<Vec<Line>> = sentence.words.iter().map(|word| lines(word, names)).collect();
    let total = sentence.total.to_string().into_bytes();
    let mut columns = Columns::new([Side::Left, Side::Left, Side::Right, Side::Right]);
    words.iter().flatten().for_each(|line| columns.fit(line));
    columns.fit(&[vec![], vec![], vec![], total.clone()]);
    out.extend(format!("sentence {number}: ").as_bytes());
    out.extend(&sentence.text);
    out.push(b'\n');
    for (word, lines) in sentence.words.iter().zip(&words) {
        out.extend(word.text);
        out.extend(remark(word));
        out.push(b'\n');
        lines.iter().for_each(|line| columns.print(INDENT, line, out));
    }
    let label = format!("total (log10 {})", log10_text(sentence.total)).into_bytes();
    out.extend(&label);
    space(out, (INDENT + columns.width()).saturating_sub(letters(&label) + total.len()).max(INDENT));
    out.extend(total);
    out.push(b'\n');
}

/// The last line of several sentences.
pub fn print_total(sentences: usize, total: i64, out: &mut Vec<u8>) {
    out.extend(format!("total of {sentences} sentences: {total} (log10 {})\n", log10_text(total)).as_bytes());
}

/// What is said of a word behind its text: what it is scored as where that is another. A byte order mark, which nobody sees, is named.
pub fn remark(word: &Word) -> Vec<u8> {
    let [unknown, ..] = RESERVED_TEXTS;
    let marked: &[u8] = if word.text.starts_with(BYTE_ORDER_MARK) { b", which begins with a byte order mark" } else { b"" };
    match word.addition.is_unknown() && word.text != unknown {
        true => [marked, b", scored as ", unknown].concat(),
        false => marked.to_vec(),
    }
}

fn lines(word: &Word, names: &RowNames) -> Vec<Line> {
    let line = |tried: &Tried| [names.text(&tried.row), note(tried, names), tried.points().to_string().into_bytes(), vec![]];
    let mut lines: Vec<Line> = word.addition.tried.iter().map(line).collect();
    if let Some([.., sum]) = lines.last_mut() {
        *sum = word.addition.points().to_string().into_bytes();
    }
    lines
}

/// Whether a row is listed, and what it adds.
pub fn note(tried: &Tried, names: &RowNames) -> Vec<u8> {
    let history = names.text(tried.history());
    match tried.added {
        Added::Probability(_) => format!("listed{}: p", names.place(&tried.row)).into_bytes(),
        Added::Backoff(_) => [b"not listed: b of \"", &history[..], b"\"", names.place(tried.history()).as_bytes()].concat(),
        Added::Nothing => [b"not listed, nor is \"", &history[..], b"\": no b"].concat(),
    }
}
