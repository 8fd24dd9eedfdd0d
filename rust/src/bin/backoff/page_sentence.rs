//! A sentence on the page: its words with their points as bars, then the additions.

use crate::columns::letters;
use crate::explained::{Sentence, Word};
use crate::html::{points, text, words};
use crate::ledger::{note, remark};
use crate::row_names::RowNames;

/// What is said of an unknown word in small letters.
const UNKNOWN: &str = " unknown";

/// The words with bars, of which the longest is as wide as there is room.
pub fn bars(sentence: &Sentence) -> String {
    let longest = sentence.words.iter().map(|word| word.addition.points().abs()).max().unwrap_or(0).max(1);
    let lines: String = sentence.words.iter().map(|word| bar(word, longest)).collect();
    let mark = |word: &Word| if word.addition.is_unknown() { UNKNOWN.len() } else { 0 };
    let word_letters = sentence.words.iter().map(|word| letters(word.text) + mark(word)).max().unwrap_or(0).max("total".len());
    format!(
        "<table class=\"words\" style=\"--w:{word_letters};--n:{}\">\n<tbody>\n{lines}</tbody>\n<tfoot>\n<tr><th scope=\"row\">total</th><td></td><td class=\"n\">{}</td></tr>\n</tfoot>\n</table>\n",
        number_letters(sentence),
        points(sentence.total)
    )
}

fn bar(word: &Word, longest: i32) -> String {
    let sum = word.addition.points();
    let share = 100.0 * f64::from(sum.abs()) / f64::from(longest);
    let above = if sum > 0 { " class=\"above\"" } else { "" };
    let unknown = if word.addition.is_unknown() { format!("<small>{UNKNOWN}</small>") } else { String::new() };
    format!(
        "<tr><th scope=\"row\">{}{unknown}</th><td class=\"bar\"><i{above} style=\"width:{share:.1}%\"></i></td><td class=\"n\">{}</td></tr>\n",
        words(word.text),
        points(sum.into())
    )
}

/// The letters of the longest number of a sentence.
fn number_letters(sentence: &Sentence) -> usize {
    let tried = sentence.words.iter().flat_map(|word| &word.addition.tried).map(|tried| i64::from(tried.points()));
    let sums = sentence.words.iter().map(|word| i64::from(word.addition.points()));
    tried.chain(sums).chain([sentence.total]).map(|points| points.to_string().len()).max().unwrap_or(0)
}

/// The rows that were tried for each word.
pub fn additions(sentence: &Sentence, names: &RowNames) -> String {
    let rows = sentence.words.iter().flat_map(|word| &word.addition.tried);
    let row_letters = rows.map(|tried| letters(&names.text(&tried.row))).max().unwrap_or(0);
    let blocks: String = sentence.words.iter().map(|word| addition(word, names)).collect();
    format!("<div style=\"--r:{row_letters};--n:{}\">\n{blocks}</div>\n", number_letters(sentence))
}

fn addition(word: &Word, names: &RowNames) -> String {
    let remark = match &remark(word)[..] {
        b"" => String::new(),
        remark => format!("<span class=\"scored\">{}</span>", text(remark)),
    };
    let mut block = format!("<div class=\"word\">\n<h3>{}{remark}</h3>\n<table class=\"rows\">\n", words(word.text));
    for tried in &word.addition.tried {
        block += &format!(
            "<tr><td class=\"row\">{}</td><td class=\"note\">{}</td><td class=\"n\">{}</td></tr>\n",
            words(&names.text(&tried.row)),
            text(&note(tried, names)),
            points(tried.points().into())
        );
    }
    // One number needs no sum.
    if word.addition.tried.len() > 1 {
        block += &format!("<tr class=\"sum\"><td>sum</td><td class=\"n\">{}</td></tr>\n", points(word.addition.points().into()));
    }
    block + "</table>\n</div>\n"
}
