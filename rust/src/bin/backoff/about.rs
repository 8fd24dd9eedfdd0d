//! What the page says of the list, of the rule, and of how to check it.

use crate::decimal::thousands;
use crate::html::text;
use crate::list::List;
use crate::model_file::ModelFile;
use crate::sha256::sha256;
use crate::subcommands::{Marks, Source};
use std::os::unix::ffi::OsStrExt;

pub struct About {
    /// The name of the model's file, as markup.
    name: String,
    checksum: String,
    is_array_file: bool,
    order: usize,
    rows: usize,
    words: usize,
    added: usize,
    in_form: bool,
    marks: Marks,
}

impl About {
    pub fn new(source: &Source, file: &ModelFile, list: &List, added: usize, marks: Marks) -> About {
        About {
            name: text(source.path.file_name().unwrap_or(source.path.as_os_str()).as_bytes()),
            checksum: sha256(&file.bytes),
            is_array_file: file.is_array_file(),
            order: list.order(),
            rows: list.row_count(),
            words: list.texts.len(),
            added,
            in_form: source.in_form,
            marks,
        }
    }

    /// The back-off rule, for somebody who has never met it.
    pub fn rule(&self) -> String {
        let tried = match self.order {
            1 => "Each word is looked for in the list, and the p of its row is added.".to_string(),
            order => format!(
                "Each word is looked for in the list together with the words before it: first the longest row, here of up to {order} words. \
                 If that row is listed, its p is added, and the word is done. If it is not, the b of its words but the last is added, or nothing if \
                 these are not listed either, and the row without its first word is tried."
            ),
        };
        let begins = if self.marks.bos { "begins after &lt;s&gt;" } else { "begins with no words before it" };
        let ends = if self.marks.eos { "ends with &lt;/s&gt;" } else { "does not end with &lt;/s&gt;" };
        format!(
            "<p class=\"rule\">{tried} A word without a row of its own counts as &lt;unk&gt;. A sentence {begins} and {ends}. \
             A point is 1/1,000,000 of a base-10 logarithm.</p>\n"
        )
    }

    pub fn html(&self) -> String {
        format!("<h2>The list</h2>\n{}<h2>How to check it</h2>\n{}{PROVED}", self.facts(), self.checks())
    }

    fn facts(&self) -> String {
        let kind = if self.is_array_file { "array file" } else { "ARPA text" };
        let added = if self.added > 0 { format!(", {} of them added by filling", thousands(self.added as u64)) } else { String::new() };
        let longest = if self.order == 1 { "of 1 word".to_string() } else { format!("of up to {} words", self.order) };
        let rows = format!("{} {longest}{added}; {} different words", thousands(self.rows as u64), thousands(self.words as u64));
        let read = if self.in_form { ", put in form" } else { "" };
        let facts = [
            ("file", format!("{}, an {kind}{read}", self.name)),
            ("SHA-256", format!("<span class=\"sum256\">{}</span>", self.checksum)),
            ("rows", rows),
            ("written by", concat!("backoff ", env!("CARGO_PKG_VERSION")).to_string()),
        ];
        let lines: String = facts.iter().map(|(name, fact)| format!("<tr><td>{name}</td><td>{fact}</td></tr>\n")).collect();
        format!("<table class=\"facts\">\n{lines}</table>\n")
    }

    fn checks(&self) -> String {
        let name = &self.name;
        let look = match self.is_array_file {
            true => format!("<code>backoff dump {name}</code> prints the list."),
            false => format!("<code>sed -n 7p {name}</code> prints the row that stands in line 7, and so on."),
        };
        let checks = [
            format!("It is this list: <code>sha256sum {name}</code> prints the checksum above."),
            format!("The rows are in it. {look} The number before the words is p, the one behind them b, or 0 if there is none; times 1,000,000 and rounded, they are the points above."),
            "What each row adds, added up, is the word&#39;s points; those of the words are the total.".to_string(),
            format!("<code>backoff explain {name} TEXT</code> prints the same additions, and <code>backoff query {name} TEXT --plain --points</code> the points from the list alone."),
        ];
        let lines: String = checks.iter().map(|check| format!("<li>{check}</li>\n")).collect();
        format!("<ol>\n{lines}</ol>\n")
    }
}

const PROVED: &str = "<p class=\"proved\">Every p and b is an answer of the library&#39;s call backoff_lookup, and every word&#39;s sum was compared with the points of backoff_run. \
Both calls are proved to answer what the list and the back-off rule say. The program that wrote this page is not proved.</p>\n";
