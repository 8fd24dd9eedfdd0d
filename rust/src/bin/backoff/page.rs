//! The additions of a text as one page, which needs no other file and no script.

use crate::about::About;
use crate::columns::letters;
use crate::explained::Sentence;
use crate::html::{log10, points, text, words};
use crate::page_sentence::{additions, bars};
use crate::row_names::RowNames;

/// A title of more letters is set smaller.
const LONG: usize = 60;

const STYLE: &str = include_str!("page/page.css");

/// The sentences that were added, and what each comes to.
#[derive(Default)]
pub struct Page {
    sentences: Vec<Shown>,
}

struct Shown {
    text: Vec<u8>,
    total: i64,
    bars: String,
    additions: String,
}

impl Page {
    pub fn add(&mut self, sentence: &Sentence, names: &RowNames) {
        let (text, total) = (sentence.text.clone(), sentence.total);
        self.sentences.push(Shown { text, total, bars: bars(sentence), additions: additions(sentence, names) });
    }

    pub fn finish(&self, about: &About) -> String {
        let title = match &self.sentences[..] {
            [one] if one.text.is_empty() => "an empty sentence".to_string(),
            [one] => text(&one.text),
            all => format!("{} sentences", all.len()),
        };
        let total = self.sentences.iter().map(|sentence| sentence.total).sum();
        let head = format!(
            "<!DOCTYPE html>\n<html lang=\"en\">\n<head>\n<meta charset=\"utf-8\">\n<meta name=\"viewport\" content=\"width=device-width, initial-scale=1\">\n\
             <title>{title}: how its points are added up</title>\n<style>\n{STYLE}</style>\n</head>\n"
        );
        let is_long = self.sentences.len() == 1 && letters(&self.sentences[0].text) > LONG;
        format!("{head}<body>\n{}{}{}</body>\n</html>\n", header(&title, is_long, total), self.body(about), about.html())
    }

    fn body(&self, about: &About) -> String {
        match &self.sentences[..] {
            [one] => {
                format!("<h2>The points of each word</h2>\n{}<h2>How they are added up</h2>\n{}{}", one.bars, about.rule(), one.additions)
            }
            all => {
                let sentences = (1..).zip(all).map(|(number, sentence)| sentence.section(number));
                format!("<h2>The points of each sentence</h2>\n{}{}{}", self.totals(), about.rule(), sentences.collect::<String>())
            }
        }
    }

    fn totals(&self) -> String {
        let line = |(number, sentence): (usize, &Shown)| {
            format!(
                "<tr><td><a href=\"#s{number}\">{number}</a>. {}</td><td class=\"n\">{}</td></tr>\n",
                words(&sentence.text),
                points(sentence.total)
            )
        };
        let lines: String = (1..).zip(&self.sentences).map(line).collect();
        let total = self.sentences.iter().map(|sentence| sentence.total).sum();
        format!("<table class=\"totals\">\n<tbody>\n{lines}</tbody>\n<tfoot>\n<tr><td>total</td><td class=\"n\">{}</td></tr>\n</tfoot>\n</table>\n", points(total))
    }
}

impl Shown {
    fn section(&self, number: usize) -> String {
        format!(
            "<section class=\"sentence\" id=\"s{number}\">\n<h2>{number}. {}</h2>\n{}{}</section>\n",
            words(&self.text),
            self.bars,
            self.additions
        )
    }
}

fn header(title: &str, is_long: bool, total: i64) -> String {
    let class = if is_long { " class=\"long\"" } else { "" };
    format!(
        "<header>\n<p class=\"kind\">How a total is added up</p>\n<h1{class}><bdi>{title}</bdi></h1>\n\
         <p class=\"total\"><b class=\"n\">{}</b> points <small>a base-10 logarithm of {}</small></p>\n</header>\n",
        points(total),
        log10(total)
    )
}
