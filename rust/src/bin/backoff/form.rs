//! What is wrong with a line that an ARPA text may not have, and what mends it. The line was refused by the reader; this only says why.

use crate::list::is_text;
use crate::logarithm::is_in_form;
use crate::put_in_form::{BYTE_ORDER_MARK, IARPA};
use crate::refusal::shown;
use crate::text_rows::{heading, lines};
use backoff::limits::{ORDER_LIMIT, TEXT_LIMIT};

/// The first bytes of files that are no ARPA text as they are, with what is wrong and what mends it.
const OTHER_FILES: [(&[u8], &str, &str); 4] = [
    (b"\x1F\x8B", "the file is compressed", "unpack it: gunzip <OLD >NEW"),
    (b"\xFF\xFE", "the file is UTF-16, which begins with a byte order mark", "write it as UTF-8: iconv -f UTF-16 -t UTF-8 OLD >NEW"),
    (b"\xFE\xFF", "the file is UTF-16, which begins with a byte order mark", "write it as UTF-8: iconv -f UTF-16 -t UTF-8 OLD >NEW"),
    (
        IARPA,
        "the file is irstlm's iARPA, whose numbers are not those of an ARPA text",
        "have irstlm write one: compile-lm OLD NEW --text=yes",
    ),
];

pub struct Fault {
    pub wrong: String,
    pub mend: String,
}

fn fault(wrong: impl Into<String>, mend: impl Into<String>) -> Fault {
    Fault { wrong: wrong.into(), mend: mend.into() }
}

/// What the lines before a line leave to come.
#[derive(Default)]
struct Stage {
    data: bool,
    counts: usize,
    section: usize,
    ended: bool,
}

impl Stage {
    fn before(text: &[u8], line: usize) -> Stage {
        let mut stage = Stage::default();
        for line in lines(text).take(line - 1).filter(|line| !line.is_empty()) {
            stage.ended |= line == b"\\end\\";
            stage.section = heading(line).unwrap_or(stage.section);
            stage.counts += (stage.data && stage.section == 0) as usize;
            stage.data = true;
        }
        stage
    }

    /// The lines that may come next.
    fn next(&self) -> String {
        let next = self.section + 1;
        match self {
            Stage { data: false, .. } => "`\\data\\`".to_string(),
            Stage { counts: 0, .. } => "`ngram 1=COUNT`".to_string(),
            Stage { section: 0, counts, .. } if *counts < ORDER_LIMIT => format!("`ngram {}=COUNT` or `\\1-grams:`", counts + 1),
            Stage { section: 0, .. } => "`\\1-grams:`".to_string(),
            Stage { section, counts, .. } if section < counts => format!("a row of length {section} or `\\{next}-grams:`"),
            Stage { section, .. } => format!("a row of length {section} or `\\end\\`"),
        }
    }
}

/// The fault of a line, numbered from 1; one more than there are lines is a text that ends too early.
pub fn of_line(text: &[u8], number: usize) -> Fault {
    if let Some((_, wrong, mend)) = OTHER_FILES.iter().find(|(first, ..)| text.starts_with(first)) {
        return fault(*wrong, *mend);
    }
    let stage = Stage::before(text, number);
    let Some(line) = lines(text).nth(number - 1) else {
        return fault("the text ends too early", format!("go on with {}", stage.next()));
    };
    if number == 1 && text.starts_with(BYTE_ORDER_MARK) {
        return fault("the text begins with a byte order mark", "take it away: tail -c +4 OLD >NEW");
    }
    if line.ends_with(b"\r") {
        return fault("the line ends with a carriage return", "take carriage returns away: tr -d '\\r' <OLD >NEW");
    }
    if stage.ended {
        return fault("the text goes on behind `\\end\\`", "take away what follows");
    }
    if !stage.data && line != b"\\data\\" {
        return fault(
            "the text does not begin with `\\data\\`",
            "take away what stands before that line; without it the file is no ARPA text",
        );
    }
    of_stage(&stage, line).unwrap_or_else(|| {
        if number == lines(text).count() && !text.ends_with(b"\n") {
            return fault("the last line does not end with a line feed", "end it with one, and the text with `\\end\\`");
        }
        fault("no such line may stand here", format!("write {} here", stage.next()))
    })
}

fn of_stage(stage: &Stage, line: &[u8]) -> Option<Fault> {
    if stage.section > 0 && !line.starts_with(b"\\") {
        return of_row(line, stage.section);
    }
    if line.starts_with(b"ngram") {
        return of_count(stage, line);
    }
    None
}

fn of_count(stage: &Stage, line: &[u8]) -> Option<Fault> {
    if stage.counts >= ORDER_LIMIT {
        return Some(fault("the rows are longer than five words", "train or prune the model to order 5 at most"));
    }
    let length = stage.counts + 1;
    let mend = format!("write `ngram {length}=COUNT` with one to nine digits; one space may stand on either side of `=`, and no other");
    let count = line.strip_prefix(format!("ngram {length}").as_bytes()).and_then(|rest| {
        let rest = rest.strip_prefix(b" ").unwrap_or(rest).strip_prefix(b"=")?;
        Some(rest.strip_prefix(b" ").unwrap_or(rest))
    });
    match count {
        Some(digits) if (1..=9).contains(&digits.len()) && digits.iter().all(u8::is_ascii_digit) => None,
        _ => Some(fault(format!("this is no count of the rows of length {length}"), mend)),
    }
}

/// The fault of a row among the rows of a length.
fn of_row(line: &[u8], length: usize) -> Option<Fault> {
    let fields: Vec<&[u8]> = line.split(|&byte| byte == b'\t').collect();
    if fields.len() < 2 || fields.len() > 3 {
        let tabs = fields.len() - 1;
        return Some(fault(
            format!("the line has {tabs} tabs"),
            "write a logarithm, a tab, the words, and optionally a tab and a back-off",
        ));
    }
    of_log(fields[0]).or_else(|| of_words(fields[1], length)).or_else(|| fields.get(2).and_then(|field| of_log(field)))
}

fn of_log(field: &[u8]) -> Option<Fault> {
    let mend = "write a minus or none, one to three digits, and optionally a point with one to seven digits";
    (!is_in_form(field)).then(|| fault(format!("`{}` is no logarithm in form", shown(field)), mend))
}

fn of_words(field: &[u8], length: usize) -> Option<Fault> {
    let words: Vec<&[u8]> = field.split(|&byte| byte == b' ').collect();
    if let Some(word) = words.iter().find(|word| word.len() > TEXT_LIMIT) {
        return Some(fault(
            format!("a word has {} bytes", word.len()),
            "a word has 63 bytes at most: shorten it everywhere, or take its rows away",
        ));
    }
    if words.iter().any(|word| !is_text(word)) {
        return Some(fault("the words are not parted by one space each", "put one space between two words, and no other blanks"));
    }
    (words.len() != length)
        .then(|| fault(format!("the number of words is {}, not {length}", words.len()), "give each row as many words as its section says"))
}
