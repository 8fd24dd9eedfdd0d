//! ARPA texts: lists printed in every spelling that the form allows, and damage to the lines.

use crate::random::Random;
use crate::reference::arpa::{LONGEST_TEXT, MARKS};
use crate::reference::list::Row;
use std::collections::{BTreeSet, HashMap, HashSet};

/// A text in parts: the lines of the counts, and those of the rows, section by section.
#[derive(Clone)]
pub struct Arpa {
    pub counts: Vec<Vec<u8>>,
    pub sections: Vec<Vec<Vec<u8>>>,
}

impl Arpa {
    /// The text's lines without their LF, one empty line before each heading and before the end line.
    pub fn lines(&self) -> Vec<Vec<u8>> {
        let mut lines = vec![b"\\data\\".to_vec()];
        lines.extend(self.counts.iter().cloned());
        for (m, rows) in (1..).zip(&self.sections) {
            lines.push(Vec::new());
            lines.push(format!("\\{m}-grams:").into_bytes());
            lines.extend(rows.iter().cloned());
        }
        lines.extend([Vec::new(), b"\\end\\".to_vec()]);
        lines
    }

    pub fn bytes(&self) -> Vec<u8> {
        bytes(&self.lines())
    }

    /// Announces as many rows as there are.
    pub fn count_again(&mut self) {
        self.counts = (1..).zip(&self.sections).map(|(m, rows)| format!("ngram {m}={}", rows.len()).into_bytes()).collect();
    }
}

/// Each line with its LF.
pub fn bytes(lines: &[Vec<u8>]) -> Vec<u8> {
    lines.iter().flat_map(|line| line.iter().copied().chain([b'\n'])).collect()
}

/// The same list over the words 1, 2, 3 and so on, which is what reading numbers them.
pub fn dense(rows: &[Row]) -> Vec<Row> {
    let words: BTreeSet<i32> = rows.iter().flat_map(|row| row.words.iter().copied()).collect();
    let numbers: HashMap<i32, i32> = words.into_iter().zip(1..).collect();
    rows.iter().map(|row| Row { words: row.words.iter().map(|word| numbers[word]).collect(), ..row.clone() }).collect()
}

/// The list in ARPA's form, its rows as they come; `texts` has the text of word k in place k - 1.
pub fn print(rows: &[Row], texts: &[Vec<u8>]) -> Arpa {
    printed(rows, texts, spelled, |row| row.b != 0)
}

/// The same in spellings of any kind: of logarithms, of a back-off of 0, and of counts.
pub fn print_varied(random: &mut Random, rows: &[Row], texts: &[Vec<u8>]) -> Arpa {
    let given: Vec<bool> = rows.iter().map(|row| row.b != 0 || random.chance(50)).collect();
    let mut given = given.into_iter();
    let mut arpa = printed(rows, texts, |points| varied_log(random, points), |_| given.next().unwrap_or(false));
    for line in &mut arpa.counts {
        *line = varied_count(random, line);
    }
    arpa
}

fn printed(rows: &[Row], texts: &[Vec<u8>], mut log: impl FnMut(i32) -> Vec<u8>, mut has_b: impl FnMut(&Row) -> bool) -> Arpa {
    let order = rows.iter().map(|row| row.words.len()).max().unwrap_or(1);
    let mut arpa = Arpa { counts: Vec::new(), sections: vec![Vec::new(); order] };
    for row in rows {
        let words: Vec<&[u8]> = row.words.iter().map(|&word| &texts[word as usize - 1][..]).collect();
        let mut line = [&log(row.p)[..], b"\t", &words.join(&b' ')].concat();
        if has_b(row) {
            line.extend([b"\t", &log(row.b)[..]].concat());
        }
        arpa.sections[row.words.len() - 1].push(line);
    }
    arpa.count_again();
    arpa
}

/// Points with their six decimals.
fn spelled(points: i32) -> Vec<u8> {
    let (sign, size) = (if points < 0 { "-" } else { "" }, points.abs());
    format!("{sign}{}.{:06}", size / 1_000_000, size % 1_000_000).into_bytes()
}

/// Ten-millionths in one of their spellings: leading zeros, and zeros behind the last decimal or no decimals at all.
pub fn log(random: &mut Random, units: i64) -> Vec<u8> {
    let minus = units < 0 || (units == 0 && random.chance(30));
    let (whole, fraction) = (units.abs() / 10_000_000, format!("{:07}", units.abs() % 10_000_000));
    let width = whole.to_string().len() + random.below(4 - whole.to_string().len());
    let needed = fraction.trim_end_matches('0').len();
    let decimals = needed + random.below(8 - needed);
    let text = format!("{}{whole:0width$}", if minus { "-" } else { "" });
    if decimals == 0 { text } else { text + "." + &fraction[..decimals] }.into_bytes()
}

/// A logarithm that is rounded to these points, now and then the one that is furthest from them.
fn varied_log(random: &mut Random, points: i32) -> Vec<u8> {
    let away = match random.below(6) {
        0 => 0,
        1 => 4,
        2 if points != 0 => -5,
        _ => random.between(-4, 4) as i64,
    };
    let units = points.abs() as i64 * 10 + away;
    let sign = if points < 0 || (points == 0 && random.chance(50)) { -1 } else { 1 };
    log(random, sign * units)
}

/// `ngram m=count` with spaces at the sign, and with leading zeros.
fn varied_count(random: &mut Random, line: &[u8]) -> Vec<u8> {
    let line = String::from_utf8_lossy(line).into_owned();
    let (ngram, count) = line.split_once('=').unwrap_or((&line, ""));
    let width = count.len() + random.below(10 - count.len());
    format!("{ngram}{}={}{count:0>width$}", random.pick(&["", " "]), random.pick(&["", " "])).into_bytes()
}

/// The first of these bytes become those.
pub fn replace(line: &[u8], from: &[u8], to: &[u8]) -> Vec<u8> {
    match line.windows(from.len()).position(|part| part == from) {
        Some(at) => [&line[..at], to, &line[at + from.len()..]].concat(),
        None => line.to_vec(),
    }
}

/// Empty lines anywhere.
pub fn with_blanks(random: &mut Random, lines: &[Vec<u8>]) -> Vec<Vec<u8>> {
    let mut spaced = Vec::new();
    for line in lines {
        if random.chance(15) {
            spaced.extend(vec![Vec::new(); 1 + random.below(3)]);
        }
        // The empty lines of the usual form are not needed.
        if !line.is_empty() || random.chance(50) {
            spaced.push(line.clone());
        }
    }
    spaced.extend(vec![Vec::new(); random.below(3)]);
    spaced
}

pub fn shuffle<T>(random: &mut Random, items: &mut [T]) {
    for last in (1..items.len()).rev() {
        items.swap(last, random.below(last + 1));
    }
}

/// Texts for the words 1 to `count`, all different.
pub fn texts(random: &mut Random, count: usize) -> Vec<Vec<u8>> {
    let mut texts: Vec<Vec<u8>> = MARKS.map(<[u8]>::to_vec).into();
    let mut met: HashSet<Vec<u8>> = texts.iter().cloned().collect();
    while texts.len() < count {
        let text = any_text(random, &texts);
        if met.insert(text.clone()) {
            texts.push(text);
        }
    }
    texts
}

/// Texts that look like other parts of the form, or that differ little from each other.
fn any_text(random: &mut Random, others: &[Vec<u8>]) -> Vec<u8> {
    const ODD: [&[u8]; 12] = [
        b"\\end\\",
        b"\\data\\",
        b"\\1-grams:",
        b"\\2-grams:",
        b"ngram",
        b"1=1",
        b"-1.5",
        b"0",
        b"<unk",
        b"</s>>",
        b"<S>",
        b"\x7F\x80\xFF!",
    ];
    let mut text = match random.below(10) {
        0 => random.pick(&ODD).to_vec(),
        1 => vec![any_byte(random)],
        2 => (0..LONGEST_TEXT).map(|_| any_byte(random)).collect(),
        3..=5 => others[random.below(others.len())].clone(),
        _ => (0..1 + random.below(8)).map(|_| any_byte(random)).collect(),
    };
    match random.below(4) {
        0 => text.resize(LONGEST_TEXT, b'x'),
        1 => text.truncate(1 + random.below(text.len())),
        _ => {}
    }
    if random.chance(50) {
        *text.last_mut().expect("a text has a byte") = any_byte(random);
    }
    text
}

fn any_byte(random: &mut Random) -> u8 {
    if random.chance(70) {
        random.between(33, 126) as u8
    } else {
        random.between(33, 255) as u8
    }
}

/// One change to the lines, which they do not often stand.
pub fn damage_lines(random: &mut Random, lines: &mut Vec<Vec<u8>>) {
    if lines.is_empty() {
        return;
    }
    let (at, other) = (random.below(lines.len()), random.below(lines.len()));
    match random.below(6) {
        0 => {
            lines.remove(at);
        }
        1 => lines.insert(at, lines[other].clone()),
        2 => lines.swap(at, other),
        3 => lines[at] = lines[other].clone(),
        4 => lines.truncate(at),
        _ => damage_bytes(random, &mut lines[at]),
    }
}

/// One change of a byte: another one, one more, one less.
pub fn damage_bytes(random: &mut Random, bytes: &mut Vec<u8>) {
    const BYTES: &[u8] = b"\t\t \n\r-.=0123456789\\:<>/sunkngram\0\x1F!\x7F\xFF";
    let byte = random.pick(BYTES);
    if bytes.is_empty() {
        return bytes.push(byte);
    }
    let at = random.below(bytes.len());
    match random.below(3) {
        0 => bytes[at] = byte,
        1 => bytes.insert(at, byte),
        _ => {
            bytes.remove(at);
        }
    }
}
