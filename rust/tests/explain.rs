//! `backoff explain`: its ledger, beside one that is made here from the list's rows and the lines of the text.

mod support;

use std::collections::HashMap;
use support::lines::{logarithm, Marks};
use support::{any_list, any_text, Folder, Texted, SAMPLE};
use tests::arpa;
use tests::lists;
use tests::random::Random;
use tests::reference::filling::fill;
use tests::reference::list::{rows, Row};
use tests::reference::rule::{Rule, SENTENCE_END, SENTENCE_START, UNKNOWN};

/// The rows of a list with where they stand, as the ledger says it.
struct Placed {
    texts: Vec<Vec<u8>>,
    rows: HashMap<Vec<i32>, (Row, String)>,
    order: usize,
}

impl Placed {
    fn new(list: &Texted, place: impl Fn(&Row) -> String) -> Placed {
        let order = list.rows.iter().map(|row| row.words.len()).max().unwrap();
        let rows = list.rows.iter().map(|row| (row.words.clone(), (row.clone(), place(row)))).collect();
        Placed { texts: list.texts.clone(), rows, order }
    }

    /// With the lines of an ARPA text.
    fn with_lines(list: &Texted, lines: &[Vec<u8>]) -> Placed {
        let words_of = |line: &Vec<u8>| line.split(|&byte| byte == b'\t').nth(1).map(<[u8]>::to_vec);
        let lines: HashMap<Vec<u8>, usize> = (1..).zip(lines).filter_map(|(number, line)| Some((words_of(line)?, number))).collect();
        let place = |row: &Row| match lines.get(&joined(&list.texts, &row.words)) {
            Some(line) => format!(" (line {line})"),
            None => " (added)".to_string(),
        };
        Placed::new(list, place)
    }

    fn text(&self, words: &[i32]) -> Vec<u8> {
        joined(&self.texts, words)
    }

    /// The lines of a word's rows, by the rule's own words; the history is oldest first.
    fn tried(&self, history: &[i32], word: i32) -> Vec<Vec<u8>> {
        let row = [history, &[word]].concat();
        let shown = self.text(&row);
        if let Some((row, place)) = self.rows.get(&row) {
            return vec![[&shown, format!(" listed{place}: p {}", row.p).as_bytes()].concat()];
        }
        let before = self.text(history);
        let line = match self.rows.get(history) {
            Some((row, place)) => [&shown, &b" not listed: b of \""[..], &before, format!("\"{place} {}", row.b).as_bytes()].concat(),
            None => [&shown, &b" not listed, nor is \""[..], &before, b"\": no b 0"].concat(),
        };
        [vec![line], self.tried(&history[1..], word)].concat()
    }
}

fn joined(texts: &[Vec<u8>], words: &[i32]) -> Vec<u8> {
    words.iter().map(|&word| &texts[word as usize - 1][..]).collect::<Vec<_>>().join(&b' ')
}

/// The lines of a sentence; each has one space where the program has some.
fn sentence(placed: &Placed, scorer: &Rule, number: usize, words: &[&[u8]], marks: Marks, total: &mut i64) -> Vec<Vec<u8>> {
    let mut lines = vec![[format!("sentence {number}: ").as_bytes(), &words.join(&b' ')].concat()];
    let (mut preceding, mut points) = (if marks.bos { vec![SENTENCE_START] } else { vec![] }, 0);
    let closing = marks.eos.then_some(&b"</s>"[..]);
    for text in words.iter().copied().chain(closing) {
        let given = placed.texts.iter().position(|other| other == text).map_or(0, |place| place as u32 + 1);
        let word = if given == 0 { UNKNOWN } else { given as i32 };
        lines.push(if word == UNKNOWN && text != b"<unk>" { [text, b", scored as <unk>"].concat() } else { text.to_vec() });
        let since = preceding.iter().rposition(|&word| word == SENTENCE_END).map_or(0, |end| end + 1);
        let mut history: Vec<i32> = preceding[since..].iter().map(|&word| if word == 0 { UNKNOWN } else { word as i32 }).collect();
        if since > 0 {
            history.insert(0, SENTENCE_START as i32);
        }
        let newest = history.len().saturating_sub(placed.order - 1);
        let mut tried = placed.tried(&history[newest..], word);
        let scored = scorer.score(&preceding, given);
        tried.last_mut().unwrap().extend(format!(" {}", scored.points).as_bytes());
        lines.extend(tried);
        points += scored.points as i64;
        preceding.push(given);
    }
    lines.push(format!("total (log10 {}) {points}", logarithm(points)).into_bytes());
    *total += points;
    lines
}

/// All lines of a text.
fn ledger(placed: &Placed, list: &[Row], text: &[u8], marks: Marks) -> Vec<Vec<u8>> {
    let scorer = Rule::new(list);
    let mut texts: Vec<&[u8]> = text.split(|&byte| byte == b'\n').collect();
    if texts.last().is_some_and(|line| line.is_empty()) {
        texts.pop();
    }
    let (mut lines, mut total) = (Vec::new(), 0);
    for (number, line) in (1..).zip(&texts) {
        let words: Vec<&[u8]> = line.split(|byte| b" \t\r\x0B\x0C\0".contains(byte)).filter(|word| !word.is_empty()).collect();
        lines.extend(sentence(placed, &scorer, number, &words, marks, &mut total));
        lines.push(Vec::new());
    }
    match texts.len() {
        0 | 1 => lines.truncate(lines.len().saturating_sub(1)),
        count => lines.push(format!("total of {count} sentences: {total} (log10 {})", logarithm(total)).into_bytes()),
    }
    lines
}

/// Lines with one space where there are some.
fn squeezed(printed: &[u8]) -> Vec<Vec<u8>> {
    let squeeze = |line: &[u8]| line.split(|&byte| byte == b' ').filter(|part| !part.is_empty()).collect::<Vec<_>>().join(&b' ');
    printed.strip_suffix(b"\n").map_or(Vec::new(), |lines| lines.split(|&byte| byte == b'\n').map(squeeze).collect())
}

fn compare(printed: &[u8], expected: Vec<Vec<u8>>) {
    for (ours, theirs) in squeezed(printed).iter().zip(&expected) {
        assert_eq!(String::from_utf8_lossy(ours), String::from_utf8_lossy(&squeezed(&[theirs, &b"\n"[..]].concat())[0]));
    }
    assert_eq!(squeezed(printed).len(), expected.len());
}

/// The sample, byte for byte: the scope's rows by hand, an unknown word in the history, and a 3 within a line.
#[test]
fn ledger_of_the_sample() {
    let folder = Folder::new();
    folder.put("sample", SAMPLE);
    let expected = "\
sentence 1: four nine five
four
  <s> four         listed (line 15): p                     -4000   -4000
nine, scored as <unk>
  <s> four <unk>   not listed: b of \"<s> four\" (line 15)    -500
  four <unk>       not listed: b of \"four\" (line 10)       -2000
  <unk>            listed (line 9): p                     -20000  -22500
five
  four <unk> five  not listed, nor is \"four <unk>\": no b       0
  <unk> five       not listed: b of \"<unk>\" (line 9)           0
  five             listed (line 11): p                     -9000   -9000
</s>
  <unk> five </s>  not listed, nor is \"<unk> five\": no b       0
  five </s>        listed (line 16): p                     -1500   -1500
total (log10 -0.037)                                              -37000
";
    assert_eq!(String::from_utf8(folder.run_on("explain sample", b"four nine five\n").printed()).unwrap(), expected);
    folder.run("build sample array").printed();
    let expected = "\
sentence 1: </s> <unk>
</s>
  <s> </s>        not listed: b of \"<s>\"                 -3000
  </s>            listed: p                             -10000  -13000
<unk>
  <s> <unk>       not listed: b of \"<s>\"                 -3000
  <unk>           listed: p                             -20000  -23000
</s>
  <s> <unk> </s>  not listed, nor is \"<s> <unk>\": no b       0
  <unk> </s>      not listed: b of \"<unk>\"                   0
  </s>            listed: p                             -10000  -10000
total (log10 -0.046)                                            -46000
";
    assert_eq!(String::from_utf8(folder.run_on("explain array", b"</s> <unk>").printed()).unwrap(), expected);
}

#[test]
fn random_lists_and_texts() {
    for seed in 0..60 {
        let random = &mut Random::new(seed);
        let list = any_list(random);
        let text = any_text(random, &list, 8);
        let folder = Folder::new();
        let mut printed = arpa::print(&list.rows, &list.texts);
        printed.sections[1..].iter_mut().for_each(|section| arpa::shuffle(random, section));
        let lines = arpa::with_blanks(random, &printed.lines());
        folder.put("arpa", arpa::bytes(&lines));
        folder.put("text", &text);
        let expected = ledger(&Placed::with_lines(&list, &lines), &list.rows, &text, Marks::BOTH);
        compare(&folder.run("explain arpa text").printed(), expected.clone());
        compare(&folder.run_on("explain arpa -", &text).printed(), expected);
        folder.run("build arpa array").printed();
        let marks = random.pick(&Marks::ALL);
        let expected = ledger(&Placed::new(&list, |_| String::new()), &list.rows, &text, marks);
        compare(&folder.run_on(&format!("explain array{}", marks.options()), &text).printed(), expected);
    }
}

/// Rows that filling added have no line.
#[test]
fn filled() {
    let mut added = 0;
    for seed in 0..12 {
        let random = &mut Random::new(seed);
        let whole = lists::natural(random, 3, 30, 200);
        let whole = lists::mild(random, &whole);
        let kept = lists::pruned(random, &whole, 40);
        let pruned = Texted::new(random, &kept);
        let mut table = vec![0; 8 * 65_535];
        let filled = fill(&lists::table(&pruned.rows), &mut table);
        assert_eq!(filled.0 .0, 0);
        let list = Texted { rows: rows(&table[..8 * filled.1 as usize]), texts: pruned.texts.clone() };
        let text = any_text(random, &list, 20);
        let lines = arpa::print(&pruned.rows, &pruned.texts).lines();
        let folder = Folder::new();
        folder.put("arpa", arpa::bytes(&lines));
        let printed = folder.run_on("explain arpa --fill", &text).printed();
        added += String::from_utf8_lossy(&printed).matches("(added)").count();
        compare(&printed, ledger(&Placed::with_lines(&list, &lines), &list.rows, &text, Marks::BOTH));
    }
    assert!(added > 20, "{added}");
}

/// What rows add ends in one column of a sentence, and points of words and total in another.
#[test]
fn columns() {
    let folder = Folder::new();
    let text = std::str::from_utf8(b"\xE2\x82\xAC four four\nfour five\n\nlongest five nine\n").unwrap();
    folder.put("sample", SAMPLE.replace("five", "f\u{fc}nf"));
    let printed = String::from_utf8(folder.run_on("explain sample", text.replace("five", "f\u{fc}nf").as_bytes()).printed()).unwrap();
    for sentence in printed.split("\n\n").filter(|block| block.starts_with("sentence")) {
        let length = |line: &str| line.chars().count();
        let rows: Vec<&str> = sentence.lines().filter(|line| line.starts_with("  ")).collect();
        let total = length(sentence.lines().last().unwrap());
        let numbers = |line: &&&str| line.rsplit("  ").take_while(|part| part.trim().parse::<i64>().is_ok()).count();
        let (sums, others): (Vec<&&str>, Vec<&&str>) = rows.iter().partition(|line| numbers(line) == 2);
        assert!(sums.iter().all(|line| length(line) == total), "{sentence}");
        assert!(others.iter().all(|line| length(line) == length(others[0]) && length(line) < total), "{sentence}");
        assert!(!sums.is_empty(), "{sentence}");
    }
}

/// A byte order mark is part of the first word, and is named.
#[test]
fn byte_order_mark() {
    let folder = Folder::new();
    folder.put("sample", SAMPLE);
    let printed = String::from_utf8(folder.run_on("explain sample", "\u{feff}four\n".as_bytes()).printed()).unwrap();
    assert_eq!(printed.lines().nth(1), Some("\u{feff}four, which begins with a byte order mark, scored as <unk>"));
}

/// No text, no ledger; one empty line, one empty sentence.
#[test]
fn empty() {
    let folder = Folder::new();
    folder.put("sample", SAMPLE);
    assert_eq!(folder.run("explain sample").text(), "");
    let printed = String::from_utf8(folder.run_on("explain sample", b"\n").printed()).unwrap();
    assert!(printed.starts_with("sentence 1: \n</s>\n  <s> </s>  not listed: b of \"<s>\" (line 8)"), "{printed}");
}
