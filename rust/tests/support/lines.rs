//! The lines of `query`, from a second scorer over the plain list and a second computation of perplexity.

use super::Texted;
use tests::reference::rule::{Rule, Scored, SENTENCE_END, SENTENCE_START};

/// Points as a logarithm: six decimals without the zeros behind the last digit.
pub fn logarithm(points: i64) -> String {
    let digits = format!("{:.6}", points as f64 / 1e6);
    digits.trim_end_matches('0').trim_end_matches('.').to_string()
}

/// What is asked for.
#[derive(Clone, Copy)]
pub struct Form {
    pub points: bool,
    pub left: bool,
    pub shown: Shown,
}

#[derive(Clone, Copy, PartialEq)]
pub enum Shown {
    Words,
    Totals,
    Summary,
}

pub const LINES: Form = Form { points: false, left: false, shown: Shown::Words };

/// What stands around a line.
#[derive(Clone, Copy)]
pub struct Marks {
    pub bos: bool,
    pub eos: bool,
}

impl Marks {
    pub const BOTH: Marks = Marks { bos: true, eos: true };
    pub const ALL: [Marks; 4] =
        [Marks::BOTH, Marks { bos: false, eos: true }, Marks { bos: true, eos: false }, Marks { bos: false, eos: false }];

    pub fn options(self) -> &'static str {
        match (self.bos, self.eos) {
            (true, true) => "",
            (false, true) => " --no-bos",
            (true, false) => " --no-eos",
            (false, false) => " --no-eos --no-bos",
        }
    }
}

impl Form {
    pub fn all() -> impl Iterator<Item = Form> {
        let shown = [Shown::Words, Shown::Totals, Shown::Summary];
        (0..12).map(move |kind| Form { points: kind & 1 != 0, left: kind & 2 != 0, shown: shown[kind / 4] })
    }

    pub fn options(self) -> String {
        let given = [
            ("--points", self.points),
            ("--left", self.left),
            ("--totals", self.shown == Shown::Totals),
            ("--summary", self.shown == Shown::Summary),
        ];
        given.iter().filter(|(_, given)| *given).map(|(name, _)| format!(" {name}")).collect()
    }

    fn number(self, points: i64) -> String {
        if self.points {
            points.to_string()
        } else {
            logarithm(points)
        }
    }
}

/// A word with its answer.
pub type Word = (Vec<u8>, u32, Scored);

/// The sentences of a text: each line's words and the closing one, if asked for, scored over the plain list.
pub fn scored(list: &Texted, text: &[u8], marks: Marks) -> Vec<Vec<Word>> {
    let rule = Rule::new(&list.rows);
    let numbers: std::collections::HashMap<&[u8], u32> = list.texts.iter().map(Vec::as_slice).zip(1..).collect();
    let mut lines: Vec<&[u8]> = text.split(|&byte| byte == b'\n').collect();
    if lines.last().is_some_and(|line| line.is_empty()) {
        lines.pop();
    }
    let sentence = |line: &[u8]| {
        let blank = |byte: &u8| b" \t\r\x0B\x0C\0".contains(byte);
        let words = line.split(blank).filter(|word| !word.is_empty()).map(|word| (word, numbers.get(word).copied().unwrap_or(0)));
        let mut preceding = if marks.bos { vec![SENTENCE_START] } else { vec![] };
        let score = |(text, word): (&[u8], u32)| {
            let scored = rule.score(&preceding[preceding.len().saturating_sub(5)..], word);
            preceding.push(word);
            (text.to_vec(), word, scored)
        };
        let closing = marks.eos.then_some((&b"</s>"[..], SENTENCE_END));
        words.chain(closing).map(score).collect()
    };
    lines.into_iter().map(sentence).collect()
}

/// The sentences' lines.
fn lines(sentences: &[Vec<Word>], form: Form) -> Vec<u8> {
    let mut lines = Vec::new();
    for sentence in sentences {
        let total = form.number(sentence.iter().map(|(_, _, scored)| scored.points as i64).sum());
        if form.shown != Shown::Words {
            let line = if form.shown == Shown::Totals { format!("{total}\n") } else { String::new() };
            lines.extend(line.into_bytes());
            continue;
        }
        for (text, word, scored) in sentence {
            let number = if scored.unknown { 0 } else { *word };
            let left = if !form.left {
                ""
            } else if scored.extended {
                " +"
            } else {
                " -"
            };
            lines.extend(text);
            lines.extend(format!("={number} {} {}{left}\t", scored.matched, form.number(scored.points as i64)).into_bytes());
        }
        let unknown = sentence.iter().filter(|(_, _, scored)| scored.unknown).count();
        lines.extend(format!("Total: {total} OOV: {unknown}\n").into_bytes());
    }
    lines
}

/// The last four lines are right: perplexity is e to the power of minus the mean of natural logarithms.
fn compare_summary(summary: &str, sentences: &[Vec<Word>]) {
    let words: Vec<&Scored> = sentences.iter().flatten().map(|(_, _, scored)| scored).collect();
    let unknown = words.iter().filter(|scored| scored.unknown).count();
    let numbers: Vec<&str> = summary.lines().map(|line| line.split_once('\t').unwrap().1).collect();
    let names = ["Perplexity including OOVs:\t", "Perplexity excluding OOVs:\t", "OOVs:\t", "Tokens:\t"];
    assert!(names.iter().zip(summary.lines()).all(|(name, line)| line.starts_with(name)) && numbers.len() == 4, "{summary}");
    assert_eq!(numbers[2..], [unknown.to_string(), words.len().to_string()]);
    for (printed, with_unknown) in [(numbers[0], true), (numbers[1], false)] {
        let logs: Vec<f64> =
            words.iter().filter(|scored| with_unknown || !scored.unknown).map(|scored| scored.points as f64 / 1e6 * 10f64.ln()).collect();
        let expected = (-logs.iter().sum::<f64>() / logs.len() as f64).exp();
        let printed: f64 = printed.parse().unwrap();
        assert!(printed == expected || (printed / expected - 1.0).abs() < 1e-5, "{printed} {expected}");
    }
}

/// The whole output is right.
pub fn compare(printed: &[u8], sentences: &[Vec<Word>], form: Form) {
    let expected = lines(sentences, form);
    let (lines, summary) = printed.split_at(expected.len().min(printed.len()));
    assert!(lines == expected, "{}\n\n{}", String::from_utf8_lossy(printed), String::from_utf8_lossy(&expected));
    match form.shown {
        Shown::Totals => assert!(summary.is_empty()),
        _ => compare_summary(std::str::from_utf8(summary).unwrap(), sentences),
    }
}
