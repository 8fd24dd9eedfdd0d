//! What `compile-lm` prints of a text, word by word.

use crate::arpa::POINTS;

/// A scored word; `<unk>` where it is unknown.
#[derive(Debug, PartialEq)]
pub struct Printed {
    pub word: String,
    pub matched: usize,
    pub points: f64,
}

/// The lines of `--eval --debug=2`: `w1 w2 w3<tab>1 [2-gram] -1.56`, with a base-10 logarithm.
pub fn eval(text: &str) -> Vec<Printed> {
    let read = |line: &str| {
        let (words, rest) = line.split_once("\t1 [")?;
        let (matched, log) = rest.split_once("-gram] ")?;
        Some(Printed { word: newest(words), matched: matched.parse().ok()?, points: number(log)? * POINTS })
    };
    text.lines().filter_map(read).collect()
}

/// The lines of `--score`: `> w1 w2 w3<tab>1 p= -0x1.04p+1 bo= 1`, with a natural logarithm and how often it backed off.
pub fn score(text: &str, order: usize) -> Vec<Printed> {
    let read = |line: &str| {
        let (words, rest) = line.split_once("\t1 p= ")?;
        let (log, backed_off) = rest.split_once(" bo= ")?;
        let matched = order - backed_off.trim().parse::<usize>().ok()?;
        Some(Printed { word: newest(words), matched, points: number(log)? / std::f64::consts::LN_10 * POINTS })
    };
    text.lines().filter_map(read).collect()
}

/// The last line of `--eval`: words, their perplexity with the unknown ones, and how many are unknown.
#[derive(Debug, PartialEq)]
pub struct Summary {
    pub words: usize,
    pub perplexity: f64,
    pub unknown: usize,
}

pub fn summary(text: &str) -> Option<Summary> {
    let line = text.lines().find_map(|line| line.strip_prefix("%% "))?;
    let number = |name: &str| line.split(' ').find_map(|field| field.strip_prefix(name))?.parse::<f64>().ok();
    Some(Summary { words: number("Nw=")? as usize, perplexity: number("PP=")?, unknown: number("Noov=")? as usize })
}

fn newest(words: &str) -> String {
    words.split_whitespace().next_back().unwrap_or_default().to_string()
}

/// A decimal number, or a hexadecimal one as C prints it by `%a`.
fn number(text: &str) -> Option<f64> {
    let text = text.trim();
    let (sign, digits) = text.strip_prefix('-').map_or((1.0, text), |digits| (-1.0, digits));
    let Some(digits) = digits.strip_prefix("0x") else { return text.parse().ok() };
    let (digits, exponent) = digits.split_once('p')?;
    let (whole, fraction) = digits.split_once('.').unwrap_or((digits, ""));
    let mantissa = u64::from_str_radix(&format!("{whole}{fraction}"), 16).ok()?;
    let exponent = exponent.parse::<i32>().ok()? - 4 * fraction.len() as i32;
    Some(sign * mantissa as f64 * 2f64.powi(exponent))
}

#[cfg(test)]
mod tests {
    use super::{eval, number, score, summary, Printed, Summary};

    #[test]
    fn numbers() {
        assert_eq!(number("-0x1.8p+1"), Some(-3.0));
        assert_eq!(number("0x1p-2"), Some(0.25));
        assert_eq!(number("-1.56"), Some(-1.56));
        assert_eq!(number("-inf"), Some(f64::NEG_INFINITY));
        assert_eq!(number("NULL"), None);
    }

    #[test]
    fn lines() {
        let word = |word: &str, matched, points| Printed { word: word.to_string(), matched, points };
        assert_eq!(
            eval("Start Eval\n<s> w3\t1 [2-gram] -0.5\nw3 w4 <unk>\t1 [1-gram] -8\n%% Nw=2"),
            [word("w3", 2, -5e5), word("<unk>", 1, -8e6)]
        );
        let scored = score("> <s> w3\t1 p= NULL\n> <s> w3 w4\t1 p= -0x0p+0 bo= 1\n> ", 3);
        assert_eq!(scored, [word("w4", 2, 0.0)]);
        let whole = Summary { words: 6993, perplexity: 134.31, unknown: 974 };
        assert_eq!(summary("w\t1\n%% Nw=6993 PP=134.31 PPwp=0.00 Nbo=5697 Noov=974 OOV=13.93% logPr=-14881.79\n"), Some(whole));
        assert_eq!(summary("Nw=1"), None);
    }
}
