//! An ARPA file from which rows are dropped at random: rows of two words that no row of three words begins with. Estimators drop such rows too, and keep longer ones that
//! end with them.

use ::tests::random::Random;
use std::collections::HashSet;

/// The file without so many of a hundred such rows; the counts stay in their columns.
pub fn drop(text: &str, percent: usize) -> String {
    let begins: HashSet<&str> = rows(text, 3).filter_map(|line| words(line).rsplit_once(' ').map(|(first, _)| first)).collect();
    let mut random = Random::new(3);
    let dropped: HashSet<&str> = rows(text, 2).filter(|line| !begins.contains(words(line))).filter(|_| random.chance(percent)).collect();
    let fewer = rows(text, 2).count() - dropped.len();
    let line = |line: &str| match line.split_once('=') {
        Some((head, count)) if head.starts_with("ngram") && head.trim_end().ends_with('2') => format!("{head}={fewer:>0$}\n", count.len()),
        _ => format!("{line}\n"),
    };
    text.lines().filter(|line| !dropped.contains(line)).map(line).collect()
}

/// The lines of the rows of m words.
fn rows(text: &str, m: usize) -> impl Iterator<Item = &str> {
    let heading = format!("\\{m}-grams:");
    text.lines().skip_while(move |line| *line != heading).skip(1).take_while(|line| !line.starts_with('\\')).filter(|line| !line.is_empty())
}

/// The words of a row, with a space between two.
fn words(line: &str) -> &str {
    line.split('\t').nth(1).unwrap_or_default()
}

#[cfg(test)]
mod tests {
    use super::drop;

    const SAMPLE: &str = include_str!("sample.arpa");

    /// `<s> four` stays, since `<s> four five` begins with it.
    #[test]
    fn the_sample() {
        assert_eq!(drop(SAMPLE, 0), SAMPLE);
        let expected = SAMPLE.replace("-0.003\tfour five\n", "").replace("-0.0015\tfive </s>\n", "").replace("ngram 2=3", "ngram 2=1");
        assert_eq!(drop(SAMPLE, 100), expected);
        assert_eq!(drop(&SAMPLE.replace("ngram 2=3", "ngram  2=       3"), 100), expected.replace("ngram 2=1", "ngram  2=       1"));
    }
}
