//! An ARPA file as a list.
//!
//! `<unk>` is word 1, `<s>` 2 and `</s>` 3; the other words are numbered from 4 in the order of their one-word rows. Logarithms are
//! rounded to the nearest point, and one that leaves its range (-inf too) becomes the range's end.
//!
//! A list needs rows that ARPA may lack. A mark without a row gets p -99,000,000 and b 0. A shorter row that is missing gets b 0 and the
//! points that the rule gives its words without it, so that no points change; only matched lengths do, which is why added rows are told.

use ::tests::reference::list::{Row, LARGEST_B, LOWEST_P};
use std::collections::{BTreeMap, BTreeSet, HashMap};

/// The points of a base-10 logarithm of 1.
pub const POINTS: f64 = 1_000_000.0;

const MARKS: [&str; 3] = ["<unk>", "<s>", "</s>"];

/// The number of words and the words newest first: these ascend as the rows do.
type Key = (usize, Vec<i32>);

/// p and b of each row.
type Rows = BTreeMap<Key, (i32, i32)>;

pub struct Arpa {
    pub numbers: HashMap<String, i32>,
    pub rows: Vec<Row>,
    /// The words of the rows that the file lacks, oldest first.
    pub added: BTreeSet<Vec<i32>>,
}

pub fn read(text: &str) -> Result<Arpa, String> {
    let mut numbers: HashMap<String, i32> = MARKS.iter().zip(1..).map(|(mark, number)| (mark.to_string(), number)).collect();
    let mut rows = Rows::new();
    let (mut announced, mut read) = (Vec::new(), Vec::new());
    let mut ended = false;
    for line in text.lines().map(str::trim).filter(|line| !line.is_empty() && *line != "\\data\\") {
        if let Some((_, count)) = line.strip_prefix("ngram ").and_then(|line| line.split_once('=')) {
            announced.push(count.trim().parse::<usize>().map_err(|_| format!("no count: {line}"))?);
        } else if line.ends_with("-grams:") {
            read.push(0);
        } else if line == "\\end\\" {
            ended = true;
        } else {
            let count = read.last_mut().ok_or(format!("outside the sections: {line}"))?;
            *count += 1;
            read_row(line, announced.len().min(read.len()), &mut numbers, &mut rows)?;
        }
    }
    if announced != read || !ended {
        return Err(format!("{announced:?} rows were announced, {read:?} are there, the end line {ended}"));
    }
    let added = add_missing(&mut rows)?;
    let words = |(_, newest_first): &Key| newest_first.iter().rev().copied().collect();
    let added = added.iter().map(words).collect();
    Ok(Arpa { numbers, added, rows: rows.iter().map(|(key, &(p, b))| Row { words: words(key), p, b }).collect() })
}

/// Reads a row of m words: its logarithm, the words, and the back-off where there is one.
fn read_row(line: &str, m: usize, numbers: &mut HashMap<String, i32>, rows: &mut Rows) -> Result<(), String> {
    let fields: Vec<&str> = line.split_whitespace().collect();
    if fields.len() != m + 1 && fields.len() != m + 2 {
        return Err(format!("not a row of {m} words: {line}"));
    }
    let next = numbers.len() as i32 + 1;
    if m == 1 {
        numbers.entry(fields[1].to_string()).or_insert(next);
    }
    let number = |word: &&str| numbers.get(*word).copied().ok_or(format!("a word without a row of its own: {line}"));
    let newest_first = fields[1..=m].iter().rev().map(number).collect::<Result<_, _>>()?;
    let p = points(fields[0], LOWEST_P, 0)?;
    let b = fields.get(m + 1).map_or(Ok(0), |b| points(b, -LARGEST_B, LARGEST_B))?;
    match rows.insert((m, newest_first), (p, b)) {
        Some(_) => Err(format!("a row twice: {line}")),
        None => Ok(()),
    }
}

/// A base-10 logarithm in points.
fn points(text: &str, low: i32, high: i32) -> Result<i32, String> {
    match text.parse::<f64>() {
        Ok(value) if !value.is_nan() => Ok((value * POINTS).round().clamp(low as f64, high as f64) as i32),
        _ => Err(format!("no logarithm: {text}")),
    }
}

/// Adds the rows that are missing: the longest first, since they may need shorter ones; their points from the shortest on.
fn add_missing(rows: &mut Rows) -> Result<BTreeSet<Key>, String> {
    let order = rows.keys().next_back().ok_or("no rows")?.0;
    let mut added = BTreeSet::new();
    for mark in [1, 2, 3].map(|number| (1, vec![number])) {
        if !rows.contains_key(&mark) {
            rows.insert(mark.clone(), (LOWEST_P, 0));
            added.insert(mark);
        }
    }
    for m in (2..=order).rev() {
        let longer: Vec<Key> = rows.range((m, Vec::new())..(m + 1, Vec::new())).map(|(key, _)| key.clone()).collect();
        for shorter in longer.iter().flat_map(|key| [without_first(key), without_last(key)]) {
            if !rows.contains_key(&shorter) {
                rows.insert(shorter.clone(), (0, 0));
                added.insert(shorter);
            }
        }
    }
    for key in added.iter().filter(|key| key.0 > 1) {
        let p = rows[&without_last(key)].1 + rows[&without_first(key)].0;
        rows.insert(key.clone(), (p.clamp(LOWEST_P, 0), 0));
    }
    Ok(added)
}

fn without_first((m, newest_first): &Key) -> Key {
    (m - 1, newest_first[..m - 1].to_vec())
}

fn without_last((m, newest_first): &Key) -> Key {
    (m - 1, newest_first[1..].to_vec())
}

#[cfg(test)]
mod tests {
    use super::{read, LOWEST_P};
    use ::tests::lists::{sample, table};

    const SAMPLE: &str = include_str!("sample.arpa");

    /// The sample list of document 01 in ARPA's form, its rows in another order.
    #[test]
    fn the_sample() {
        let arpa = read(SAMPLE).unwrap();
        assert_eq!(arpa.rows, sample());
        assert!(arpa.added.is_empty());
        assert_eq!((arpa.numbers["four"], arpa.numbers["five"]), (4, 5));
    }

    /// A point is 1/1,000,000, halves away from zero; ranges end at 99, and -inf is below them.
    #[test]
    fn rounding_and_ranges() {
        let with = |p: &str, b: &str| {
            read(&SAMPLE.replace("-0.006\tfour\t-0.002", &format!("{p}\tfour\t{b}"))).map(|arpa| (arpa.rows[3].p, arpa.rows[3].b))
        };
        assert_eq!(with("-0.0060004", "-0.0000005"), Ok((-6000, -1)));
        assert_eq!(with("-0.0000004", "0.0012346"), Ok((0, 1235)));
        assert_eq!(with("-99.1", "-inf"), Ok((-99_000_000, -99_000_000)));
        assert_eq!(with("1e-9", "inf"), Ok((0, 99_000_000)));
        assert!(with("nan", "0").is_err() && with("-0.6", "x").is_err());
    }

    /// A list without its marks gets them, with the lowest p; without `<unk>` that is all that is missing.
    #[test]
    fn missing_marks() {
        let arpa = read("\\data\\\nngram 1=1\n\n\\1-grams:\n-0.3\tx\n\n\\end\\\n").unwrap();
        let cells = table(&arpa.rows);
        assert_eq!(
            cells,
            table(&[(1, LOWEST_P), (2, LOWEST_P), (3, LOWEST_P), (4, -300_000)].map(|(word, p)| super::Row { words: vec![word], p, b: 0 }))
        );
        assert_eq!(arpa.added, [vec![1], vec![2], vec![3]].into());
        assert_eq!(backoff::check(&cells).number, 0);
    }

    /// Rows of shorter words that a pruned file lacks are added, with the rule's points: the points of every sequence stay as they were.
    #[test]
    fn missing_shorter_rows() {
        let arpa = read(&without(&without(SAMPLE, "four five", 2), "five </s>", 2)).unwrap();
        assert_eq!(arpa.added, [vec![4, 5]].into());
        // b of 4, then p of 5.
        let added = arpa.rows.iter().find(|row| row.words == [4, 5]).unwrap();
        assert_eq!((added.p, added.b), (-2000 - 9000, 0));
        assert_eq!(backoff::check(&table(&arpa.rows)).number, 0);
        let arpa = read(&without(SAMPLE, "<s> four", 2)).unwrap();
        assert_eq!(arpa.added, [vec![2, 4]].into());
        assert_eq!(arpa.rows.iter().find(|row| row.words == [2, 4]).map(|row| (row.p, row.b)), Some((-3000 - 6000, 0)));
    }

    /// Files that are not whole, or not of this form.
    #[test]
    fn refused() {
        assert!(read("").is_err());
        assert!(read(SAMPLE.strip_suffix("\\end\\\n").unwrap()).is_err());
        assert!(read(&SAMPLE.replace("ngram 2=3", "ngram 2=4")).is_err());
        assert!(read(&SAMPLE.replace("five </s>", "five six")).is_err(), "a word without a row");
        assert!(read(&SAMPLE.replace("<s> four five", "four five")).is_err(), "two words among the rows of three");
        assert!(read(&SAMPLE.replace("four five\n", "<s> four\n")).is_err(), "a row twice");
        assert!(read(&format!("-1 x\n{SAMPLE}")).is_err(), "a row outside the sections");
    }

    /// The file without a row of m words.
    fn without(arpa: &str, words: &str, m: usize) -> String {
        let is_row = |line: &&str| line.split('\t').nth(1) == Some(words);
        assert_eq!(arpa.lines().filter(is_row).count(), 1);
        let (before, after) = arpa.split_once(&format!("ngram {m}=")).unwrap();
        let (count, after) = after.split_once('\n').unwrap();
        let fewer = count.parse::<usize>().unwrap() - 1;
        let lines = format!("{before}ngram {m}={fewer}\n{after}");
        lines.lines().filter(|line| !is_row(line)).map(|line| format!("{line}\n")).collect()
    }
}
