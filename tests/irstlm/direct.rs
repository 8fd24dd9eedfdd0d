//! An ARPA file read by `backoff_arpa`, and filled by `backoff_fill`.

use crate::arpa::Arpa;
use ::tests::lists::table;
use ::tests::reference::arpa::RECORD;
use ::tests::reference::list::{rows, MOST_ROWS};
use std::collections::BTreeSet;

/// Rows and texts, or the number and place of the refusal. Nothing is added.
pub fn read(text: &[u8]) -> Result<Arpa, (u32, u64)> {
    read_told(text, false)
}

/// The same of a pruned file, with the rows that filling adds.
pub fn read_filled(text: &[u8]) -> Result<Arpa, (u32, u64)> {
    let read = read_told(text, true)?;
    let mut filled = vec![0; 8 * MOST_ROWS];
    let answer = backoff::fill(&table(&read.rows), &mut filled);
    if answer.number != 0 {
        return Err((answer.number, answer.place));
    }
    let rows = rows(&filled[..8 * answer.rows as usize]);
    let listed: BTreeSet<&Vec<i32>> = read.rows.iter().map(|row| &row.words).collect();
    let added = rows.iter().map(|row| row.words.clone()).filter(|words| !listed.contains(words)).collect();
    Ok(Arpa { numbers: read.numbers, rows, added })
}

fn read_told(text: &[u8], to_be_filled: bool) -> Result<Arpa, (u32, u64)> {
    let lines = text.iter().filter(|&&byte| byte == b'\n').count();
    let (mut table, mut store) = (vec![0; 8 * lines], vec![0; RECORD * (lines + 4)]);
    let read = backoff::read_arpa(text, to_be_filled, &mut table, &mut store);
    if read.number != 0 {
        return Err((read.number, read.place));
    }
    table.truncate(8 * read.rows as usize);
    let numbers = backoff::texts(&store).map(|(word, text)| (String::from_utf8_lossy(text).into_owned(), word as i32)).collect();
    Ok(Arpa { numbers, rows: rows(&table), added: BTreeSet::new() })
}

#[cfg(test)]
mod tests {
    use super::{read, read_filled};
    use crate::dropped::drop;
    use ::tests::lists::sample;

    /// The sample's file is in form; with a count spelled as irstlm does it is not.
    #[test]
    fn the_sample() {
        let text = include_str!("sample.arpa");
        let arpa = read(text.as_bytes()).map_err(|refusal| format!("{refusal:?}")).unwrap();
        assert_eq!(arpa.rows, sample());
        assert_eq!((arpa.numbers["<unk>"], arpa.numbers["four"], arpa.numbers.len()), (1, 4, 5));
        assert_eq!(read(text.replace("ngram 2=", "ngram  2=     ").as_bytes()).err(), Some((17, 3)));
    }

    /// A row that was dropped is added, where a longer row ends with it, and has the points of the file without it.
    #[test]
    fn filled() {
        let text = drop(include_str!("sample.arpa"), 100);
        assert_eq!(read(text.as_bytes()).err(), Some((8, 7)));
        let arpa = read_filled(text.as_bytes()).map_err(|refusal| format!("{refusal:?}")).unwrap();
        assert_eq!(arpa.added, [vec![4, 5]].into());
        assert_eq!(arpa.rows.iter().find(|row| row.words == [4, 5]).map(|row| (row.p, row.b)), Some((-2_000 - 9_000, 0)));
    }
}
