//! Filling as the team writes it in Rust, with the rows in a HashMap and the complete list in a vector that is sorted; it allocates as it needs.

use crate::list::{self, Row, LOWEST_P, MOST_ROWS};
use backoff::Rows;
use std::collections::HashMap;

/// The words of a row in one number, 16 bits each, the newest lowest, and their count.
type Key = (i32, u128);

fn key(words: &[i32]) -> Key {
    (words.len() as i32, words.iter().fold(0, |key, &word| key << 16 | word as u128))
}

fn words(row: &Row) -> &[i32] {
    &row[1..=row[0] as usize]
}

/// Fills a list: 1, row by row 3 to 8, 9, 5, 1, 15.
pub fn fill(table: &[i32], filled: &mut [i32]) -> Rows {
    let refused = |number, place: u64| Rows { number, rows: 0, place };
    let verdict = list::check_by::<true>(table);
    if verdict.number != 0 {
        return refused(verdict.number, verdict.place as u64);
    }
    let (rows, _) = table.as_chunks::<8>();
    let listed: HashMap<Key, (i32, i32)> = rows.iter().map(|row| (key(words(row)), (row[6], row[7]))).collect();
    let mut added: HashMap<Key, Row> = HashMap::new();
    for (i, row) in rows.iter().enumerate() {
        let all = words(row);
        for first in 1..all.len().saturating_sub(1) {
            let key = key(&all[first..]);
            if listed.contains_key(&key) || added.contains_key(&key) {
                continue;
            }
            let p = points(&listed, &all[first..]);
            if !(LOWEST_P..=0).contains(&p) {
                return refused(5, i as u64 + 1);
            }
            let mut cells = [0; 8];
            cells[0] = key.0;
            cells[1..=key.0 as usize].copy_from_slice(&all[first..]);
            cells[6] = p;
            added.insert(key, cells);
        }
    }
    let mut complete: Vec<Row> = rows.iter().copied().chain(added.into_values()).collect();
    if complete.len() > MOST_ROWS {
        return refused(1, 0);
    }
    if filled.len() < 8 * complete.len() {
        return refused(15, 0);
    }
    complete.sort_unstable_by_key(list::Key::of);
    filled[..8 * complete.len()].copy_from_slice(complete.as_flattened());
    Rows { number: 0, rows: complete.len() as u32, place: 0 }
}

/// The points of the last word after the words before it.
fn points(listed: &HashMap<Key, (i32, i32)>, words: &[i32]) -> i32 {
    if let Some(&(p, _)) = listed.get(&key(words)) {
        return p;
    }
    listed.get(&key(&words[..words.len() - 1])).map_or(0, |&(_, b)| b) + points(listed, &words[1..])
}

#[cfg(test)]
mod tests {
    use tests::damage::{self, Cells};
    use tests::lists::{mild, pruned, small};
    use tests::random::Random;
    use tests::reference;

    /// The filler that ours is timed against gives the same lists and the same refusals.
    #[test]
    fn same_lists() {
        let mut random = Random::new(1);
        for i in 0..1_000 {
            let list = small(&mut random, 1 + i % 5);
            let list = if i % 2 == 0 { mild(&mut random, &list) } else { list };
            let mut cells: Vec<Cells> = pruned(&mut random, &list, 30).iter().map(|row| row.cells()).collect();
            if i % 3 == 0 {
                let kinds: Vec<damage::Kind> = damage::kinds().collect();
                let row = random.below(cells.len());
                random.pick(&kinds).1(&mut random, &mut cells, row);
            }
            let table = cells.concat();
            let size = random.pick(&[table.len(), 2 * table.len(), 4 * table.len()]);
            let (mut ours, mut second) = (vec![7; size], vec![7; size]);
            let answer = super::fill(&table, &mut ours);
            let expected = reference::filling::fill(&table, &mut second);
            assert_eq!(((answer.number, answer.place as u32), answer.rows), expected);
            assert!(ours == second);
        }
    }
}
