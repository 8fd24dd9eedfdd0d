//! Unloading as the team writes it in Rust: every slot climbs to the root, so that nothing but the slots is gone through.

use crate::array::{head_fits, marker, order};
use crate::list::{low, Key, Row, LARGEST_WORD};
use backoff::Status;

/// Gives the list back in the order of its rows, and the slots of its nodes: 11, 15, 12.
pub fn unload(base: &[i32], check: &[i32], table: &mut [i32], work: &mut [u32]) -> Status {
    let refused = |number| Status { number, place: 0 };
    if !head_fits(base, check) {
        return refused(11);
    }
    let count = base[1] as usize;
    if table.len() < 8 * count || work.len() < count {
        return refused(15);
    }
    let (rows, _) = table[..8 * count].as_chunks_mut::<8>();
    let work = &mut work[..count];
    if fill(base, check, rows, work).is_none() {
        rows.fill([0; 8]);
        work.fill(0);
        return refused(12);
    }
    refused(0)
}

/// Nothing where 12 refuses. Until the last step a row holds its slot in the place of p, and in that of b its 2 × e + f.
fn fill(base: &[i32], check: &[i32], rows: &mut [Row], work: &mut [u32]) -> Option<()> {
    gather(base, check, rows)?;
    rows.sort_unstable_by_key(Key::of);
    let order = order(check);
    let marks = (0..3).all(|i| rows[i][..2] == [1, i as i32 + 1]);
    if !marks || rows[rows.len() - 1][0] != order {
        return None;
    }
    set_bits(rows)?;
    for (row, item) in rows.iter_mut().zip(work) {
        *item = row[6] as u32;
        let (p, packed) = marker(base, check, row[0] == order, row[6] as usize)?;
        if packed & 3 != row[7] {
            return None;
        }
        (row[6], row[7]) = (p, packed >> 2);
    }
    Some(())
}

/// The words and slots of all nodes of up to n words; nothing where there are not as many as rows.
fn gather(base: &[i32], check: &[i32], rows: &mut [Row]) -> Option<()> {
    let mut left = rows.iter_mut();
    for slot in 2..check.len() {
        if let Some(row) = climb(base, check, slot) {
            *left.next()? = row;
        }
    }
    left.next().is_none().then_some(())
}

/// Climbs from a slot to the root: the words come oldest first, as the row has them.
#[inline]
fn climb(base: &[i32], check: &[i32], slot: usize) -> Option<Row> {
    let mut row = [0, 0, 0, 0, 0, 0, slot as i32, 0];
    let mut node = slot;
    while node != 0 {
        let parent = check[node];
        if parent < 0 || parent as usize >= check.len() || row[0] == order(check) {
            return None;
        }
        let d = base[parent as usize];
        if d < 1 {
            return None;
        }
        let word = (node as i32 - d).abs();
        if !(1..=LARGEST_WORD).contains(&word) {
            return None;
        }
        // A slot behind d is no child where the slot ahead is one.
        if (node as i32) < d && check.get((d + word) as usize) == Some(&parent) {
            return None;
        }
        row[0] += 1;
        row[row[0] as usize] = word;
        node = parent as usize;
    }
    Some(row)
}

/// Tells every row without its first word that it is extended, and every row without its last word that it is continued; nothing where one of
/// them is missing. The rows without their first word ascend as the rows do.
fn set_bits(rows: &mut [Row]) -> Option<()> {
    let mut start = 0;
    for m in 2..=5 {
        let end = rows.partition_point(|row| row[0] < m);
        let (shorter, longer) = rows.split_at_mut(end);
        let shorter = &mut shorter[start..];
        let mut parent = 0;
        for row in longer.iter().take_while(|row| row[0] == m) {
            let without_last = low(row) & (u64::MAX >> (64 - 16 * (m - 1)));
            let at = shorter.binary_search_by_key(&without_last, low).ok()?;
            shorter[at][7] |= 1;
            let without_first = low(row) >> 16 | (row[5] as u64) << 48;
            parent += shorter[parent..].iter().position(|row| low(row) == without_first)?;
            shorter[parent][7] |= 2;
        }
        start = end;
    }
    Some(())
}

#[cfg(test)]
mod tests {
    use tests::arrays::{each_change, spread};
    use tests::lists::tiny;
    use tests::random::Random;
    use tests::reference;

    /// The unloader that ours is timed against gives the same lists back, and refuses the same arrays.
    #[test]
    fn same_lists() {
        let mut random = Random::new(1);
        for i in 0..25 {
            let rows = tiny(&mut random, 1 + i % 5);
            each_change(&spread(&mut random, &rows), |arrays| {
                let (mut ours, mut second) = (([1; 208], [1; 26]), ([1; 208], [1; 26]));
                let status = super::unload(&arrays.base, &arrays.check, &mut ours.0, &mut ours.1);
                let refusal = reference::unload::unload(&arrays.base, &arrays.check, &mut second.0, &mut second.1);
                assert_eq!(((status.number, status.place), ours), (refusal, second));
            });
        }
    }
}
