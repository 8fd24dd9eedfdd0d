//! The search for d along links between the free slots, as ours goes: BASE of a free slot is the number of taken slots between it and the next free one, CHECK that of those between it and the one before.

use crate::array::{largest_word, Search, FREE};
use crate::list::Row;

/// CHECK of a free slot is below this.
const LINK_LIMIT: i32 = FREE + 2 * 1_048_576;

#[derive(Default)]
pub struct Links {
    /// No slot from this one on is taken.
    top: usize,
}

impl Search for Links {
    /// The first and the last child are tried before the others, where one of them most often fails.
    fn first_fit(&mut self, children: &[Row], base: &[i32], check: &[i32]) -> (usize, bool) {
        let free = |slot: usize| slot >= check.len() || check[slot] < LINK_LIMIT;
        let last = largest_word(children);
        let first = children.first().map_or(0, |child| child[1] as usize);
        let mut d = next(base, 0);
        while d < check.len() {
            if d > last && free(d - last) && free(d - first) && children.iter().all(|child| free(d - child[1] as usize)) {
                self.top = self.top.max(d + 1);
                return (d, true);
            }
            if free(d + last) && free(d + first) && children.iter().all(|child| free(d + child[1] as usize)) {
                self.top = self.top.max(d + last + 1);
                return (d, false);
            }
            d = next(base, d);
        }
        (d, false)
    }

    fn take(base: &mut [i32], check: &mut [i32], slot: usize, load: i32, mark: i32) {
        let (above, below) = (base[slot] as usize, (check[slot] - FREE) as usize);
        let between = (below + 1 + above) as i32;
        base[slot - 1 - below] = between;
        if let Some(item) = check.get_mut(slot + 1 + above) {
            *item = FREE + between;
        }
        (base[slot], check[slot]) = (load, mark);
    }

    fn finish(&self, base: &mut [i32], check: &mut [i32]) {
        for (base, check) in base.iter_mut().zip(check).take(self.top + 1) {
            let free = *check < LINK_LIMIT;
            *base = if free { 0 } else { *base };
            *check = if free { FREE } else { *check };
        }
    }
}

/// The next free slot above one, or the end.
fn next(base: &[i32], slot: usize) -> usize {
    slot + 1 + base[slot] as usize
}
