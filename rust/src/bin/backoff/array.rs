//! The double array of a list.

use backoff::limits::{ROW_ITEMS, SLOT_LIMIT};
use backoff::number::ACCEPTED;
use backoff::Status;

pub struct Array {
    pub base: Vec<i32>,
    pub check: Vec<i32>,
}

impl Array {
    /// The array in the fewest slots that do. What a build writes does not depend on how many slots it is lent, so it gets as many as there may be.
    pub fn build(table: &[i32]) -> Result<Array, Status> {
        let (mut base, mut check) = (vec![0; SLOT_LIMIT], vec![0; SLOT_LIMIT]);
        let mut work = vec![0; table.len() / ROW_ITEMS];
        let status = backoff::build(table, &mut base, &mut check, &mut work);
        match status.number {
            ACCEPTED => Ok(Array { base, check }.cut()),
            _ => Err(status),
        }
    }

    /// The array without the free slots behind the last one in use.
    pub fn cut(mut self) -> Array {
        let last = (0..self.slots()).rev().find(|&slot| !is_free(self.base[slot], self.check[slot]));
        let slots = last.map_or(0, |last| last + 1);
        self.base.truncate(slots);
        self.check.truncate(slots);
        self
    }

    pub fn slots(&self) -> usize {
        self.base.len()
    }

    /// The slots that are not free.
    pub fn slots_in_use(&self) -> usize {
        self.base.iter().zip(&self.check).filter(|(&base, &check)| !is_free(base, check)).count()
    }
}

fn is_free(base: i32, check: i32) -> bool {
    base == 0 && check == i32::MIN
}
