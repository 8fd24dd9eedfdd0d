//! A carried state with which Rust scores as fast as the team got it: the words are packed in one number, and the back-offs held as sums
//! that change in place.

use crate::array::{extended_byte, is_live, own_p};
use crate::list::{LARGEST_B, LARGEST_WORD, LOWEST_P};
use crate::score::{Items, State};
use std::hint::select_unpredictable;

/// The words, 16 bits each, the newest one lowest, and item i of `sums` the sum of the first i back-offs; what lies past `count` is of no account.
#[derive(Clone, Copy, Default)]
pub struct Packed {
    count: usize,
    words: u64,
    sums: [i32; 6],
}

impl State for Packed {
    fn read(cells: &[i32; 9], order: i32) -> Option<Packed> {
        let Items { count, words, back_offs } = Items::read(cells, order)?;
        let mut state = Packed { count, ..Packed::default() };
        for i in 0..4 {
            state.words |= (words[i] as u64) << (16 * i);
            state.sums[i + 1] = state.sums[i] + back_offs[i];
        }
        Some(state)
    }

    fn write(&self, cells: &mut [i32; 9]) {
        cells.fill(0);
        cells[0] = self.count as i32;
        for i in 0..self.count.min(4) {
            cells[1 + i] = (self.words >> (16 * i)) as i32 & LARGEST_WORD;
            cells[5 + i] = self.sums[i + 1] - self.sums[i];
        }
    }

    /// A word of a state needs no check of its range.
    #[inline(always)]
    fn step(&mut self, base: &[i32], check: &[i32], order: usize, word: u32) -> Option<(i32, u8)> {
        let check = &check[..base.len()];
        let root_child = |word: u32| Some(word as usize + 1).filter(|&slot| slot < check.len() && check[slot] == 0);
        let known = if (2..=LARGEST_WORD as u32).contains(&word) { root_child(word) } else { None };
        let (mut node, word, kind) = match known {
            Some(slot) => (slot, word, 0),
            None => (root_child(1)?, 1, 8),
        };
        if order == 1 {
            return Some((own_p(base[node])?, 1 + kind));
        }
        let whole = self.sums[self.count];
        let (mut older, mut owed) = (self.words, whole);
        let (mut matched, mut kept, mut sum) = (0, 0, 0);
        let (points, packed) = loop {
            let d = base[node] as u32 as usize;
            if d == 0 || d >= base.len() {
                return None;
            }
            let (last, packed) = (check[d], base[d]);
            if !(LOWEST_P - 1..=-1).contains(&last) || !(-4 * LARGEST_B..=4 * LARGEST_B + 3).contains(&packed) {
                return None;
            }
            let points = last + 1 + owed;
            matched += 1;
            owed = whole - self.sums[matched];
            sum += packed >> 2;
            self.sums[matched] = sum;
            if is_live(packed) && matched < order {
                kept = matched;
            }
            if matched > self.count {
                break (points, packed);
            }
            let word = (older & 0xffff) as usize;
            let mut slot = d + word;
            if slot >= check.len() || check[slot] != node as i32 {
                // Where no slot lies behind d, the marker's stands in its place: it has no parent.
                slot = d - select_unpredictable(d > word, word, 0);
                if check[slot] != node as i32 {
                    break (points, packed);
                }
            }
            if matched + 1 == order {
                // A longest row has no marker and ends every walk.
                matched = order;
                break (own_p(base[slot])? + owed, 0);
            }
            older >>= 16;
            node = slot;
        };
        self.count = kept;
        self.words = self.words << 16 | word as u64;
        Some((points, matched as u8 + kind + extended_byte(packed)))
    }
}
