//! Start and run as the team writes them in Rust, over the same arrays with the same checks.

use crate::array::{child, extended_byte, head_fits, is_live, marker, order};
use crate::list::{LARGEST_B, LARGEST_WORD};
use backoff::{Status, Total};

pub const LONGEST_RUN: usize = 65_535;

/// A carried state, however it is held.
pub trait State: Default {
    /// Nothing where 16 refuses.
    fn read(cells: &[i32; 9], order: i32) -> Option<Self>;
    fn write(&self, cells: &mut [i32; 9]);
    /// Scores a word and moves the state on; gives points and length byte, nothing where 12 refuses.
    fn step(&mut self, base: &[i32], check: &[i32], order: usize, word: u32) -> Option<(i32, u8)>;
}

/// Words newest first, and the back-offs of the newest word, of the newest two, and so on; unused ones are 0.
#[derive(Clone, Copy, Default)]
pub struct Items {
    pub count: usize,
    pub words: [u32; 4],
    pub back_offs: [i32; 4],
}

impl State for Items {
    fn read(cells: &[i32; 9], order: i32) -> Option<Items> {
        let count = cells[0];
        if count < 0 || count >= order {
            return None;
        }
        let mut state = Items { count: count as usize, ..Items::default() };
        for i in 0..4 {
            let (word, b) = (cells[1 + i], cells[5 + i]);
            let fits = if i < state.count {
                (1..=LARGEST_WORD).contains(&word) && (-LARGEST_B..=LARGEST_B).contains(&b)
            } else {
                word == 0 && b == 0
            };
            if !fits {
                return None;
            }
            state.words[i] = word as u32;
            state.back_offs[i] = b;
        }
        Some(state)
    }

    fn write(&self, cells: &mut [i32; 9]) {
        cells[0] = self.count as i32;
        for i in 0..4 {
            cells[1 + i] = self.words[i] as i32;
            cells[5 + i] = self.back_offs[i];
        }
    }

    #[inline]
    fn step(&mut self, base: &[i32], check: &[i32], order: usize, word: u32) -> Option<(i32, u8)> {
        let known = if word == 1 { None } else { child(base, check, 0, word) };
        let (mut node, word, kind) = match known {
            Some(slot) => (slot, word, 0),
            None => (child(base, check, 0, 1)?, 1, 8),
        };
        let mut next = Items::default();
        let mut matched = 0;
        let (mut p, mut packed);
        loop {
            (p, packed) = marker(base, check, matched + 1 == order, node)?;
            if matched < 4 {
                next.back_offs[matched] = packed >> 2;
            }
            matched += 1;
            if is_live(packed) && matched < order {
                next.count = matched;
            }
            if matched > self.count {
                break;
            }
            match child(base, check, node, self.words[matched - 1]) {
                Some(slot) => node = slot,
                None => break,
            }
        }
        let points = p + self.back_offs[matched - 1..].iter().sum::<i32>();
        let older = self.words;
        for i in 0..next.count {
            next.words[i] = if i == 0 { word } else { older[i - 1] };
        }
        next.back_offs[next.count..].fill(0);
        *self = next;
        Some((points, matched as u8 + kind + extended_byte(packed)))
    }
}

/// The state after `<s>`; nothing where 12 refuses.
#[inline]
pub fn begin<S: State>(base: &[i32], check: &[i32], order: usize) -> Option<S> {
    let mut state = S::default();
    state.step(base, check, order, 2)?;
    Some(state)
}

/// A word of a run: behind a 3 the state is start's.
#[inline(always)]
pub fn score<S: State>(state: &mut S, base: &[i32], check: &[i32], order: usize, word: u32) -> Option<(i32, u8)> {
    let scored = state.step(base, check, order, word)?;
    if word == 3 {
        *state = begin(base, check, order)?;
    }
    Some(scored)
}

/// The state after `<s>`.
#[inline(never)]
pub fn start<S: State>(base: &[i32], check: &[i32], cells: &mut [i32]) -> Status {
    let refused = |number| Status { number, place: 0 };
    let Ok(cells) = <&mut [i32; 9]>::try_from(cells) else { return refused(16) };
    cells.fill(0);
    if !head_fits(base, check) {
        return refused(11);
    }
    let Some(state) = begin::<S>(base, check, order(check) as usize) else { return refused(12) };
    state.write(cells);
    refused(0)
}

/// Scores a run's words: 11, 16, 14, 15, 12.
pub fn run<S: State>(base: &[i32], check: &[i32], cells: &mut [i32], words: &[u32], points: &mut [i32], lengths: &mut [u8]) -> Total {
    let refused = |number, place| Total { number, place, total: 0 };
    let Ok(cells) = <&mut [i32; 9]>::try_from(cells) else { return refused(16, 0) };
    if !head_fits(base, check) {
        return refused(11, 0);
    }
    let Some(mut state) = S::read(cells, order(check)) else { return refused(16, 0) };
    if words.len() > LONGEST_RUN {
        return refused(14, 0);
    }
    if points.len() < words.len() || lengths.len() < words.len() {
        return refused(15, 0);
    }
    let (points, lengths) = (&mut points[..words.len()], &mut lengths[..words.len()]);
    let order = order(check) as usize;
    let mut total = 0;
    for i in 0..words.len() {
        let Some((word_points, length)) = score(&mut state, base, check, order, words[i]) else {
            points.fill(0);
            lengths.fill(0);
            return refused(12, i as u32 + 1);
        };
        points[i] = word_points;
        lengths[i] = length;
        total += word_points as i64;
    }
    state.write(cells);
    Total { number: 0, place: 0, total }
}

#[cfg(test)]
mod tests {
    use super::{Items, State};
    use crate::packed::Packed;
    use tests::arrays::drawn;
    use tests::random::Random;
    use tests::reference;

    /// The scorers that ours is timed against give the same over any arrays.
    #[test]
    fn same_runs() {
        check::<Items>();
        check::<Packed>();
    }

    fn check<S: State>() {
        let mut random = Random::new(1);
        for _ in 0..20_000 {
            let arrays = drawn(&mut random);
            let words: Vec<u32> = (0..6).map(|_| if random.chance(20) { 3 } else { random.below(30) as u32 }).collect();
            let (mut ours, mut second) = (([1; 9], [1; 6], [1; 6]), ([1; 9], [1; 6], [1; 6]));
            let status = super::start::<S>(&arrays.base, &arrays.check, &mut ours.0);
            let refusal = reference::score::start(&arrays.base, &arrays.check, &mut second.0);
            assert_eq!((status.number, status.place), refusal);
            let total = super::run::<S>(&arrays.base, &arrays.check, &mut ours.0, &words, &mut ours.1, &mut ours.2);
            let refused = reference::score::run(&arrays.base, &arrays.check, &mut second.0, &words, &mut second.1, &mut second.2);
            assert_eq!((((total.number, total.place), total.total), ours), (refused, second));
        }
    }
}
