//! The largest move as the team writes it in Rust: the totals of the sentences that differ at one place alone are a group, and each group is gone through once.

use crate::score::State;
use crate::sentences::list;
use backoff::Move;

const NONE: Move = Move { number: 0, place: 0, distance: 0, first: 0, second: 0 };

/// Lists all sentences of k words and finds the largest move: 11, 22, 15, 12.
#[inline(never)]
pub fn largest_move<S: State + Copy>(base: &[i32], check: &[i32], k: u32, words: &mut [u32], totals: &mut [i64]) -> Move {
    match list::<S>(base, check, k, words, totals) {
        Ok(v) => largest(&totals[..v.pow(k)], v),
        Err(number) => Move { number, ..NONE },
    }
}

/// The largest move among sentences of v words. Those that differ at one place alone are as far apart as the places behind it have sentences.
fn largest(totals: &[i64], v: usize) -> Move {
    let (mut best, mut step) = (NONE, 1);
    while v > 1 && step < totals.len() {
        for block in (0..totals.len()).step_by(v * step) {
            for first in block..block + step {
                see_group(&totals[first..block + v * step], first, step, &mut best);
            }
        }
        step *= v;
    }
    best
}

/// Takes the group's largest move where it is farther than the best one, or as far and earlier.
#[inline(always)]
fn see_group(totals: &[i64], first: usize, step: usize, best: &mut Move) {
    let group = || totals.iter().step_by(step).copied();
    let (least, most) = group().fold((i64::MAX, i64::MIN), |(least, most), total| (least.min(total), most.max(total)));
    let distance = most - least;
    if distance < best.distance {
        return;
    }
    let number = |i: usize| (first + i * step) as u32 + 1;
    let one = group().position(|total| total == least || total == most).unwrap_or(0);
    let other = if totals[one * step] == least { most } else { least };
    let two = one + 1 + group().skip(one + 1).position(|total| total == other).unwrap_or(0);
    let found = Move { distance, first: number(one), second: number(two), ..NONE };
    if best.first == 0 || distance > best.distance || (found.first, found.second) < (best.first, best.second) {
        *best = found;
    }
}

#[cfg(test)]
mod tests {
    use crate::packed::Packed;
    use crate::sentences::tests::see_same;
    use tests::arrays::{built, Arrays};
    use tests::lists::{even, with_usable};
    use tests::random::Random;
    use tests::reference::largest_move::largest_move;

    /// The moves that ours are timed against are the same, also among equal totals.
    #[test]
    fn same_moves() {
        let ours = |base: &[i32], check: &[i32], k, words: &mut [u32], totals: &mut [i64]| {
            let answer = super::largest_move::<Packed>(base, check, k, words, totals);
            ((answer.number, answer.place), answer.distance, (answer.first, answer.second))
        };
        see_same(listed, ours, largest_move);
    }

    /// The array of a list with up to 20 usable words and few different numbers.
    fn listed(random: &mut Random) -> Arrays {
        let (order, usable) = (1 + random.below(5), 1 + random.below(20));
        let rows = with_usable(random, order, usable, 5);
        built(&even(random, &rows), 0)
    }
}
