//! Fragments and joins as the team writes them in Rust, over the same arrays with the same checks.

use crate::array::{head_fits, order};
use crate::list::LARGEST_B;
use crate::score::{score, State, LONGEST_RUN};
use backoff::{Fragment, Joined};

fn refused(number: u32, place: u32) -> Joined {
    Joined { number, place, fragment: Fragment::EMPTY }
}

/// Scores words after a state without writing them anywhere: the total, or the word's number where 12 refuses.
#[inline]
fn total_after<S: State>(state: &mut S, base: &[i32], check: &[i32], order: usize, words: &[u32]) -> Result<i64, u32> {
    let mut total = 0;
    for (i, &word) in words.iter().enumerate() {
        let (points, _) = score(state, base, check, order, word).ok_or(i as u32 + 1)?;
        total += points as i64;
    }
    Ok(total)
}

/// The number of kept words, and the words.
fn first_words(order: usize, words: impl Iterator<Item = u32>) -> (u32, [u32; 4]) {
    let (mut kept, mut first) = (0, [0; 4]);
    for word in words.take(order - 1) {
        first[kept] = word;
        kept += 1;
    }
    (kept as u32, first)
}

/// Scores words without left context: 11, 14, 12.
#[inline(never)]
pub fn score_fragment<S: State>(base: &[i32], check: &[i32], words: &[u32]) -> Joined {
    if !head_fits(base, check) {
        return refused(11, 0);
    }
    if words.len() > LONGEST_RUN {
        return refused(14, 0);
    }
    let order = order(check) as usize;
    let mut state = S::default();
    match total_after(&mut state, base, check, order, words) {
        Ok(total) => {
            let (kept, first) = first_words(order, words.iter().copied());
            let mut fragment = Fragment { total, count: words.len() as u32, kept, first, state: [0; 9] };
            state.write(&mut fragment.state);
            Joined { number: 0, place: 0, fragment }
        }
        Err(word) => refused(12, word),
    }
}

/// The state of a fragment, nothing where 21 refuses.
fn accepted<S: State>(fragment: &Fragment, order: i32) -> Option<S> {
    let bound = fragment.count as u64 * order as u64 * LARGEST_B as u64;
    let fits = fragment.kept == fragment.count.min(order as u32 - 1) && fragment.total.unsigned_abs() <= bound;
    S::read(&fragment.state, order).filter(|_| fits)
}

/// Joins two neighbours: 11, 21, 14, 12.
#[inline(never)]
pub fn join_fragments<S: State>(base: &[i32], check: &[i32], one: Fragment, two: Fragment) -> Joined {
    if !head_fits(base, check) {
        return refused(11, 0);
    }
    let order = order(check);
    let Some(mut state) = accepted::<S>(&one, order) else { return refused(21, 1) };
    let Some(last) = accepted::<S>(&two, order) else { return refused(21, 2) };
    if one.count as u64 + two.count as u64 > LONGEST_RUN as u64 {
        return refused(14, 0);
    }
    let order = order as usize;
    let words = &two.first[..two.kept as usize];
    let alone = total_after(&mut S::default(), base, check, order, words);
    let after = total_after(&mut state, base, check, order, words);
    let (Ok(alone), Ok(after)) = (alone, after) else { return refused(12, 0) };
    let (kept, first) = first_words(order, one.first[..one.kept as usize].iter().chain(words).copied());
    let mut fragment = Fragment { total: one.total + two.total - alone + after, count: one.count + two.count, kept, first, state: [0; 9] };
    (if two.count as usize >= order - 1 { last } else { state }).write(&mut fragment.state);
    Joined { number: 0, place: 0, fragment }
}

#[cfg(test)]
mod tests {
    use crate::packed::Packed;
    use tests::arrays::drawn;
    use tests::random::Random;
    use tests::reference::fragments::{join_fragments, score_fragment, Answer, Fragment};

    fn answer(joined: backoff::Joined) -> Answer {
        let backoff::Fragment { total, count, kept, first, state } = joined.fragment;
        ((joined.number, joined.place), Fragment { total, count, kept, first, state })
    }

    /// The fragments and joins that ours are timed against are the same over any arrays.
    #[test]
    fn same_fragments() {
        let mut random = Random::new(1);
        for _ in 0..20_000 {
            let arrays = drawn(&mut random);
            let fragments = [(); 2].map(|()| {
                let length = random.below(6);
                let words: Vec<u32> = (0..length).map(|_| if random.chance(20) { 3 } else { random.below(30) as u32 }).collect();
                let ours = super::score_fragment::<Packed>(&arrays.base, &arrays.check, &words);
                assert_eq!(answer(ours), score_fragment(&arrays.base, &arrays.check, &words));
                let mut fragment = ours.fragment;
                if random.chance(30) {
                    fragment.kept = random.below(4) as u32;
                    fragment.state[random.below(9)] = random.between(-2, 5);
                    fragment.total = random.pick(&[i64::MIN, -500_000_000, 0, 99_000_000]);
                }
                fragment
            });
            let ours = super::join_fragments::<Packed>(&arrays.base, &arrays.check, fragments[0], fragments[1]);
            let [one, two] = fragments.map(|fragment| answer(backoff::Joined { number: 0, place: 0, fragment }).1);
            assert_eq!(answer(ours), join_fragments(&arrays.base, &arrays.check, one, two));
        }
    }
}
