//! States of a caller's own making.

use crate::random::Random;
use crate::reference::list::{LARGEST_B, LARGEST_WORD};
use crate::reference::score::EMPTY;

/// A random state that passes 16, of words that the array may have.
pub fn own_state(random: &mut Random, order: i32, words: &[u32]) -> [i32; 9] {
    let mut state = EMPTY;
    let count = random.between(0, order - 1) as usize;
    state[0] = count as i32;
    for i in 0..count {
        state[1 + i] = (random.pick(words) as i32).clamp(1, LARGEST_WORD);
        state[5 + i] = if random.chance(40) { random.pick(&[0, LARGEST_B, -LARGEST_B]) } else { random.between(-LARGEST_B, LARGEST_B) };
    }
    state
}
