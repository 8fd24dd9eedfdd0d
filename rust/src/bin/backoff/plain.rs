//! Readings scored from the list alone.

use crate::list::List;
use crate::reading::Reading;
use backoff::limits::RUN_LIMIT;
use backoff::number::ACCEPTED;
use std::ops::Range;

/// Scores a reading; or the number of the refusal.
pub fn score(list: &List, reading: &mut Reading) -> Result<(), u32> {
    for places in reading.stretches() {
        let mut done = places.start;
        while done < places.end {
            // A call that goes on is given the words that count for its next one again, so that it needs no state.
            let from = if done == places.start { done } else { done + 1 - list.order() };
            let to = places.end.min(from + RUN_LIMIT);
            let after_start = reading.marks().bos && from == places.start;
            let (points, lengths) = call(list, after_start, &reading.words, from..to)?;
            reading.points[done..to].copy_from_slice(&points[done - from..]);
            reading.lengths[done..to].copy_from_slice(&lengths[done - from..]);
            done = to;
        }
    }
    Ok(())
}

fn call(list: &List, after_start: bool, words: &[u32], places: Range<usize>) -> Result<(Vec<i32>, Vec<u8>), u32> {
    let (mut points, mut lengths) = (vec![0; places.len()], vec![0; places.len()]);
    match backoff::plain(&list.table, after_start, &words[places], &mut points, &mut lengths).number {
        ACCEPTED => Ok((points, lengths)),
        number => Err(number),
    }
}
