//! Readings scored by start and runs.

use crate::array::Array;
use crate::reading::Reading;
use backoff::limits::{RUN_LIMIT, STATE_LENGTH};
use backoff::number::ACCEPTED;

/// Scores a reading; or the number of the refusal.
pub fn score(array: &Array, reading: &mut Reading) -> Result<(), u32> {
    let mut begin = [0; STATE_LENGTH];
    if reading.marks().bos {
        accepted(backoff::start(&array.base, &array.check, &mut begin).number)?;
    }
    for places in reading.stretches() {
        let mut state = begin;
        let words = reading.words[places.clone()].chunks(RUN_LIMIT);
        let points = reading.points[places.clone()].chunks_mut(RUN_LIMIT);
        let lengths = reading.lengths[places].chunks_mut(RUN_LIMIT);
        for ((words, points), lengths) in words.zip(points).zip(lengths) {
            accepted(backoff::run(&array.base, &array.check, &mut state, words, points, lengths).number)?;
        }
    }
    Ok(())
}

fn accepted(number: u32) -> Result<(), u32> {
    match number {
        ACCEPTED => Ok(()),
        number => Err(number),
    }
}
