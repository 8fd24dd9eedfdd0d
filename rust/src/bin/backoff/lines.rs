//! Scored texts in KenLM's lines.

use crate::decimal::{write_log10, write_whole};
use crate::reading::Reading;
use crate::subcommands::{Form, Shown};
use crate::tally::Tally;
use backoff::limits::EXTENDED_LENGTH;
use std::ops::Range;

/// A part's lines, and its counts.
#[derive(Default)]
pub struct Answer {
    pub lines: Vec<u8>,
    pub tally: Tally,
}

impl Form {
    pub fn answer(self, reading: &Reading) -> Answer {
        let mut answer = Answer::default();
        for line in reading.lines() {
            self.print_sentence(reading, line, &mut answer);
        }
        answer
    }

    fn print_sentence(self, reading: &Reading, places: Range<usize>, answer: &mut Answer) {
        let mut tally = Tally::default();
        for place in places {
            tally.count(reading.points[place], reading.is_unknown(place));
            if self.shown == Shown::Words {
                self.print_word(reading, place, &mut answer.lines);
            }
        }
        self.print_total(&tally, &mut answer.lines);
        answer.tally += tally;
    }

    fn print_total(self, tally: &Tally, out: &mut Vec<u8>) {
        match self.shown {
            Shown::Words => {
                out.extend(b"Total: ");
                self.print_points(out, tally.points);
                out.extend(b" OOV: ");
                write_whole(out, tally.unknown as i64);
            }
            Shown::Totals => self.print_points(out, tally.points),
            Shown::Summary => return,
        }
        out.push(b'\n');
    }

    /// `SURFACE=VOCAB LENGTH LOG10`, the left mark where asked, and a tab; VOCAB is 0 for an unknown word.
    fn print_word(self, reading: &Reading, place: usize, out: &mut Vec<u8>) {
        out.extend(reading.texts[place]);
        out.push(b'=');
        write_whole(out, if reading.is_unknown(place) { 0 } else { reading.words[place] as i64 });
        out.push(b' ');
        write_whole(out, reading.matched(place) as i64);
        out.push(b' ');
        self.print_points(out, reading.points[place] as i64);
        if self.left {
            out.extend(if reading.lengths[place] & EXTENDED_LENGTH != 0 { b" +" } else { b" -" });
        }
        out.push(b'\t');
    }

    fn print_points(self, out: &mut Vec<u8>, points: i64) {
        match self.points {
            true => write_whole(out, points),
            false => write_log10(out, points),
        }
    }
}
