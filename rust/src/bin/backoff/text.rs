//! Texts to be scored: read in pieces of whole lines, cut into parts, and split into words.

use crate::files::BYTE_LIMIT;
use std::io::{self, ErrorKind, Read};

/// The bytes that are asked for at once.
const READ_BYTES: usize = 1 << 18;

/// A part of fewer bytes is scored faster than a thread begins.
const FEWEST_BYTES: usize = 1 << 14;

/// A text, read piece by piece.
pub struct Pieces<R> {
    reader: R,
    /// Bytes behind the last piece: the beginning of a line.
    held: Vec<u8>,
    ended: bool,
    /// The lines of the pieces so far.
    lines: usize,
}

impl<R: Read> Pieces<R> {
    pub fn new(reader: R) -> Pieces<R> {
        Pieces { reader, held: Vec::new(), ended: false, lines: 0 }
    }

    /// The next whole lines: about as many bytes as wanted, or fewer where the reader has no more at hand, so that somebody who types lines is answered. None at the end.
    pub fn next(&mut self, wanted: usize) -> io::Result<Option<Vec<u8>>> {
        let mut lines_end = None;
        while !self.ended {
            let start = self.held.len();
            let read = self.read()?;
            lines_end = self.held[start..].iter().rposition(|&byte| byte == b'\n').map(|place| start + place + 1).or(lines_end);
            if lines_end.is_some() && (self.held.len() >= wanted || read < READ_BYTES) {
                break;
            }
            if lines_end.is_none() && self.held.len() > BYTE_LIMIT {
                return Err(io::Error::new(ErrorKind::InvalidData, format!("line {} has more than {BYTE_LIMIT} bytes", self.lines + 1)));
            }
        }
        let rest = self.held.split_off(lines_end.filter(|_| !self.ended).unwrap_or(self.held.len()));
        let piece = std::mem::replace(&mut self.held, rest);
        self.lines += piece.iter().filter(|&&byte| byte == b'\n').count();
        Ok(if piece.is_empty() { None } else { Some(piece) })
    }

    /// Reads once; nothing read is the end.
    fn read(&mut self) -> io::Result<usize> {
        let start = self.held.len();
        self.held.resize(start + READ_BYTES, 0);
        let read = loop {
            match self.reader.read(&mut self.held[start..]) {
                Err(error) if error.kind() == ErrorKind::Interrupted => {}
                read => break read,
            }
        };
        self.held.truncate(start + *read.as_ref().unwrap_or(&0));
        self.ended = matches!(read, Ok(0));
        read
    }
}

/// A text cut at line ends into parts for so many threads, or for fewer where it is too small.
pub fn parts(text: &[u8], threads: usize) -> Vec<&[u8]> {
    cut(text, threads.min(text.len() / FEWEST_BYTES).max(1))
}

/// A text cut at line ends into parts of about one size, so many at most; none is empty.
fn cut(text: &[u8], count: usize) -> Vec<&[u8]> {
    let mut parts = Vec::with_capacity(count);
    let mut rest = text;
    for left in (1..=count).rev() {
        let (part, behind) = rest.split_at(line_end(rest, rest.len() / left));
        parts.push(part);
        rest = behind;
    }
    parts.retain(|part| !part.is_empty());
    parts
}

/// The end of the line that has the byte at a place.
fn line_end(text: &[u8], place: usize) -> usize {
    text[place..].iter().position(|&byte| byte == b'\n').map_or(text.len(), |behind| place + behind + 1)
}

/// The lines of a text; a last one without its line feed is one.
pub fn lines(text: &[u8]) -> impl Iterator<Item = &[u8]> {
    text.split_inclusive(|&byte| byte == b'\n')
}

/// The words of a line: what stands between the blanks of KenLM, which are space, tab, line feed, carriage return, vertical tab, form feed and the byte 0.
pub fn words(line: &[u8]) -> impl Iterator<Item = &[u8]> {
    line.split(|byte| matches!(byte, b' ' | b'\t' | b'\n' | b'\r' | 0x0B | 0x0C | 0)).filter(|word| !word.is_empty())
}

#[cfg(test)]
mod tests {
    use super::{cut, parts, words, Pieces};
    use std::io::Read;

    /// Gives a few bytes at a time.
    struct Slow<'a>(&'a [u8], usize);

    impl Read for Slow<'_> {
        fn read(&mut self, buffer: &mut [u8]) -> std::io::Result<usize> {
            let (now, later) = self.0.split_at(self.1.min(self.0.len()));
            buffer[..now.len()].copy_from_slice(now);
            self.0 = later;
            Ok(now.len())
        }
    }

    /// However the bytes come, pieces are whole lines and nothing is lost; the last one may lack its line feed.
    #[test]
    fn pieces_are_whole_lines() {
        for text in ["", "a", "\n", "a\n", "a b\n\nccc\nd", "\n\n\nlonger than the others\n"] {
            for step in 1..8 {
                let mut pieces = Pieces::new(Slow(text.as_bytes(), step));
                let mut joined = Vec::new();
                while let Some(piece) = pieces.next(4).unwrap() {
                    assert!(piece.ends_with(b"\n") || joined.len() + piece.len() == text.len(), "{text:?} by {step}");
                    joined.extend(piece);
                }
                assert_eq!(joined, text.as_bytes());
            }
        }
    }

    #[test]
    fn parts_are_whole_lines() {
        let text = b"a\nbb\n\nccc ccc ccc\nd\ne";
        for count in 1..12 {
            let parts = cut(text, count);
            assert_eq!(parts.concat(), text);
            assert!(parts.len() <= count && (parts.len() > 1) == (count > 1), "{count}");
            assert!(parts.iter().rev().skip(1).all(|part| part.ends_with(b"\n")), "{count}");
        }
    }

    #[test]
    fn small_parts_have_no_threads() {
        let text = b"a\n".repeat(1 << 19);
        assert_eq!([0, 2, 20_000, 65_000, 1 << 20].map(|bytes| parts(&text[..bytes], 8).len()), [0, 1, 1, 3, 8]);
        assert_eq!(parts(&text, 1).len(), 1);
    }

    #[test]
    fn blanks() {
        let line = b" a\tb\x0B\x0Cc\0\0d\r\n";
        assert_eq!(words(line).collect::<Vec<_>>(), [b"a", b"b", b"c", b"d"]);
        assert_eq!(words("\u{a0}x\u{2003}\n".as_bytes()).count(), 1);
    }
}
