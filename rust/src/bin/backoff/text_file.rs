//! The text that is scored: a file or standard input, piece by piece.

use crate::failure::Failure;
use crate::standard::{self, Input};
use crate::text::Pieces;
use std::path::{Path, PathBuf};

/// About as many bytes are read at once where all are wanted.
const PIECE_BYTES: usize = 1 << 20;

pub struct TextFile {
    /// What messages call it.
    name: PathBuf,
    pieces: Pieces<Input>,
}

impl TextFile {
    /// Without a path it is standard input.
    pub fn open(path: Option<&Path>) -> Result<TextFile, Failure> {
        let path = path.unwrap_or(Path::new(standard::NAME));
        Ok(TextFile { name: path.to_path_buf(), pieces: Pieces::new(standard::open(path)?) })
    }

    /// The next whole lines, about as many bytes as wanted; none at the end.
    pub fn next(&mut self, wanted: usize) -> Result<Option<Vec<u8>>, Failure> {
        self.pieces.next(wanted).map_err(|error| Failure::file(&self.name, error))
    }

    /// All lines.
    pub fn whole(mut self) -> Result<Vec<u8>, Failure> {
        let mut text = Vec::new();
        while let Some(piece) = self.next(PIECE_BYTES)? {
            text.extend(piece);
        }
        Ok(text)
    }
}
