//! Why a command ends early.

use crate::standard;
use std::io::{Error, ErrorKind};
use std::path::{Display, Path};

/// How messages call a file that is read.
pub fn shown(path: &Path) -> Display<'_> {
    if path.as_os_str() == standard::NAME { Path::new("standard input") } else { path }.display()
}

#[derive(Debug)]
pub enum Failure {
    /// What the user is told.
    Told(String),
    /// Nobody reads the output any more.
    ClosedPipe,
}

impl Failure {
    /// A file that cannot be used, and why.
    pub fn file(path: &Path, reason: impl std::fmt::Display) -> Failure {
        Failure::Told(format!("{}: {reason}", shown(path)))
    }

    /// Standard output that takes no more.
    pub fn output(error: Error) -> Failure {
        match error.kind() {
            ErrorKind::BrokenPipe => Failure::ClosedPipe,
            _ => Failure::Told(format!("standard output: {error}")),
        }
    }
}
