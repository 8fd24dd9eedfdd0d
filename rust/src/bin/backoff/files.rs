//! Files read whole, and written whole or not at all.

use crate::failure::{shown, Failure};
use crate::standard;
use std::fs::{self, File, OpenOptions};
use std::io::{self, ErrorKind, Read, Write};
use std::os::unix::fs::MetadataExt;
use std::path::{Path, PathBuf};

/// The most bytes that are held of a model or of one line of a text. An accepted list fits in less than half of it.
pub const BYTE_LIMIT: usize = 1 << 26;

/// So many names beside a file are tried.
const MOST_TAKEN: usize = 1_000;

/// The bytes of a model's file, or of standard input.
pub fn read(path: &Path) -> Result<Vec<u8>, Failure> {
    let mut bytes = Vec::new();
    match standard::open(path)?.take(BYTE_LIMIT as u64 + 1).read_to_end(&mut bytes) {
        Err(error) => Err(Failure::file(path, error)),
        Ok(_) if bytes.len() > BYTE_LIMIT => {
            Err(Failure::file(path, format!("more than {BYTE_LIMIT} bytes: no list of 65,535 rows, the most there may be, needs as many")))
        }
        Ok(_) => Ok(bytes),
    }
}

/// A file that is to be written is not one that is read, which would be lost.
pub fn require_another(written: &Path, read: &Path) -> Result<(), Failure> {
    let file = |path: &Path, standard: &str| {
        let path = if path.as_os_str() == standard::NAME { Path::new(standard) } else { path };
        fs::metadata(path).ok().filter(|file| file.is_file()).map(|file| (file.dev(), file.ino()))
    };
    let target = file(written, "/dev/stdout");
    if target.is_none() || target != file(read, "/dev/stdin") {
        return Ok(());
    }
    let name = if written.as_os_str() == standard::NAME { Path::new("standard output") } else { written };
    Err(Failure::file(name, format!("it is read as {}, and would be lost: give another name", shown(read))))
}

/// Writes a file, or standard output where that is what is named.
pub fn write_named(path: &Path, bytes: &[u8], out: &mut impl Write) -> Result<(), Failure> {
    match path.as_os_str() == standard::NAME {
        true => out.write_all(bytes).map_err(Failure::output),
        false => write(path, bytes),
    }
}

/// Writes a file under another name beside it and renames it, so that there is never half a file. What is no regular file, as a pipe or a device, is written as it is.
fn write(path: &Path, bytes: &[u8]) -> Result<(), Failure> {
    let written = match fs::metadata(path) {
        Ok(there) if !there.is_file() => OpenOptions::new().write(true).open(path).and_then(|mut file| file.write_all(bytes)),
        Ok(_) => fs::canonicalize(path).and_then(|target| replace(&target, bytes)),
        Err(error) if error.kind() == ErrorKind::NotFound => replace(path, bytes),
        Err(error) => Err(error),
    };
    written.map_err(|error| Failure::file(path, error))
}

fn replace(path: &Path, bytes: &[u8]) -> io::Result<()> {
    let (part, file) = create_part(path)?;
    let written = write_part(file, path, bytes).and_then(|()| fs::rename(&part, path));
    if written.is_err() {
        // The first error is the one to tell.
        let _ = fs::remove_file(&part);
    }
    written
}

/// A new file beside another one. Its name is not made of the other's, which may be as long as a name can be; one that a killed process left is passed over.
fn create_part(path: &Path) -> io::Result<(PathBuf, File)> {
    let mut taken = 0;
    loop {
        let part = path.with_file_name(format!(".backoff.{}.{taken}.part", std::process::id()));
        match OpenOptions::new().write(true).create_new(true).open(&part) {
            Err(error) if error.kind() == ErrorKind::AlreadyExists && taken < MOST_TAKEN => taken += 1,
            opened => return opened.map(|file| (part, file)),
        }
    }
}

/// A file that is replaced hands its permissions on.
fn write_part(mut file: File, path: &Path, bytes: &[u8]) -> io::Result<()> {
    if let Ok(replaced) = fs::metadata(path) {
        file.set_permissions(replaced.permissions())?;
    }
    file.write_all(bytes)?;
    file.sync_all()
}
