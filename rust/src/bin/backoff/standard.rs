//! Standard input and output. Rust opens /dev/null in the place of what is closed when a program begins, and takes some errors for success; here every error is told.

use crate::failure::Failure;
use crate::files;
use std::ffi::{c_int, c_short, c_ulong};
use std::fs::File;
use std::io::{self, Read, Write};
use std::mem::ManuallyDrop;
use std::os::fd::{AsRawFd, FromRawFd};
use std::path::Path;
use std::sync::atomic::{AtomicBool, Ordering};

/// The name that means standard input, and standard output for what is written.
pub const NAME: &str = "-";

const EBADF: i32 = 9;
const F_GETFD: c_int = 1;
const POLLIN: c_short = 1;

/// How long a reader waits for more, in milliseconds: a program that writes into a pipe fills it again, and nobody who types is kept waiting.
const PATIENCE: c_int = 1;

#[repr(C)]
struct Polled {
    descriptor: c_int,
    events: c_short,
    answered: c_short,
}

extern "C" {
    fn fcntl(descriptor: c_int, command: c_int, ...) -> c_int;
    fn poll(polled: *mut Polled, count: c_ulong, timeout: c_int) -> c_int;
}

/// Whether standard input and output were closed when the program began.
static CLOSED: [AtomicBool; 2] = [AtomicBool::new(false), AtomicBool::new(false)];

/// Is called before Rust opens anything, on Linux.
#[used]
#[cfg_attr(target_os = "linux", link_section = ".init_array")]
static LOOK: extern "C" fn() = look;

extern "C" fn look() {
    for (descriptor, closed) in (0..).zip(&CLOSED) {
        // SAFETY: it only asks for the descriptor's flags.
        closed.store(unsafe { fcntl(descriptor, F_GETFD) } == -1, Ordering::Relaxed);
    }
}

/// Standard input or output; none where it was closed.
struct Standard(Option<ManuallyDrop<File>>);

impl Standard {
    fn new(descriptor: c_int) -> Standard {
        let closed = CLOSED[descriptor as usize].load(Ordering::Relaxed);
        // SAFETY: the descriptor is open, and what is never dropped does not close it.
        Standard((!closed).then(|| ManuallyDrop::new(unsafe { File::from_raw_fd(descriptor) })))
    }

    fn file(&self) -> io::Result<&File> {
        self.0.as_deref().ok_or_else(|| io::Error::from_raw_os_error(EBADF))
    }
}

pub struct Output(Standard);

pub fn output() -> Output {
    Output(Standard::new(1))
}

impl Write for Output {
    fn write(&mut self, bytes: &[u8]) -> io::Result<usize> {
        self.0.file()?.write(bytes)
    }

    fn flush(&mut self) -> io::Result<()> {
        Ok(())
    }
}

/// A file that is read, or standard input, as many bytes at once as are at hand.
pub struct Input {
    source: Source,
    ended: bool,
}

enum Source {
    File(File),
    Standard(Standard),
}

/// Opens the file of this name, or standard input. Standard output is another one, since what is written would be read again.
pub fn open(path: &Path) -> Result<Input, Failure> {
    files::require_another(Path::new(NAME), path)?;
    let source = match path.as_os_str() == NAME {
        true => Source::Standard(Standard::new(0)),
        false => Source::File(File::open(path).map_err(|error| Failure::file(path, error))?),
    };
    Ok(Input { source, ended: false })
}

impl Read for Input {
    fn read(&mut self, buffer: &mut [u8]) -> io::Result<usize> {
        if self.ended {
            return Ok(0);
        }
        let mut file = match &self.source {
            Source::File(file) => file,
            Source::Standard(standard) => standard.file()?,
        };
        let mut read = file.read(buffer)?;
        while 0 < read && read < buffer.len() && more_is_at_hand(file) {
            match file.read(&mut buffer[read..]) {
                Ok(0) => {
                    self.ended = true;
                    break;
                }
                Ok(more) => read += more,
                // The next read tells it.
                Err(_) => break,
            }
        }
        Ok(read)
    }
}

fn more_is_at_hand(file: &File) -> bool {
    let mut polled = Polled { descriptor: file.as_raw_fd(), events: POLLIN, answered: 0 };
    // SAFETY: it is one item, and no longer used behind the call.
    unsafe { poll(&mut polled, 1, PATIENCE) == 1 }
}

#[cfg(test)]
mod tests {
    use super::{Input, Source};
    use std::fs::File;
    use std::io::{pipe, Read, Write};
    use std::os::fd::OwnedFd;
    use std::thread;

    const WRITTEN: usize = 1 << 22;
    const READ: usize = 1 << 18;

    /// How many reads a pipe takes that somebody fills as fast as it is read.
    fn reads() -> usize {
        let (reader, mut writer) = pipe().unwrap();
        let written = thread::spawn(move || writer.write_all(&vec![b'x'; WRITTEN]).unwrap());
        let mut input = Input { source: Source::File(File::from(OwnedFd::from(reader))), ended: false };
        let (mut buffer, mut reads, mut bytes) = (vec![0; READ], 0, 0);
        while let Ok(read @ 1..) = input.read(&mut buffer) {
            reads += 1;
            bytes += read;
        }
        written.join().unwrap();
        assert_eq!(bytes, WRITTEN);
        reads
    }

    /// A pipe holds less than is asked for, and a read waits for what comes at once. Of some tries the best counts, since the writer may be kept from writing.
    #[test]
    fn pipes_are_read_in_large_pieces() {
        assert!((0..10).any(|_| reads() <= 2 * WRITTEN / READ));
    }
}
