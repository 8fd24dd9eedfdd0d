//! Progress on standard error: where it is a terminal, and from the second second on.

use crate::decimal::thousands;
use std::io::{stderr, stdout, IsTerminal, Write};
use std::sync::atomic::{AtomicU64, Ordering};
use std::sync::mpsc::{channel, RecvTimeoutError, Sender};
use std::sync::{Arc, Mutex};
use std::thread::{Builder, JoinHandle};
use std::time::Duration;

/// How long the work goes on before anything is shown.
const QUIET: Duration = Duration::from_secs(1);

/// How often the line is shown anew.
const EVERY: Duration = Duration::from_millis(250);

/// Takes the cursor to the line's start and the line away.
const CLEAR: &str = "\r\x1b[K";

#[derive(Default)]
struct Shown {
    stage: Mutex<&'static str>,
    words: AtomicU64,
}

/// While it lives a line tells of the work.
#[derive(Default)]
pub struct Progress {
    shown: Arc<Shown>,
    /// Closed, it ends the thread; none where nothing is shown.
    thread: Option<(Sender<()>, JoinHandle<()>)>,
}

impl Progress {
    /// Where the output goes to a terminal too, it is what tells of the work.
    pub fn start(prints_along: bool) -> Progress {
        let mut progress = Progress::default();
        if !stderr().is_terminal() || (prints_along && stdout().is_terminal()) {
            return progress;
        }
        let shown = progress.shown.clone();
        let (sender, receiver) = channel::<()>();
        let show = move || {
            let mut wait = QUIET;
            while receiver.recv_timeout(wait) == Err(RecvTimeoutError::Timeout) {
                shown.write();
                wait = EVERY;
            }
            if wait == EVERY {
                let _ = stderr().write_all(CLEAR.as_bytes());
            }
        };
        // Without a thread the work goes on, and nothing is shown.
        progress.thread = Builder::new().spawn(show).ok().map(|thread| (sender, thread));
        progress
    }

    pub fn say(&self, stage: &'static str) {
        if let Ok(mut shown) = self.shown.stage.lock() {
            *shown = stage;
        }
    }

    pub fn add_words(&self, words: u64) {
        self.shown.words.fetch_add(words, Ordering::Relaxed);
    }
}

impl Shown {
    fn write(&self) {
        let stage = self.stage.lock().map_or("", |stage| *stage);
        let line = match self.words.load(Ordering::Relaxed) {
            0 => format!("{CLEAR}{stage}"),
            words => format!("{CLEAR}{stage}: {} words", thousands(words)),
        };
        let _ = stderr().write_all(line.as_bytes());
    }
}

impl Drop for Progress {
    fn drop(&mut self) {
        if let Some((sender, thread)) = self.thread.take() {
            drop(sender);
            let _ = thread.join();
        }
    }
}
