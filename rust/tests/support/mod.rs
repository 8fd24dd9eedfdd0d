//! Runs of the program in a folder of their own.
#![allow(dead_code, reason = "each file of tests uses a part")]

pub mod lines;

use std::fs;
use std::io::Write;
use std::path::{Path, PathBuf};
use std::process::{Command, Output, Stdio};
use std::sync::atomic::{AtomicUsize, Ordering};
use tests::arpa;
use tests::lists;
use tests::random::Random;
use tests::reference::list::Row;

pub const PROGRAM: &str = env!("CARGO_BIN_EXE_backoff");

/// The sample list of document 01 as an ARPA text.
pub const SAMPLE: &str = include_str!("../../../tests/irstlm/sample.arpa");

/// The root of the repository.
pub fn repository() -> &'static Path {
    Path::new(concat!(env!("CARGO_MANIFEST_DIR"), "/.."))
}

/// A folder, removed with all that it holds when it is dropped.
pub struct Folder(PathBuf);

impl Folder {
    pub fn new() -> Folder {
        static NEXT: AtomicUsize = AtomicUsize::new(0);
        let name = format!("backoff-{}-{}", std::process::id(), NEXT.fetch_add(1, Ordering::Relaxed));
        let folder = std::env::temp_dir().join(name);
        fs::create_dir(&folder).unwrap();
        Folder(folder)
    }

    pub fn path(&self, name: &str) -> PathBuf {
        self.0.join(name)
    }

    pub fn put(&self, name: &str, bytes: impl AsRef<[u8]>) {
        fs::write(self.path(name), bytes).unwrap();
    }

    pub fn get(&self, name: &str) -> Vec<u8> {
        fs::read(self.path(name)).unwrap()
    }

    /// The names of the files in it, in their order.
    pub fn names(&self) -> Vec<String> {
        let mut names: Vec<String> =
            fs::read_dir(&self.0).unwrap().map(|entry| entry.unwrap().file_name().into_string().unwrap()).collect();
        names.sort();
        names
    }

    /// Runs the program here with arguments that have no blanks.
    pub fn run(&self, arguments: &str) -> Ran {
        self.run_on(arguments, b"")
    }

    /// The same with bytes on standard input.
    pub fn run_on(&self, arguments: &str, input: &[u8]) -> Ran {
        let mut command = Command::new(PROGRAM);
        command.args(arguments.split_whitespace()).current_dir(&self.0);
        let mut child = command.stdin(Stdio::piped()).stdout(Stdio::piped()).stderr(Stdio::piped()).spawn().unwrap();
        let mut stdin = child.stdin.take().unwrap();
        std::thread::scope(|scope| {
            // A program that refuses its model does not read the text.
            scope.spawn(move || stdin.write_all(input));
            Ran::new(arguments, child.wait_with_output().unwrap())
        })
    }

    /// Runs a line of the shell here; the program is `backoff`.
    pub fn shell(&self, line: &str) -> Ran {
        let programs = Path::new(PROGRAM).parent().unwrap().display().to_string();
        let path = format!("{programs}:{}", std::env::var("PATH").unwrap());
        let ran = Command::new("sh").args(["-c", line]).current_dir(&self.0).env("PATH", path).stdin(Stdio::null()).output().unwrap();
        Ran::new(line, ran)
    }
}

impl Drop for Folder {
    fn drop(&mut self) {
        fs::remove_dir_all(&self.0).unwrap();
    }
}

/// How a run ended.
pub struct Ran {
    line: String,
    pub status: Option<i32>,
    pub out: Vec<u8>,
    pub error: String,
}

impl Ran {
    fn new(line: &str, output: Output) -> Ran {
        let error = String::from_utf8(output.stderr).expect("messages are UTF-8");
        Ran { line: line.to_string(), status: output.status.code(), out: output.stdout, error }
    }

    /// What was printed by a run that went well.
    pub fn printed(self) -> Vec<u8> {
        assert_eq!((self.status, &self.error[..]), (Some(0), ""), "{}", self.line);
        self.out
    }

    pub fn text(self) -> String {
        String::from_utf8(self.printed()).unwrap()
    }

    /// What was said by a run that was refused and printed nothing.
    pub fn refused(self) -> String {
        assert_eq!((self.status, &self.out[..]), (Some(1), &b""[..]), "{}: {}", self.line, self.error);
        assert!(self.error.starts_with("backoff: ") && self.error.ends_with('\n'), "{}: {}", self.line, self.error);
        self.error
    }

    /// What was printed, and what standard error was told, by a run that went well and put a text in form.
    pub fn put_in_form(self) -> (Vec<u8>, String) {
        assert_eq!(self.status, Some(0), "{}: {}", self.line, self.error);
        (self.out, self.error)
    }

    /// No panic: the run was refused with a message, or went well without one but on what was put in form.
    pub fn ended_well(&self) {
        let told = self.error.starts_with("backoff: ") && !self.error.contains("panicked");
        let put_in_form = self.error.lines().next().is_some_and(|line| line.ends_with(": put in form:"));
        let well = matches!((self.status, told), (Some(0), false) | (Some(1), true)) || (self.status, put_in_form) == (Some(0), true);
        assert!(well, "{}: {:?} {}", self.line, self.status, self.error);
        assert!(self.status == Some(1) || put_in_form || self.error.is_empty(), "{}: {}", self.line, self.error);
    }
}

/// A list over the words 1, 2, 3 and so on with their texts.
pub struct Texted {
    pub rows: Vec<Row>,
    pub texts: Vec<Vec<u8>>,
}

impl Texted {
    pub fn new(random: &mut Random, rows: &[Row]) -> Texted {
        let rows = arpa::dense(rows);
        let words = rows.iter().filter(|row| row.words.len() == 1).count();
        Texted { rows, texts: arpa::texts(random, words) }
    }

    pub fn arpa(&self) -> Vec<u8> {
        arpa::print(&self.rows, &self.texts).bytes()
    }

    pub fn text(&self, word: u32) -> &[u8] {
        &self.texts[word as usize - 1]
    }
}

/// A small list of any order.
pub fn any_list(random: &mut Random) -> Texted {
    let order = 1 + random.below(5);
    let rows = lists::small(random, order);
    Texted::new(random, &rows)
}

/// A text over a list: words of its rows, in their order or alone, others, marks, and every kind of blanks.
pub fn any_text(random: &mut Random, list: &Texted, sentences: usize) -> Vec<u8> {
    let mut text = Vec::new();
    for _ in 0..sentences {
        let length = random.below(12);
        for word in lists::text(random, &list.rows, length) {
            let known = (1..=list.texts.len() as u32).contains(&word);
            text.extend(if known { list.text(word).to_vec() } else { format!("other{word}\u{a0}").into_bytes() });
            text.push(random.pick(b"  \t\r\x0B\x0C\0"));
        }
        text.push(b'\n');
    }
    if random.chance(50) {
        text.extend(b"no line feed");
    }
    text
}
