//! The subcommands: what each takes, and what it is then.

use crate::arguments::Given;
use crate::standard;
use backoff::limits::SENTENCE_LIMIT;
use std::ffi::OsStr;
use std::path::PathBuf;
use std::thread::available_parallelism;

/// Where a model comes from.
pub struct Source {
    pub path: PathBuf,
    /// Whether its text is put in form.
    pub in_form: bool,
    /// Whether rows that a pruned list lacks are added.
    pub fill: bool,
}

/// A text, and what stands around each of its lines.
pub struct Text {
    /// None: standard input.
    pub path: Option<PathBuf>,
    pub marks: Marks,
}

/// Whether a line is scored after `<s>`, and closed with `</s>`.
#[derive(Clone, Copy)]
pub struct Marks {
    pub bos: bool,
    pub eos: bool,
}

/// How a text is scored and printed.
pub struct Asked {
    pub text: Text,
    pub threads: usize,
    pub way: Way,
    pub form: Form,
}

#[derive(Clone, Copy, PartialEq)]
pub enum Way {
    /// By runs over the array.
    Runs,
    /// From the list alone.
    Plain,
    /// By both, which must agree.
    Both,
}

/// What `query` prints.
#[derive(Clone, Copy, Default)]
pub struct Form {
    /// Whole points, not base-10 logarithms.
    pub points: bool,
    /// The left mark behind each word.
    pub left: bool,
    pub shown: Shown,
}

#[derive(Clone, Copy, Default, PartialEq)]
pub enum Shown {
    /// All words with their totals, and the summary.
    #[default]
    Words,
    /// The total of each sentence, and nothing else.
    Totals,
    /// The summary, and nothing else.
    Summary,
}

pub enum Command {
    Help(&'static str),
    Check(Source),
    Build(Source, PathBuf),
    Dump(PathBuf),
    Query(Source, Asked),
    /// With a file, a page is written to it.
    Explain(Source, Text, Option<PathBuf>),
    Compare(Source, [Text; 2]),
    /// Sentences of so many words.
    Sentences(Source, u32),
    LargestMove(Source, u32),
    /// None: standard input.
    InForm(Option<PathBuf>),
    Bench(Source, usize),
}

pub struct Subcommand {
    pub name: &'static str,
    /// The fewest and the most files; a number of words counts as one, and all are then called arguments.
    pub files: (usize, usize),
    pub counted: &'static str,
    /// What is named behind an option is its value.
    pub options: &'static [&'static str],
    pub help: &'static str,
    /// What is asked for, or what is wrong.
    pub command: fn(&Given) -> Result<Command, String>,
}

pub const HELP: &str = include_str!("help/backoff.txt");
pub const VERSION: &str = concat!("backoff ", env!("CARGO_PKG_VERSION"), "\n");

pub const SUBCOMMANDS: [Subcommand; 10] = [
    Subcommand {
        name: "check",
        files: (1, 1),
        counted: "file",
        options: &["--in-form", "--fill"],
        help: include_str!("help/check.txt"),
        command: |given| Ok(Command::Check(given.source())),
    },
    Subcommand {
        name: "build",
        files: (2, 2),
        counted: "file",
        options: &["--in-form", "--fill"],
        help: include_str!("help/build.txt"),
        command: |given| Ok(Command::Build(given.source(), given.file(1))),
    },
    Subcommand {
        name: "dump",
        files: (1, 1),
        counted: "file",
        options: &[],
        help: include_str!("help/dump.txt"),
        command: |given| Ok(Command::Dump(given.file(0))),
    },
    Subcommand {
        name: "query",
        files: (1, 2),
        counted: "file",
        options: &[
            "--plain",
            "--both",
            "--points",
            "--totals",
            "--summary",
            "--left",
            "--no-bos",
            "--no-eos",
            "--threads N",
            "--in-form",
            "--fill",
        ],
        help: include_str!("help/query.txt"),
        command: |given| {
            given.read_input_once(2)?;
            Ok(Command::Query(given.source(), given.asked()?))
        },
    },
    Subcommand {
        name: "explain",
        files: (1, 2),
        counted: "file",
        options: &["--html FILE", "--no-bos", "--no-eos", "--in-form", "--fill"],
        help: include_str!("help/explain.txt"),
        command: |given| {
            given.read_input_once(2)?;
            Ok(Command::Explain(given.source(), given.text(1), given.page()?))
        },
    },
    Subcommand {
        name: "compare",
        files: (3, 3),
        counted: "file",
        options: &["--no-bos", "--no-eos", "--in-form", "--fill"],
        help: include_str!("help/compare.txt"),
        command: |given| {
            given.read_input_once(3)?;
            Ok(Command::Compare(given.source(), [given.text(1), given.text(2)]))
        },
    },
    Subcommand {
        name: "sentences",
        files: (2, 2),
        counted: "argument",
        options: &["--in-form", "--fill"],
        help: include_str!("help/sentences.txt"),
        command: |given| Ok(Command::Sentences(given.source(), given.words(1)?)),
    },
    Subcommand {
        name: "largest-move",
        files: (2, 2),
        counted: "argument",
        options: &["--in-form", "--fill"],
        help: include_str!("help/largest-move.txt"),
        command: |given| Ok(Command::LargestMove(given.source(), given.words(1)?)),
    },
    Subcommand {
        name: "in-form",
        files: (0, 1),
        counted: "file",
        options: &[],
        help: include_str!("help/in-form.txt"),
        command: |given| Ok(Command::InForm(given.file_or_input(0))),
    },
    Subcommand {
        name: "bench",
        files: (1, 1),
        counted: "file",
        options: &["--threads N", "--in-form", "--fill"],
        help: include_str!("help/bench.txt"),
        command: |given| Ok(Command::Bench(given.source(), given.threads()?)),
    },
];

impl Given {
    fn source(&self) -> Source {
        Source { path: self.file(0), in_form: self.has("--in-form"), fill: self.has("--fill") }
    }

    /// The file at a place; where there is none, and where it is `-`, standard input.
    fn file_or_input(&self, place: usize) -> Option<PathBuf> {
        (self.file_count() > place).then(|| self.file(place)).filter(|path| path.as_os_str() != standard::NAME)
    }

    /// Of so many files that are read, standard input is one at most.
    fn read_input_once(&self, files: usize) -> Result<(), String> {
        match (0..files).filter(|&place| self.file_or_input(place).is_none()).count() {
            0 | 1 => Ok(()),
            _ => Err("standard input can be read once: name a file for the model or for the text".to_string()),
        }
    }

    fn text(&self, place: usize) -> Text {
        Text { path: self.file_or_input(place), marks: Marks { bos: !self.has("--no-bos"), eos: !self.has("--no-eos") } }
    }

    fn asked(&self) -> Result<Asked, String> {
        let way = self.one_of([("--plain", Way::Plain), ("--both", Way::Both)], Way::Runs)?;
        let shown = self.one_of([("--totals", Shown::Totals), ("--summary", Shown::Summary)], Shown::Words)?;
        let form = Form { points: self.has("--points"), left: self.has("--left"), shown };
        Ok(Asked { text: self.text(1), threads: self.threads()?, way, form })
    }

    /// What one of two options means, or what neither means; both are wrong.
    fn one_of<T>(&self, [(one, first), (two, second)]: [(&str, T); 2], neither: T) -> Result<T, String> {
        match (self.has(one), self.has(two)) {
            (true, true) => Err(format!("'{one}' and '{two}' exclude each other")),
            (true, false) => Ok(first),
            (false, true) => Ok(second),
            (false, false) => Ok(neither),
        }
    }

    fn page(&self) -> Result<Option<PathBuf>, String> {
        match self.value("--html") {
            Some(path) if path.is_empty() => Err("--html takes the name of a file".to_string()),
            path => Ok(path.map(PathBuf::from)),
        }
    }

    fn threads(&self) -> Result<usize, String> {
        let processors = available_parallelism().map_or(1, usize::from);
        let asked = self.value("--threads").map_or(Ok(1), |value| number("--threads takes", value, THREAD_LIMIT))?;
        Ok(asked.min(processors))
    }

    /// How many words the sentences have.
    fn words(&self, place: usize) -> Result<u32, String> {
        number("K is", self.file(place).as_os_str(), SENTENCE_LIMIT).map(|words| words as u32)
    }
}

/// A number from 1 up to a limit.
fn number(name: &str, value: &OsStr, limit: usize) -> Result<usize, String> {
    let value = value.to_string_lossy();
    match value.parse() {
        Ok(number) if (1..=limit).contains(&number) => Ok(number),
        _ => Err(format!("{name} a number from 1 to {limit}, not '{value}'")),
    }
}

/// The most threads that may be asked for.
const THREAD_LIMIT: usize = 256;

#[cfg(test)]
mod tests {
    use super::{HELP, SUBCOMMANDS};

    /// The help of a subcommand names each of its options, and that of the program each subcommand.
    #[test]
    fn help_names_all() {
        for subcommand in &SUBCOMMANDS {
            assert!(HELP.contains(&format!("backoff {} ", subcommand.name)), "{}", subcommand.name);
            for option in subcommand.options {
                assert!(subcommand.help.contains(&format!("\n  {option}  ")), "{} {option}", subcommand.name);
            }
        }
    }
}
