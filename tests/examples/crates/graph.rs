//! The crates, from crates.txt and their sources: what each stands on, and what a call passes through.

use std::collections::{BTreeMap, BTreeSet};
use std::fs::read_to_string;
use std::path::Path;

/// The crates, bottom up, and the functions of their sources.
pub struct Crates {
    pub crates: Vec<Crate>,
    pub functions: Vec<Function>,
}

pub struct Crate {
    pub name: String,
    /// The crates that it stands on, and those among them that are the kit's.
    pub below: Vec<usize>,
    pub of_the_kit: Vec<String>,
    pub is_program: bool,
}

pub struct Function {
    pub of: usize,
    pub name: String,
    /// The type whose method it is.
    of_type: Option<String>,
    /// It crosses to C.
    pub is_export: bool,
    body: String,
}

/// The pairs of crates of which the first enters the second, with the functions by which it does.
pub type Passed = BTreeMap<(usize, usize), BTreeSet<usize>>;

impl Crates {
    pub fn read() -> Crates {
        let mut read = Crates { crates: Vec::new(), functions: Vec::new() };
        let listed = text("crates.txt").expect("crates.txt can be read");
        for (head, below) in listed.lines().filter(|line| !line.starts_with('#')).filter_map(|line| line.split_once(':')) {
            let name = head.trim_end_matches(" staticlib");
            let (below, of_the_kit): (Vec<&str>, Vec<&str>) = below.split_whitespace().partition(|other| read.find(other).is_some());
            let program = text(&format!("crates/{name}/src/main.rt"));
            let is_program = program.is_some();
            let source = program.or_else(|| text(&format!("crates/{name}/src/lib.rt"))).unwrap_or_else(|| panic!("{name} has no source"));
            read.functions.extend(functions(&source, read.crates.len()));
            read.crates.push(Crate {
                name: name.to_string(),
                below: below.into_iter().filter_map(|other| read.find(other)).collect(),
                of_the_kit: of_the_kit.into_iter().map(str::to_string).collect(),
                is_program,
            });
        }
        read
    }

    /// A crate by its name, nothing where it is one of the kit's.
    fn find(&self, name: &str) -> Option<usize> {
        self.crates.iter().position(|known| known.name == name)
    }

    pub fn has_code(&self, own: usize) -> bool {
        self.functions.iter().any(|function| function.of == own)
    }

    /// The pairs of a crate and one that it stands on, but for those that follow from others.
    pub fn pairs(&self) -> BTreeSet<(usize, usize)> {
        let stands_on = |upper: usize, lower: usize| self.crates[upper].below.contains(&lower);
        let follows = |upper: usize, lower: usize| self.crates[upper].below.iter().any(|&between| stands_on(between, lower));
        let pairs = self.crates.iter().enumerate().flat_map(|(upper, own)| own.below.iter().map(move |&lower| (upper, lower)));
        pairs.filter(|&(upper, lower)| !follows(upper, lower)).collect()
    }

    /// For each crate the number of crates on the longest way down from it.
    pub fn heights(&self) -> Vec<usize> {
        let mut heights = Vec::new();
        for own in &self.crates {
            heights.push(own.below.iter().map(|&lower| heights[lower] + 1).max().unwrap_or(0));
        }
        heights
    }

    /// The functions that cross to C.
    pub fn exports(&self) -> impl Iterator<Item = usize> + '_ {
        (0..self.functions.len()).filter(|&function| self.functions[function].is_export)
    }

    /// The functions that one calls: those of other crates are named with the crate, and methods with their type or behind a value.
    pub fn called(&self, function: usize) -> Vec<usize> {
        let Function { of, body, .. } = &self.functions[function];
        let in_reach = |other: &Function| other.of == *of || self.crates[*of].below.contains(&other.of);
        let find = |path: &str, behind_a_value: bool| {
            let (named, name) = path.split_once("::").map_or((None, path), |(named, name)| (Some(named), name));
            self.functions.iter().position(|other| {
                other.name == name
                    && match (&other.of_type, named) {
                        (None, None) => other.of == *of && !behind_a_value,
                        (None, Some(named)) => Some(other.of) == self.find(named),
                        (Some(_), None) => behind_a_value && in_reach(other),
                        (Some(of_type), Some(named)) => of_type == named && in_reach(other),
                    }
            })
        };
        let in_path = |letter: char| letter.is_alphanumeric() || letter == '_' || letter == ':';
        let opened = body.match_indices('(').map(|(end, _)| &body[..end]);
        opened
            .filter_map(|before| {
                let ahead = before.trim_end_matches(in_path);
                find(&before[ahead.len()..], ahead.ends_with('.'))
            })
            .collect()
    }

    /// A function and all that it calls.
    fn reached(&self, first: usize) -> BTreeSet<usize> {
        let (mut seen, mut left) = (BTreeSet::from([first]), vec![first]);
        while let Some(from) = left.pop() {
            left.extend(self.called(from).into_iter().filter(|&to| seen.insert(to)));
        }
        seen
    }

    /// What a function passes through, by all that it calls.
    pub fn passed(&self, first: usize) -> Passed {
        let mut passed = Passed::new();
        for from in self.reached(first) {
            for to in self.called(from) {
                let pair = (self.functions[from].of, self.functions[to].of);
                if pair.0 != pair.1 {
                    passed.entry(pair).or_default().insert(to);
                }
            }
        }
        passed
    }

    /// The crate that answers a call of C: of those that its export calls, the one where the most is done.
    pub fn answering(&self, export: usize) -> Option<usize> {
        let called = self.called(export).into_iter().filter(|&to| self.functions[to].of != self.functions[export].of);
        called.max_by_key(|&to| self.reached(to).len()).map(|to| self.functions[to].of)
    }
}

/// A file of the repository.
fn text(path: &str) -> Option<String> {
    read_to_string(Path::new(env!("CARGO_MANIFEST_DIR")).join("..").join(path)).ok()
}

/// The functions of a crate's source, which begin at a line's first column, and the methods of its types.
fn functions(source: &str, of: usize) -> Vec<Function> {
    let mut functions: Vec<Function> = Vec::new();
    let mut of_type: Option<String> = None;
    for line in source.lines().filter(|line| !line.trim_start().starts_with("//")) {
        if line.starts_with("impl") {
            of_type = Some(type_of(line));
        } else if line == "}" {
            of_type = None;
        }
        let own = if of_type.is_some() { line.strip_prefix("    ").unwrap_or(line) } else { line };
        let inner = own.strip_prefix("pub ").unwrap_or(own);
        let exported = inner.strip_prefix("extern \"C\" ");
        if let Some(head) = exported.unwrap_or(inner).strip_prefix("fn ") {
            let name = head.split('(').next().unwrap_or(head).to_string();
            functions.push(Function { of, name, of_type: of_type.clone(), is_export: exported.is_some(), body: String::new() });
        } else if let Some(last) = functions.last_mut() {
            last.body += line;
            last.body += "\n";
        }
    }
    functions
}

/// The type that an `impl` is for.
fn type_of(head: &str) -> String {
    let behind = head.split(" for ").last().unwrap_or(head).trim_start_matches("impl");
    let behind = behind.strip_prefix("<'a>").unwrap_or(behind);
    behind.trim_start().chars().take_while(|letter| letter.is_alphanumeric()).collect()
}
