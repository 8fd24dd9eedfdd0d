//! docs/architecture.md against the crates: its tables name each file once, every file of specs/ among them, and each theorem beside the file that has it.

use std::fs::{read_dir, read_to_string};
use std::path::{Path, PathBuf};

fn root() -> PathBuf {
    Path::new(env!("CARGO_MANIFEST_DIR")).join("..")
}

fn file(path: &str) -> String {
    read_to_string(root().join(path)).unwrap_or_else(|error| panic!("{path}: {error}"))
}

/// The names in a folder, sorted; none where it is missing.
fn names(path: &str) -> Vec<String> {
    let entries = read_dir(root().join(path)).into_iter().flatten();
    let mut names: Vec<String> = entries.map(|entry| entry.expect("an entry").file_name().into_string().expect("UTF-8")).collect();
    names.sort();
    names
}

/// The part of the page below a heading.
fn section(heading: &str) -> String {
    let page = file("docs/architecture.md");
    let (_, below) = page.split_once(&format!("\n## {heading}\n")).unwrap_or_else(|| panic!("no heading {heading}"));
    below.split("\n## ").next().unwrap_or(below).to_string()
}

/// The rows of its first table, by their cells.
fn rows(section: &str) -> Vec<Vec<&str>> {
    let table = section.lines().skip_while(|line| !line.starts_with('|')).take_while(|line| line.starts_with('|'));
    table.skip(2).map(|line| line.trim_matches('|').split(" | ").collect()).collect()
}

/// What stands between backticks.
fn quoted(text: &str) -> impl Iterator<Item = &str> {
    text.split('`').skip(1).step_by(2)
}

/// The files that a cell names; a name without a folder is in that of the one before.
fn files(cell: &str) -> Vec<String> {
    let mut folder = "";
    let mut named = Vec::new();
    for name in quoted(cell).filter(|name| name.starts_with("crates/") || name.ends_with(".antt")) {
        let rest = name.rsplit_once('/').map_or(name, |(before, rest)| {
            folder = before;
            rest
        });
        named.push(format!("{folder}/{rest}"));
    }
    named
}

/// The files of specs/ that are named after the table, as `Held.antt` of `arpa` and `plain`.
fn inner(section: &str) -> Vec<String> {
    let (mut of, mut before, mut named) = (Vec::new(), "", Vec::new());
    for name in section.lines().filter(|line| line.starts_with('`')).flat_map(quoted) {
        if !name.ends_with(".antt") {
            named.extend(of.iter().map(|file| format!("crates/{name}/specs/{file}")));
        } else if before.ends_with(".antt") {
            of.push(name);
        } else {
            of = vec![name];
        }
        before = name;
    }
    named
}

#[test]
fn each_file_is_named_once() {
    let (proved, believed) = (section("Where each demand is proved"), section("What a reader must believe"));
    let in_table = |section: &str, column: usize| -> Vec<String> { rows(section).iter().flat_map(|row| files(row[column])).collect() };
    let mut named = in_table(&proved, 2);
    named.extend(in_table(&believed, 0));
    named.extend(inner(&believed));
    named.sort();
    for pair in named.windows(2) {
        assert_ne!(pair[0], pair[1], "named twice");
    }
    for path in &named {
        assert!(root().join(path).exists(), "{path} is not there");
    }
    for folder in names("crates").iter().map(|name| format!("crates/{name}/specs")) {
        for path in names(&folder).iter().filter(|name| *name != "Lib.antt").map(|name| format!("{folder}/{name}")) {
            assert!(named.contains(&path), "{path} is not named");
        }
    }
}

#[test]
fn each_crate_has_its_line() {
    let (listed, section) = (file("crates.txt"), section("Crates, bottom up"));
    let mut listed: Vec<&str> =
        listed.lines().filter(|line| !line.starts_with('#')).filter_map(|line| line.split([' ', ':']).next()).collect();
    let mut told: Vec<&str> = rows(&section).iter().flat_map(|row| quoted(row[0])).collect();
    listed.sort();
    told.sort();
    assert_eq!(told, listed);
}

#[test]
fn each_theorem_is_in_its_file() {
    let proved = section("Where each demand is proved");
    let mut found = 0;
    for row in rows(&proved) {
        let texts: Vec<String> = files(row[2]).iter().flat_map(|path| texts_of(path)).collect();
        // in a part without contracts the theorems stand first; what is told behind a colon may name definitions
        let parts = row[1].split(';').filter(|part| !part.contains("contract")).filter_map(|part| part.split(": ").next());
        for theorem in parts.flat_map(quoted).filter(|name| name.contains(['-', '_'])) {
            let states = |line: &str| line.trim_start().strip_prefix("pub ").is_some_and(|law| law.starts_with(&format!("{theorem} :")));
            assert!(texts.iter().any(|text| text.lines().any(states)), "{theorem} is not in {:?}", files(row[2]));
            found += 1;
        }
    }
    assert!(found > 100, "the table names theorems");
}

/// The text of a file, or those of the files of a folder.
fn texts_of(path: &str) -> Vec<String> {
    if root().join(path).is_file() {
        return vec![file(path)];
    }
    names(path).iter().filter(|name| name.ends_with(".antt")).map(|name| file(&format!("{path}/{name}"))).collect()
}
