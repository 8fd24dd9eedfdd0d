//! The examples of the documents: in each block of the kind `console`, a line that begins with `$` is run, and what follows it is all that it prints.

mod support;

use support::{repository, Folder};

/// The files that the examples use.
const FILES: [&str; 2] = ["model.arpa", "text.txt"];

/// The commands of a document, each with what is printed below it.
fn examples(document: &str) -> Vec<(String, String)> {
    let mut examples: Vec<(String, String)> = Vec::new();
    for block in document.split("```console\n").skip(1).filter_map(|rest| rest.split("```").next()) {
        assert!(block.starts_with("$ "), "a command comes first: {block}");
        for line in block.lines() {
            match (line.strip_prefix("$ "), examples.last_mut()) {
                (Some(command), _) => examples.push((command.to_string(), String::new())),
                (None, Some((_, printed))) => *printed += &format!("{line}\n"),
                (None, None) => panic!("nothing is run: {line}"),
            }
        }
    }
    examples
}

/// Measured numbers, which differ from run to run, as one letter each.
fn without_rates(text: &str) -> String {
    text.lines()
        .map(|line| line.trim_end_matches(|letter: char| letter.is_ascii_digit() || letter == ',' || letter == ' ').to_string() + "\n")
        .collect()
}

/// Runs all examples of a document in one folder, and says how many there are.
fn compare(document: &str) -> usize {
    let folder = Folder::new();
    for name in FILES {
        folder.put(name, std::fs::read(repository().join("examples").join(name)).unwrap());
    }
    let examples = examples(&std::fs::read_to_string(repository().join(document)).unwrap());
    for (command, expected) in &examples {
        let printed = String::from_utf8(folder.shell(&format!("{{ {command}; }} 2>&1")).out).unwrap();
        match command.starts_with("backoff bench") {
            true => assert_eq!(without_rates(&printed), without_rates(expected), "{document}: {command}"),
            false => assert_eq!(&printed, expected, "{document}: {command}"),
        }
    }
    examples.len()
}

#[test]
fn command_line() {
    assert!(compare("docs/command-line.md") >= 15);
}

#[test]
fn readme() {
    assert!(compare("README.md") >= 2);
}
