//! docs/back-off.md against the code that it prints and the answers that it works out by hand.

use std::fs::read_to_string;
use std::path::Path;
use tests::lists::{sample, table};

fn file(path: &str) -> String {
    read_to_string(Path::new(env!("CARGO_MANIFEST_DIR")).join("..").join(path)).unwrap_or_else(|error| panic!("{path}: {error}"))
}

fn page() -> String {
    file("docs/back-off.md")
}

/// The page's fenced parts that are printed from a file, each with the file that the text before it names last.
fn printed(page: &str) -> Vec<(String, String)> {
    let parts: Vec<&str> = page.split("\n```").collect();
    parts
        .chunks_exact(2)
        .filter_map(|pair| {
            let (kind, code) = pair[1].split_once('\n').expect("a fence on a line of its own");
            let named = || pair[0].rsplit('`').find(|word| word.starts_with("crates/")).expect("a file before a printed part");
            ["rust", "text"].contains(&kind).then(|| (named().to_string(), code.to_string()))
        })
        .collect()
}

/// The cells of the table whose head begins with this.
fn rows_of(page: &str, head: &str) -> Vec<Vec<String>> {
    page.lines()
        .skip_while(|line| !line.starts_with(head))
        .skip(2)
        .take_while(|line| line.starts_with('|'))
        .map(|line| line.trim_matches('|').split(" | ").map(|cell| cell.trim().to_string()).collect())
        .collect()
}

#[test]
fn printed_parts_stand_in_their_files() {
    let parts = printed(&page());
    let files: Vec<&str> = parts.iter().map(|(path, _)| path.as_str()).collect();
    assert_eq!(files, ["crates/plain_word/src/lib.rt", "crates/backoff/specs/Rule.antt", "crates/plain_word/specs/Score.antt"]);
    for (path, code) in &parts {
        let whole = file(path);
        for part in code.split("\n\n") {
            assert!(whole.contains(&format!("\n{part}\n")), "{path} has it otherwise:\n{part}");
        }
    }
}

#[test]
fn lines_beside_the_rule_are_the_functions() {
    let page = page();
    let (_, function) = &printed(&page)[0];
    let rows = rows_of(&page, "| the thesis |");
    let lines: Vec<&str> = rows.iter().filter_map(|cells| cells.last()?.strip_prefix('`')?.strip_suffix('`')).collect();
    assert_eq!(lines.len(), 9);
    let mut rest = function.lines();
    for line in lines {
        assert!(rest.any(|other| other.trim() == line), "{line}: not in the function, or not in its order");
    }
}

#[test]
fn worked_cases_are_the_calls_answers() {
    let cells = table(&sample());
    let cases: [(&str, &[u32]); 4] = [("K1", &[4, 5, 3]), ("K2", &[5, 4, 3]), ("K3", &[9, 3]), ("K4", &[3])];
    let mut answers = Vec::new();
    for (case, words) in cases {
        let (mut points, mut lengths) = (vec![0; words.len()], vec![0; words.len()]);
        assert_eq!(backoff::plain(&cells, true, words, &mut points, &mut lengths).number, 0);
        let mut history = vec![2];
        for (i, &word) in words.iter().enumerate() {
            let spaced: Vec<String> = history.iter().map(u32::to_string).collect();
            let points = points[i].to_string().replace('-', "−");
            answers.push([case.to_string(), spaced.join(" "), word.to_string(), points, (lengths[i] & 7).to_string()]);
            history.push(if lengths[i] & 8 == 0 { word } else { 1 });
            history = history.split_off(history.len().saturating_sub(2));
        }
    }
    let rows = rows_of(&page(), "| case |");
    let worked: Vec<[String; 5]> = rows.iter().map(|cells| [0, 1, 2, 4, 5].map(|i| cells[i].clone())).collect();
    assert_eq!(worked, answers);
}
