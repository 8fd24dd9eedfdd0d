//! Build beside Rust that tries every d and Rust that has the same links: the lists and the table.

use crate::array::{build_by, EveryD, Search};
use crate::linked::Links;
use crate::list::MOST_ROWS;
use crate::lists::{Arrays, KINDS, SHORT};
use crate::report::thousands;
use crate::time::{compare, Compared};
use std::fs;
use tests::lists::natural_sentence;
use tests::random::Random;
use tests::reference::arpa::RECORD;
use tests::reference::array::MOST_SLOTS;
use tests::reference::build::FREE;

/// A list, and the slots of the arrays that it is built into.
struct Case {
    list: &'static str,
    table: Vec<i32>,
    slots: usize,
}

/// Prints sentences from which irstlm trains a list, one in a line.
pub fn print_text(sentences: usize) {
    let mut random = Random::new(8);
    for _ in 0..sentences {
        let words: Vec<String> = natural_sentence(&mut random, 12_000).iter().map(word_text).collect();
        println!("{}", words.join(" "));
    }
}

fn word_text(word: &i32) -> String {
    match word {
        2 => "<s>".to_string(),
        3 => "</s>".to_string(),
        word => format!("w{word}"),
    }
}

pub fn print_table() {
    println!("\n## Building\n\nMilliseconds of a build beside Rust that tries every d from 1 on, and beside Rust with the same links between the free slots. irstlm's lists have order 3.\n");
    println!("| list | rows | slots | ours | every d | ratio | ours | with links | ratio |\n|---|--:|--:|--:|--:|--:|--:|--:|--:|");
    for case in cases() {
        eprintln!("bench: building, {}, {} rows", case.list, case.table.len() / 8);
        let rows = case.table.len() / 8;
        print!("| {} | {} | {} ", case.list, thousands(rows), thousands(case.slots));
        for Compared { ours, rust, ratio } in [case.compared::<EveryD>(), case.compared::<Links>()] {
            print!("| {:.3} | {:.3} | {ratio:.3} ", 1e3 * ours, 1e3 * rust);
        }
        println!("|");
    }
}

/// Each list in as many slots as it needs, and a short one in as many as there may be.
fn cases() -> Vec<Case> {
    let mut cases = Vec::new();
    for kind in KINDS {
        for list in [kind.short(), kind.long()] {
            cases.push(Case { list: kind.name, slots: list.arrays.slots(), table: list.table });
        }
    }
    for rows in [SHORT, MOST_ROWS] {
        let table = trained(rows);
        cases.push(Case { list: "irstlm", slots: slots_needed(&table), table });
    }
    cases.push(Case { list: "natural", table: KINDS[0].short().table, slots: MOST_SLOTS });
    cases
}

/// The list of so many rows that irstlm trained.
fn trained(rows: usize) -> Vec<i32> {
    let name = format!("target/peers/trained-{rows}.arpa");
    let text = fs::read(&name).unwrap_or_else(|_| panic!("{name} is missing: bench/trained makes it"));
    let (mut table, mut store) = (vec![0; 8 * rows], vec![0; RECORD * (rows + 1)]);
    let read = backoff::read_arpa(&text, false, &mut table, &mut store);
    assert_eq!((read.number, read.rows as usize), (0, rows), "the list is read");
    table
}

fn slots_needed(table: &[i32]) -> usize {
    let mut arrays = Arrays::new(MOST_SLOTS, table.len() / 8);
    assert_eq!(backoff::build(table, &mut arrays.base, &mut arrays.check, &mut arrays.work).number, 0);
    arrays.check.iter().rposition(|&item| item != FREE).map_or(0, |last| last + 1)
}

impl Case {
    fn compared<S: Search>(&self) -> Compared {
        let [mut left, mut right] = [(); 2].map(|()| Arrays::new(self.slots, self.table.len() / 8));
        let mut ours = || assert_eq!(backoff::build(&self.table, &mut left.base, &mut left.check, &mut left.work).number, 0);
        let mut rust = || assert_eq!(build_by::<S>(&self.table, &mut right.base, &mut right.check, &mut right.work).number, 0);
        let compared = compare(&mut ours, &mut rust);
        assert!(left.base == right.base && left.check == right.check && left.work == right.work, "the builders agree");
        compared
    }
}
