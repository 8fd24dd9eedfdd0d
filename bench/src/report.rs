//! The tables, as Markdown.

use crate::list::MOST_ROWS;
use crate::lists::{List, KINDS};
use crate::measure::{build, measure, unload, Measured, PRUNED};
use crate::{batch, building, filling, reading, sentences};
use tests::reference::array::MOST_SLOTS;

/// The lists of a kind and what was measured on them, 1,000 rows first.
struct Result {
    kind: &'static str,
    lists: [List; 2],
    measured: [Vec<Measured>; 2],
}

pub fn print() {
    let results = KINDS.each_ref().map(|kind| {
        let lists = [kind.short(), kind.long()];
        eprintln!("bench: {}", kind.name);
        Result { kind: kind.name, measured: lists.each_ref().map(measure), lists }
    });
    print_ratios(&results);
    print_times(&results);
    print_filled(&results);
    print_memory(results.iter().flat_map(|result| result.lists.iter().map(|list| (result.kind, list))));
    print_largest(&results);
    batch::print_threads(&results[0].lists[1]);
    sentences::print_table();
    building::print_table();
    reading::print_tables();
}

fn print_ratios(results: &[Result]) {
    println!("## Ratios\n\nOur time divided by that of the counterpart: below 1 ours is faster.\n");
    let columns =
        || results.iter().flat_map(|result| result.lists.iter().map(|list| format!("{}, {}", result.kind, thousands(list.rows()))));
    println!("| call |{}", columns().map(|column| format!(" {column} |")).collect::<String>());
    println!("|---|{}", columns().map(|_| "--:|").collect::<String>());
    for (i, first) in results[0].measured[0].iter().enumerate() {
        let ratios = results.iter().flat_map(|result| result.measured.iter().map(|measured| measured[i].ratio));
        println!("| {} |{}", first.call, ratios.map(|ratio| format!(" {ratio:.2} |")).collect::<String>());
    }
}

fn print_times(results: &[Result]) {
    println!("\n## Times and how they grow\n\nNanoseconds for each row, lookup or word, and the factor from 1,000 to 65,535 rows.\n");
    println!("| call | list | for each | ours, 1,000 | counterpart, 1,000 | ours, 65,535 | counterpart, 65,535 | ours grows | counterpart grows |");
    println!("|---|---|---|--:|--:|--:|--:|--:|--:|");
    for i in 0..results[0].measured[0].len() {
        for Result { kind, measured: [short, long], .. } in results {
            let (short, long) = (&short[i], &long[i]);
            print!("| {} | {kind} | {} ", short.call, short.unit);
            print!("| {:.1} | {:.1} | {:.1} | {:.1} ", short.ours, short.rust, long.ours, long.rust);
            println!("| {:.1} | {:.1} |", long.ours / short.ours, long.rust / short.rust);
        }
    }
}

/// How many rows the pruned lists have, and how many when they are filled.
fn print_filled(results: &[Result]) {
    println!("\n## Filled lists\n\nThe rows of the lists that are filled, of the pruned ones and of the complete ones.\n");
    println!("| list | before pruning | pruned | filled |\n|---|--:|--:|--:|");
    for result in results {
        for list in &result.lists {
            let pruned = list.pruned_table(PRUNED);
            let filled = filling::fill(&pruned, &mut vec![0; 8 * MOST_ROWS]).rows as usize;
            println!("| {} | {} | {} | {} |", result.kind, thousands(list.rows()), thousands(pruned.len() / 8), thousands(filled));
        }
    }
}

/// Prints the memory of the lists alone.
pub fn print_memory_table() {
    let lists: Vec<_> = KINDS.iter().flat_map(|kind| [(kind.name, kind.short()), (kind.name, kind.long())]).collect();
    print_memory(lists.iter().map(|(kind, list)| (*kind, list)));
}

const MEMORY: &str = "
## Memory

The two arrays at the slots that the list needs, and the work slice. The list itself has 32 bytes a row. The root and each row take two slots, a longest row one. Were these to have markers
too, they would lie in the lowest free slots, and the list would need the slots of the next column: no more, where a child of some other node lies last.

| list | rows | longest rows | slots | were all rows to have markers | fill rate | arrays, bytes a row | with work, bytes a row |
|---|--:|--:|--:|--:|--:|--:|--:|";

fn print_memory<'a>(lists: impl Iterator<Item = (&'a str, &'a List)>) {
    println!("{MEMORY}");
    for (kind, list) in lists {
        print_slots(kind, list);
    }
    print_slots("wide", &List::wide());
    print_slots("order 3", &List::order_3());
}

/// A slot has four bytes in each of two arrays, a row four bytes of work.
fn print_slots(kind: &str, list: &List) {
    let (rows, longest, slots) = (list.rows(), list.longest_rows(), list.arrays.slots());
    let fill_rate = 100.0 * (2 * (rows + 1) - longest) as f64 / slots as f64;
    let bytes = (8 * slots) as f64 / rows as f64;
    let [rows, longest, slots, marked] = [rows, longest, slots, slots.max(2 * (rows + 1))].map(thousands);
    println!("| {kind} | {rows} | {longest} | {slots} | {marked} | {fill_rate:.1} % | {bytes:.1} | {:.1} |", bytes + 4.0);
}

/// The seconds that a person waits for the longest lists.
fn print_largest(results: &[Result]) {
    println!("\n## The longest lists in large arrays\n\nSeconds for a list of 65,535 rows; for unload its words go up to 65,535.\n");
    println!("| call | list | slots | ours | counterpart | ratio |\n|---|---|--:|--:|--:|--:|");
    for Result { kind, lists: [_, long], .. } in results {
        print_seconds(kind, MOST_SLOTS, long.rows(), &build(long, MOST_SLOTS));
    }
    for (kind, list) in List::all_words() {
        print_seconds(kind, list.arrays.slots(), list.rows(), &unload(&list));
    }
}

fn print_seconds(kind: &str, slots: usize, rows: usize, measured: &Measured) {
    let seconds = |nanoseconds: f64| nanoseconds * rows as f64 / 1e9;
    let Measured { call, ours, rust, ratio, .. } = measured;
    println!("| {call} | {kind} | {} | {:.4} | {:.4} | {ratio:.2} |", thousands(slots), seconds(*ours), seconds(*rust));
}

/// A number below a thousand million with commas.
pub fn thousands(number: usize) -> String {
    match (number / 1_000_000, number / 1_000 % 1_000, number % 1_000) {
        (0, 0, ones) => ones.to_string(),
        (0, thousands, ones) => format!("{thousands},{ones:03}"),
        (millions, thousands, ones) => format!("{millions},{thousands:03},{ones:03}"),
    }
}
