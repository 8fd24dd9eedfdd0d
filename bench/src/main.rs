//! The calls against Rust written by the team for the same work. Without arguments it prints Markdown tables of ratios, times and memory,
//! `reading` prints those of ARPA texts alone, `building` that of builders, `sentences` that of small sentences, `memory` that of memory; `instructions KIND LENGTH` runs the scorers once, for
//! `bench/instructions` to count.
//! `pictured` prints the tables of docs/performance.svg, for which `bench/run` makes the libraries of `bench/peers`; `draw` draws it from a page that has them.

mod arpa;
mod array;
mod batch;
mod building;
mod figures;
mod filling;
mod fragments;
mod instructions;
mod largest_move;
mod linked;
mod list;
mod lists;
mod measure;
mod packed;
mod peer;
mod picture;
mod pictured;
mod plain;
mod reading;
mod report;
mod score;
mod sentences;
mod time;
mod unload;

use std::io::{read_to_string, stdin};
use std::process::ExitCode;

fn main() -> ExitCode {
    let arguments: Vec<String> = std::env::args().skip(1).collect();
    match &arguments.iter().map(String::as_str).collect::<Vec<_>>()[..] {
        [] => report::print(),
        ["pictured"] => pictured::print(),
        ["draw"] => return draw(),
        ["reading"] => reading::print_tables(),
        ["building"] => building::print_table(),
        ["sentences"] => sentences::print_table(),
        ["memory"] => report::print_memory_table(),
        ["text", sentences] => building::print_text(sentences.parse().expect("a number of sentences")),
        ["instructions", kind, length] => instructions::run(kind, length),
        _ => return ExitCode::from(2),
    }
    ExitCode::SUCCESS
}

/// Draws the picture of the page that is read.
fn draw() -> ExitCode {
    match read_to_string(stdin()).ok().and_then(|page| picture::draw(&page)) {
        Some(picture) => print!("{picture}"),
        None => {
            eprintln!("bench: the page lacks a figure of the picture");
            return ExitCode::FAILURE;
        }
    }
    ExitCode::SUCCESS
}
