//! The limits and the numbers of the refusals are those of the header.

mod support;

use backoff::limits::*;
use backoff::number::*;
use std::collections::BTreeMap;
use support::repository;

/// The names of an enum of the header with their numbers.
fn numbers(kind: &str) -> BTreeMap<String, i64> {
    let header = std::fs::read_to_string(repository().join("include/backoff.h")).unwrap();
    let (_, rest) = header.split_once(&format!("enum {kind} {{")).unwrap();
    let (names, _) = rest.split_once("};").unwrap();
    let number = |line: &str| {
        let (name, rest) = line.trim().strip_prefix("BACKOFF_")?.split_once(" = ")?;
        let digits: String = rest.chars().take_while(|&letter| letter == '-' || letter.is_ascii_digit()).collect();
        Some((name.to_string(), digits.parse().unwrap()))
    };
    names.lines().filter_map(number).collect()
}

#[test]
fn limits() {
    let ours = [
        ("ROW_ITEMS", ROW_ITEMS),
        ("STATE_LENGTH", STATE_LENGTH),
        ("ORDER_LIMIT", ORDER_LIMIT),
        ("ROW_LIMIT", ROW_LIMIT),
        ("WORD_LIMIT", WORD_LIMIT),
        ("RUN_LIMIT", RUN_LIMIT),
        ("SLOT_LIMIT", SLOT_LIMIT),
        ("RECORD_BYTES", RECORD_BYTES),
        ("TEXT_LIMIT", TEXT_LIMIT),
        ("SENTENCE_LIMIT", SENTENCE_LIMIT),
        ("USABLE_LIMIT", USABLE_LIMIT),
        ("LISTING_LIMIT", LISTING_LIMIT),
        ("UNKNOWN_WORD", UNKNOWN_WORD as usize),
        ("START_WORD", START_WORD as usize),
        ("END_WORD", END_WORD as usize),
        ("UNKNOWN_LENGTH", UNKNOWN_LENGTH as usize),
        ("EXTENDED_LENGTH", EXTENDED_LENGTH as usize),
    ]
    .map(|(name, number)| (name, number as i64));
    let points = [
        ("LEAST_PROBABILITY", LEAST_PROBABILITY),
        ("LEAST_BACKOFF", LEAST_BACKOFF),
        ("LARGEST_BACKOFF", LARGEST_BACKOFF),
        ("POINTS_PER_LOG", POINTS_PER_LOG),
        ("ORDER_HEAD", ORDER_HEAD),
    ]
    .map(|(name, number)| (name, i64::from(number)));
    let header = numbers("backoff_limit");
    for (name, number) in ours.into_iter().chain(points) {
        assert_eq!(header.get(name), Some(&number), "{name}");
    }
}

#[test]
fn refusals() {
    let ours = [
        ("ACCEPTED", ACCEPTED),
        ("TABLE_LENGTH", TABLE_LENGTH),
        ("ARRAY_LENGTH", ARRAY_LENGTH),
        ("ROW_LENGTH", ROW_LENGTH),
        ("ROW_WORDS", ROW_WORDS),
        ("ROW_PROBABILITY", ROW_PROBABILITY),
        ("ROW_BACKOFF", ROW_BACKOFF),
        ("ROW_ORDER", ROW_ORDER),
        ("SHORTER_ROW", SHORTER_ROW),
        ("RESERVED_WORD", RESERVED_WORD),
        ("NO_ROOM", NO_ROOM),
        ("ARRAY_HEAD", ARRAY_HEAD),
        ("BROKEN_NODE", BROKEN_NODE),
        ("TEXT_LINE", TEXT_LINE),
        ("WORD_COUNT", WORD_COUNT),
        ("SHORT_SLICE", SHORT_SLICE),
        ("BAD_STATE", BAD_STATE),
        ("ARPA_LINE", ARPA_LINE),
        ("ARPA_WORD", ARPA_WORD),
        ("ARPA_COUNT", ARPA_COUNT),
        ("SENTENCE_ENDS", SENTENCE_ENDS),
        ("BAD_FRAGMENT", BAD_FRAGMENT),
        ("LISTING_SIZE", LISTING_SIZE),
    ];
    assert_eq!(numbers("backoff_number"), ours.map(|(name, number)| (name.to_string(), number as i64)).into());
}

/// Each number has a sentence of its own, and no other number has one.
#[test]
fn reasons() {
    let numbers: Vec<i64> = numbers("backoff_number").into_values().collect();
    let none = backoff::reason(u32::MAX);
    let mut sentences: Vec<&str> = numbers.iter().map(|&number| backoff::reason(number as u32)).collect();
    assert!(!sentences.contains(&none));
    sentences.sort();
    sentences.dedup();
    assert_eq!(sentences.len(), numbers.len());
    let last = numbers.iter().max().unwrap();
    assert_eq!((numbers.len() as i64, backoff::reason(*last as u32 + 1)), (last + 1, none));
}
