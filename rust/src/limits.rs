//! The sizes and limits of `include/backoff.h`, under the names that they have there.

/// The numbers of a row.
pub const ROW_ITEMS: usize = 8;
/// The numbers of a state.
pub const STATE_LENGTH: usize = 9;
/// The most words of a row.
pub const ORDER_LIMIT: usize = 5;
/// The most rows of a list.
pub const ROW_LIMIT: usize = 65_535;
/// The largest word.
pub const WORD_LIMIT: usize = 65_535;
/// The most words of a run, and the most words and sentences of a batch.
pub const RUN_LIMIT: usize = 65_535;
/// The most slots of an array.
pub const SLOT_LIMIT: usize = 1_048_576;
/// The bytes of a word's record in a store: its text's length, then the text.
pub const RECORD_BYTES: usize = 64;
/// The most bytes of a word's text.
pub const TEXT_LIMIT: usize = 63;
/// The least log-probability of a row.
pub const LEAST_PROBABILITY: i32 = -99_000_000;
/// The least back-off of a row.
pub const LEAST_BACKOFF: i32 = -99_000_000;
/// The largest back-off of a row.
pub const LARGEST_BACKOFF: i32 = 99_000_000;
/// The points of a base-10 logarithm of 1.
pub const POINTS_PER_LOG: i32 = 1_000_000;
/// `check[0]` of an array is its order and this.
pub const ORDER_HEAD: i32 = 24;
/// The most words of a listed sentence.
pub const SENTENCE_LIMIT: usize = 4;
/// The most words of which listed sentences are made.
pub const USABLE_LIMIT: usize = 16;
/// The most sentences of a listing.
pub const LISTING_LIMIT: usize = 65_536;
/// The word that stands for every word without a row of one word.
pub const UNKNOWN_WORD: u32 = 1;
/// `<s>`, after which a sentence begins.
pub const START_WORD: u32 = 2;
/// `</s>`, which ends a sentence.
pub const END_WORD: u32 = 3;
/// Added to the length byte of an unknown word.
pub const UNKNOWN_LENGTH: u8 = 8;
/// Added to a length byte where some row puts a further word in front of the matched row.
pub const EXTENDED_LENGTH: u8 = 16;
