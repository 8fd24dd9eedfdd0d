//! The numbers of refusals, under the names that they have in `include/backoff.h`, which says when each is given.

pub const ACCEPTED: u32 = 0;
pub const TABLE_LENGTH: u32 = 1;
pub const ARRAY_LENGTH: u32 = 2;
pub const ROW_LENGTH: u32 = 3;
pub const ROW_WORDS: u32 = 4;
pub const ROW_PROBABILITY: u32 = 5;
pub const ROW_BACKOFF: u32 = 6;
pub const ROW_ORDER: u32 = 7;
pub const SHORTER_ROW: u32 = 8;
pub const RESERVED_WORD: u32 = 9;
pub const NO_ROOM: u32 = 10;
pub const ARRAY_HEAD: u32 = 11;
pub const BROKEN_NODE: u32 = 12;
pub const TEXT_LINE: u32 = 13;
pub const WORD_COUNT: u32 = 14;
pub const SHORT_SLICE: u32 = 15;
pub const BAD_STATE: u32 = 16;
pub const ARPA_LINE: u32 = 17;
pub const ARPA_WORD: u32 = 18;
pub const ARPA_COUNT: u32 = 19;
pub const SENTENCE_ENDS: u32 = 20;
pub const BAD_FRAGMENT: u32 = 21;
pub const LISTING_SIZE: u32 = 22;
