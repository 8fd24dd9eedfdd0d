//! Safe calls of the proved back-off scorer, one for each function of `include/backoff.h`, which has the list's form, the numbers of the
//! refusals and the limits; and two functions over the texts that reading an ARPA file leaves; the refusals in words; the [`limits`] and the refusals' [`number`]s. Slices may have any lengths and hold any numbers: a call that does not accept them says so by a number and a place.
//! No call allocates, panics or keeps anything; an array may be shared by threads while nobody writes it.
//!
//! The archive that is linked is `target/staticlib/libgrader.a` of the repository, which `./setup archive` makes. Where the archive lies elsewhere, set the environment
//! variable `BACKOFF_LIB_DIR` to the folder that has `libgrader.a` or `libbackoff.a`, from the folder where cargo is called: `BACKOFF_LIB_DIR=/usr/local/lib cargo build`.
//!
//! ```
//! // m, five words oldest first (unused ones 0), log-probability, back-off. Word 1 is the unknown word, 2 is <s>, 3 is </s>.
//! let list = [
//!     [1, 1, 0, 0, 0, 0, -20_000, 0],
//!     [1, 2, 0, 0, 0, 0, -990_000, -3_000],
//!     [1, 3, 0, 0, 0, 0, -10_000, 0],
//!     [1, 4, 0, 0, 0, 0, -6_000, -2_000],
//!     [2, 2, 4, 0, 0, 0, -4_000, 0],
//! ];
//! let table = list.as_flattened();
//! let (mut base, mut check, mut work) = ([0; 64], [0; 64], [0; 5]);
//! assert_eq!(backoff::build(table, &mut base, &mut check, &mut work).number, 0);
//!
//! let found = backoff::lookup(&base, &check, &[2, 4]);
//! assert_eq!((found.number, found.found, found.p, found.b, found.left), (0, 1, -4_000, 0, 0));
//! // Row 2 4 puts a word in front of 4.
//! assert_eq!(backoff::lookup(&base, &check, &[4]).left, 1);
//!
//! // Two runs, the second from the state that the first left. Word 9 is not listed: plus 8. The second 4 is scored by its row of one word: plus 16.
//! let mut state = [0; 9];
//! assert_eq!(backoff::start(&base, &check, &mut state).number, 0);
//! let (mut points, mut lengths) = ([0; 2], [0; 2]);
//! let first = backoff::run(&base, &check, &mut state, &[4, 9], &mut points, &mut lengths);
//! assert_eq!((first.number, first.total), (0, -26_000));
//! assert_eq!((points, lengths), ([-4_000, -22_000], [2, 1 + 8]));
//! let last = backoff::run(&base, &check, &mut state, &[4, 3], &mut points, &mut lengths);
//! assert_eq!((last.number, last.total), (0, -18_000));
//! assert_eq!((points, lengths), ([-6_000, -12_000], [1 + 16, 1]));
//!
//! // Behind the 3 the state is start's again.
//! let mut begin = [0; 9];
//! assert_eq!(backoff::start(&base, &check, &mut begin).number, 0);
//! assert_eq!(state, begin);
//!
//! // The same total from the list alone.
//! let (mut points, mut lengths) = ([0; 4], [0; 4]);
//! let plain = backoff::plain(table, true, &[4, 9, 4, 3], &mut points, &mut lengths);
//! assert_eq!((plain.number, plain.total), (0, first.total + last.total));
//! assert_eq!(lengths, [2, 1 + 8, 1 + 16, 1]);
//!
//! // The list comes back row for row.
//! let (mut rows, mut slots) = ([0; 40], [0; 5]);
//! assert_eq!(backoff::unload(&base, &check, &mut rows, &mut slots).number, 0);
//! assert_eq!((&rows[..], slots), (table, work));
//!
//! // Row 5 with a p above 0.
//! rows[8 * 4 + 6] = 1;
//! assert_eq!(backoff::check(&rows), backoff::Status { number: 5, place: 5 });
//! ```

pub mod limits;
pub mod number;
mod reason;

pub use reason::reason;

use limits::RECORD_BYTES;

/// Number and place of a refusal; both are 0 where the call accepts.
#[repr(C)]
#[derive(Clone, Copy, Debug, PartialEq, Eq)]
pub struct Status {
    pub number: u32,
    pub place: u32,
}

/// The answer of a lookup: `found` is 1 or 0; p and b are those of the row; `left` is 1 where some row puts a further word in front of this row, else
/// 0. Where `found` is 0, p, b and `left` are 0.
#[repr(C)]
#[derive(Clone, Copy, Debug, PartialEq, Eq)]
pub struct Found {
    pub number: u32,
    pub place: u32,
    pub found: u32,
    pub p: i32,
    pub b: i32,
    pub left: u32,
}

/// The answer of a run or of plain scoring: `total` is the sum of the words' points, and 0 where the call refuses.
#[repr(C)]
#[derive(Clone, Copy, Debug, PartialEq, Eq)]
pub struct Total {
    pub number: u32,
    pub place: u32,
    pub total: i64,
}

/// The answer of reading an ARPA text or of filling a list: `rows` is the number of rows, and 0 where the call refuses. Reading, the place is the line for 15, 17, 18
/// and 19, the row in list order for 3 to 8, and 0 for 1 and 9; filling, it is the row of the lent list for 3 to 8, and 0 for 1, 9 and 15.
#[repr(C)]
#[derive(Clone, Copy, Debug, PartialEq, Eq)]
pub struct Rows {
    pub number: u32,
    pub rows: u32,
    pub place: u64,
}

/// The answer of a batch: the sentences, their words and unknown words (the closing 3s in neither), the total of all points, those of the closing 3s too,
/// and how many scored words, closing 3s too, had each matched length: `matched[0]` the length 1, and so on. The counts add up to words plus sentences. A refused
/// sheet has a number and a place, the sentence for 20 and 12, and zeros.
#[repr(C)]
#[derive(Clone, Copy, Debug, PartialEq, Eq)]
pub struct Sheet {
    pub number: u32,
    pub sentences: u32,
    pub place: u64,
    pub total: i64,
    pub words: u32,
    pub unknown: u32,
    pub matched: [u32; 5],
}

/// The answer of a listing: `sentences` is how many sentences are listed, and 0 where the call refuses.
#[repr(C)]
#[derive(Clone, Copy, Debug, PartialEq, Eq)]
pub struct Listing {
    pub number: u32,
    pub place: u32,
    pub sentences: u32,
}

/// The answer of the largest move: the distance of two totals, and the numbers of the two sentences in the listing, from 1. All three are 0 where no pair is named, and where the call
/// refuses.
#[repr(C)]
#[derive(Clone, Copy, Debug, PartialEq, Eq)]
pub struct Move {
    pub number: u32,
    pub place: u32,
    pub distance: i64,
    pub first: u32,
    pub second: u32,
}

/// Some words of a reading, scored without left context: their total, how many they are, how many first words are kept (the smaller of n − 1 and `count`), these
/// words as they were given (unused ones 0), and the state after all words.
///
/// ```
/// use backoff::Fragment;
/// # let list = [
/// #     [1, 1, 0, 0, 0, 0, -20_000, 0],
/// #     [1, 2, 0, 0, 0, 0, -990_000, -3_000],
/// #     [1, 3, 0, 0, 0, 0, -10_000, 0],
/// #     [1, 4, 0, 0, 0, 0, -6_000, -2_000],
/// #     [2, 2, 4, 0, 0, 0, -4_000, 0],
/// # ];
/// # let (mut base, mut check, mut work) = ([0; 64], [0; 64], [0; 5]);
/// # assert_eq!(backoff::build(list.as_flattened(), &mut base, &mut check, &mut work).number, 0);
/// // The middle first, then what stands after it, then what stands before it.
/// let middle = Fragment::score(&base, &check, &[9, 4])?;
/// let end = Fragment::score(&base, &check, &[3])?;
/// let later = middle.join(end, &base, &check)?;
/// let whole = Fragment::score(&base, &check, &[4])?.join(later, &base, &check)?;
/// assert_eq!(whole, Fragment::score(&base, &check, &[4, 9, 4, 3])?);
///
/// // After the state of start it is a run's total.
/// let mut begin = Fragment::EMPTY;
/// assert_eq!(backoff::start(&base, &check, &mut begin.state).number, 0);
/// assert_eq!(begin.join(whole, &base, &check)?.total, -44_000);
/// # Ok::<(), backoff::Status>(())
/// ```
#[repr(C)]
#[derive(Clone, Copy, Debug, Default, PartialEq, Eq)]
pub struct Fragment {
    pub total: i64,
    pub count: u32,
    pub kept: u32,
    pub first: [u32; 4],
    pub state: [i32; 9],
}

/// The answer of scoring a fragment or of a join: the empty fragment where the call refuses.
#[repr(C)]
#[derive(Clone, Copy, Debug, PartialEq, Eq)]
pub struct Joined {
    pub number: u32,
    pub place: u32,
    pub fragment: Fragment,
}

mod raw {
    use super::{Found, Fragment, Joined, Listing, Move, Rows, Sheet, Status, Total};

    // A slice crosses as a pointer and a length.
    #[rustfmt::skip]
    extern "C" {
        pub fn backoff_check(table: *const i32, table_len: usize) -> Status;
        pub fn backoff_build(
            table: *const i32, table_len: usize, base: *mut i32, base_len: usize, check: *mut i32, check_len: usize,
            work: *mut u32, work_len: usize,
        ) -> Status;
        pub fn backoff_lookup(
            base: *const i32, base_len: usize, check: *const i32, check_len: usize,
            words: *const u32, words_len: usize,
        ) -> Found;
        pub fn backoff_start(
            base: *const i32, base_len: usize, check: *const i32, check_len: usize, state: *mut i32, state_len: usize,
        ) -> Status;
        pub fn backoff_run(
            base: *const i32, base_len: usize, check: *const i32, check_len: usize, state: *mut i32, state_len: usize,
            words: *const u32, words_len: usize, points: *mut i32, points_len: usize,
            lengths: *mut u8, lengths_len: usize,
        ) -> Total;
        pub fn backoff_plain(
            table: *const i32, table_len: usize, after_start: bool, words: *const u32, words_len: usize,
            points: *mut i32, points_len: usize, lengths: *mut u8, lengths_len: usize,
        ) -> Total;
        pub fn backoff_unload(
            base: *const i32, base_len: usize, check: *const i32, check_len: usize, table: *mut i32, table_len: usize,
            work: *mut u32, work_len: usize,
        ) -> Status;
        pub fn backoff_batch(
            base: *const i32, base_len: usize, check: *const i32, check_len: usize,
            words: *const u32, words_len: usize, ends: *const u32, ends_len: usize,
            points: *mut i32, points_len: usize, lengths: *mut u8, lengths_len: usize,
        ) -> Sheet;
        pub fn backoff_sentences(
            base: *const i32, base_len: usize, check: *const i32, check_len: usize, k: u32,
            words: *mut u32, words_len: usize, totals: *mut i64, totals_len: usize,
        ) -> Listing;
        pub fn backoff_largest_move(
            base: *const i32, base_len: usize, check: *const i32, check_len: usize, k: u32,
            words: *mut u32, words_len: usize, totals: *mut i64, totals_len: usize,
        ) -> Move;
        pub fn backoff_score_fragment(
            base: *const i32, base_len: usize, check: *const i32, check_len: usize,
            words: *const u32, words_len: usize,
        ) -> Joined;
        pub fn backoff_join_fragments(
            base: *const i32, base_len: usize, check: *const i32, check_len: usize, one: Fragment, two: Fragment,
        ) -> Joined;
        pub fn backoff_arpa(
            text: *const u8, text_len: usize, to_be_filled: bool, table: *mut i32, table_len: usize,
            store: *mut u8, store_len: usize,
        ) -> Rows;
        pub fn backoff_fill(table: *const i32, table_len: usize, filled: *mut i32, filled_len: usize) -> Rows;
    }
}

// SAFETY of every call below: each pointer and its length are those of a slice that is lent for the call.

/// Checks a list: eight numbers to a row.
///
/// Refusals: 1; then row by row 3 to 8; then 9.
pub fn check(table: &[i32]) -> Status {
    unsafe { raw::backoff_check(table.as_ptr(), table.len()) }
}

/// Fills `base` and `check`, which have one length, with the double array of a list, and `work` with the slots of the rows' nodes.
///
/// Refusals: 1; 2; then row by row 3 to 8; then 9; 10. After 1 to 9 the slices are untouched. After 10, too few slots, every slot is free (`base` 0,
/// `check` [`i32::MIN`]) and `work` is 0 for each row. `work` is always untouched past the rows.
pub fn build(table: &[i32], base: &mut [i32], check: &mut [i32], work: &mut [u32]) -> Status {
    unsafe {
        raw::backoff_build(
            table.as_ptr(),
            table.len(),
            base.as_mut_ptr(),
            base.len(),
            check.as_mut_ptr(),
            check.len(),
            work.as_mut_ptr(),
            work.len(),
        )
    }
}

/// Looks up 1 to 5 words, oldest first. No word is replaced by 1; more words than the order are not found. Over an array that [`build`] did not write,
/// `left` is what the marker of the row says, and 0 for a row of as many words as the order, which has no marker.
///
/// Refusals: 11; 14; 12. An array that an older build wrote, with another number than the order and [`limits::ORDER_HEAD`] in `check[0]`, gives 11: build it
/// anew.
pub fn lookup(base: &[i32], check: &[i32], words: &[u32]) -> Found {
    unsafe { raw::backoff_lookup(base.as_ptr(), base.len(), check.as_ptr(), check.len(), words.as_ptr(), words.len()) }
}

/// Writes the state after `<s>` to a slice of nine numbers. The state of no context is nine zeros and needs no call.
///
/// Refusals: 16 for another length, and `state` is untouched; 11; 12. After 11 and 12 it is nine zeros.
pub fn start(base: &[i32], check: &[i32], state: &mut [i32]) -> Status {
    unsafe { raw::backoff_start(base.as_ptr(), base.len(), check.as_ptr(), check.len(), state.as_mut_ptr(), state.len()) }
}

/// Scores words from a state and leaves the state after them in its place; `points` and `lengths` have at least one item for each word. A
/// length byte is the number of words in the row whose p was used (`byte & 7`), plus 8 if the word was scored as the unknown word (`byte & 8`), plus 16 if
/// some row puts a further word in front of that row (`byte & 16`), as `left` of [`lookup`] says. Behind a word given as 3 the state is what [`start`]
/// gives, so that many sentences, each closed with a 3, may go through one run.
///
/// Refusals: 16 for a length other than nine; 11; 16 for the numbers of the state; 14; 15; 12, whose place is the word, from 1. A refused run leaves
/// `state` as it was. Where [`start`] gives 12, a run gives it at its first 3. After 12 `points` and `lengths` are 0 for each word; after the others they are untouched. They are always untouched past the words.
pub fn run(base: &[i32], check: &[i32], state: &mut [i32], words: &[u32], points: &mut [i32], lengths: &mut [u8]) -> Total {
    unsafe {
        raw::backoff_run(
            base.as_ptr(),
            base.len(),
            check.as_ptr(),
            check.len(),
            state.as_mut_ptr(),
            state.len(),
            words.as_ptr(),
            words.len(),
            points.as_mut_ptr(),
            points.len(),
            lengths.as_mut_ptr(),
            lengths.len(),
        )
    }
}

/// Scores the sentences of a sheet. All their words lie in `words`, and item i of `ends` is the number of words up to the end of sentence i; words after the last
/// end belong to none. Each sentence is scored from `<s>` and closed with a 3, which has no place in the slices. `points` and `lengths` have at least one
/// item for each word up to the last end. Parts of a sheet are independent: see `examples/batch.c`.
///
/// Refusals: 11; 20, at the first sentence whose end is below the one before it or past the words; 14, where `words` or `ends` has more than 65,535 items; 15; 12,
/// whose place is the sentence, from 1. After 12 `points` and `lengths` are 0 up to the last end; after the others they are untouched. They are always
/// untouched past the last end.
///
/// ```
/// # let list = [
/// #     [1, 1, 0, 0, 0, 0, -20_000, 0],
/// #     [1, 2, 0, 0, 0, 0, -990_000, -3_000],
/// #     [1, 3, 0, 0, 0, 0, -10_000, 0],
/// #     [1, 4, 0, 0, 0, 0, -6_000, -2_000],
/// #     [2, 2, 4, 0, 0, 0, -4_000, 0],
/// # ];
/// # let (mut base, mut check, mut work) = ([0; 64], [0; 64], [0; 5]);
/// # assert_eq!(backoff::build(list.as_flattened(), &mut base, &mut check, &mut work).number, 0);
/// // Three sentences: `4 9`, an empty one, and `4`. Word 9 is not listed.
/// let (mut points, mut lengths) = ([0; 3], [0; 3]);
/// let sheet = backoff::batch(&base, &check, &[4, 9, 4], &[2, 2, 3], &mut points, &mut lengths);
/// assert_eq!((sheet.number, sheet.sentences, sheet.words, sheet.unknown), (0, 3, 3, 1));
/// assert_eq!((points, lengths), ([-4_000, -22_000, -4_000], [2, 1 + 8, 2]));
/// // The closing 3s: -10,000 after 9, -13,000 after `<s>`, -12,000 after 4.
/// assert_eq!((sheet.total, sheet.matched), (-65_000, [4, 2, 0, 0, 0]));
/// ```
pub fn batch(base: &[i32], check: &[i32], words: &[u32], ends: &[u32], points: &mut [i32], lengths: &mut [u8]) -> Sheet {
    unsafe {
        raw::backoff_batch(
            base.as_ptr(),
            base.len(),
            check.as_ptr(),
            check.len(),
            words.as_ptr(),
            words.len(),
            ends.as_ptr(),
            ends.len(),
            points.as_mut_ptr(),
            points.len(),
            lengths.as_mut_ptr(),
            lengths.len(),
        )
    }
}

/// A call that lists the sentences of k words over an array.
type List<A> = unsafe extern "C" fn(*const i32, usize, *const i32, usize, u32, *mut u32, usize, *mut i64, usize) -> A;

fn list<A>(call: List<A>, base: &[i32], check: &[i32], k: u32, words: &mut [u32], totals: &mut [i64]) -> A {
    unsafe {
        call(base.as_ptr(), base.len(), check.as_ptr(), check.len(), k, words.as_mut_ptr(), words.len(), totals.as_mut_ptr(), totals.len())
    }
}

/// Lists every sentence of `k` words, 1 to 4, with its total, for which it is scored from `<s>` and closed with a 3. Sentences are made of the usable words: those that have a
/// row of one word, other than 2 and 3; word 1 is one of them. v usable words, 16 at most, make v<sup>k</sup> sentences; each is listed once, in ascending order, the first word
/// weighing most. `words` has at least k items for each sentence, `totals` at least one; for any array `k` times [`limits::LISTING_LIMIT`] and
/// [`limits::LISTING_LIMIT`] items are enough.
///
/// Refusals: 11; 22, where `k` is outside 1 to 4 or more than 16 words are usable; 15; 12, whose place is 0. After 12 `words` and `totals` are 0 where the listing would stand; after
/// the others they are untouched. They are always untouched past the listing.
///
/// ```
/// # let list = [
/// #     [1, 1, 0, 0, 0, 0, -20_000, 0],
/// #     [1, 2, 0, 0, 0, 0, -990_000, -3_000],
/// #     [1, 3, 0, 0, 0, 0, -10_000, 0],
/// #     [1, 4, 0, 0, 0, 0, -6_000, -2_000],
/// #     [2, 2, 4, 0, 0, 0, -4_000, 0],
/// # ];
/// # let (mut base, mut check, mut work) = ([0; 64], [0; 64], [0; 5]);
/// # assert_eq!(backoff::build(list.as_flattened(), &mut base, &mut check, &mut work).number, 0);
/// // Words 1 and 4 are usable.
/// let (mut words, mut totals) = ([0; 8], [0; 4]);
/// assert_eq!(backoff::sentences(&base, &check, 2, &mut words, &mut totals).sentences, 4);
/// assert_eq!(words.as_chunks::<2>().0, [[1, 1], [1, 4], [4, 1], [4, 4]]);
/// assert_eq!(totals, [-53_000, -41_000, -36_000, -24_000]);
/// ```
pub fn sentences(base: &[i32], check: &[i32], k: u32, words: &mut [u32], totals: &mut [i64]) -> Listing {
    list(raw::backoff_sentences, base, check, k, words, totals)
}

/// Lists the sentences of `k` words as [`sentences`] does, and finds how far one word can move a total: the largest distance between the totals of two of them that differ at one
/// place, and the pair that reaches it. Of several pairs it is the one whose first sentence, then second, is the earliest in the listing; where all totals are equal, that is 1 and 2.
/// Fewer than two usable words make no pair: the distance is 0 and both numbers are 0. Over the array of a list of order n the distance is at most n × (2 × n − 1) ×
/// [`limits::LARGEST_BACKOFF`].
///
/// Refusals, and what `words` and `totals` hold after each answer, are those of [`sentences`].
///
/// ```
/// # let list = [
/// #     [1, 1, 0, 0, 0, 0, -20_000, 0],
/// #     [1, 2, 0, 0, 0, 0, -990_000, -3_000],
/// #     [1, 3, 0, 0, 0, 0, -10_000, 0],
/// #     [1, 4, 0, 0, 0, 0, -6_000, -2_000],
/// #     [2, 2, 4, 0, 0, 0, -4_000, 0],
/// # ];
/// # let (mut base, mut check, mut work) = ([0; 64], [0; 64], [0; 5]);
/// # assert_eq!(backoff::build(list.as_flattened(), &mut base, &mut check, &mut work).number, 0);
/// // The sentences are 1 1, 1 4, 4 1 and 4 4. Between 1 1 and 4 1 the first word differs.
/// let (mut words, mut totals) = ([0; 8], [0; 4]);
/// let answer = backoff::largest_move(&base, &check, 2, &mut words, &mut totals);
/// assert_eq!((answer.distance, answer.first, answer.second), (17_000, 1, 3));
/// assert_eq!(totals, [-53_000, -41_000, -36_000, -24_000]);
/// ```
pub fn largest_move(base: &[i32], check: &[i32], k: u32, words: &mut [u32], totals: &mut [i64]) -> Move {
    list(raw::backoff_largest_move, base, check, k, words, totals)
}

/// Scores words without left context: total and state are those of a run from nine zeros. It writes nothing.
///
/// Refusals: 11; 14; 12, whose place is the word, from 1. [`Fragment::score`] is the same as a `Result`.
pub fn score_fragment(base: &[i32], check: &[i32], words: &[u32]) -> Joined {
    unsafe { raw::backoff_score_fragment(base.as_ptr(), base.len(), check.as_ptr(), check.len(), words.as_ptr(), words.len()) }
}

/// Joins two neighbours. Over the array of a list it is the fragment of the words of both, however they were joined before. For any fragments the total is both
/// totals, less the points of the second's kept words from nothing, plus their points after the first's state; the state is the second's if that has n − 1 words or
/// more, else what those points left.
///
/// Refusals: 11; 21 with 1 or 2, where the first or second keeps another number of words than the smaller of n − 1 and its count, has a state that 16 refuses, or a
/// total further from 0 than its count times n times 99,000,000; 14, where they have more than 65,535 words together; 12 with 0. [`Fragment::join`] is the
/// same as a `Result`.
pub fn join_fragments(base: &[i32], check: &[i32], one: Fragment, two: Fragment) -> Joined {
    unsafe { raw::backoff_join_fragments(base.as_ptr(), base.len(), check.as_ptr(), check.len(), one, two) }
}

impl Joined {
    fn accepted(self) -> Result<Fragment, Status> {
        match self.number {
            0 => Ok(self.fragment),
            number => Err(Status { number, place: self.place }),
        }
    }
}

impl Fragment {
    /// No words and no context; with another state, what stands before a reading.
    pub const EMPTY: Fragment = Fragment { total: 0, count: 0, kept: 0, first: [0; 4], state: [0; 9] };

    /// [`score_fragment`].
    pub fn score(base: &[i32], check: &[i32], words: &[u32]) -> Result<Fragment, Status> {
        score_fragment(base, check, words).accepted()
    }

    /// This fragment, followed by the next: [`join_fragments`].
    pub fn join(self, next: Fragment, base: &[i32], check: &[i32]) -> Result<Fragment, Status> {
        join_fragments(base, check, self, next).accepted()
    }
}

/// Scores words from the list alone, after `<s>` or with no context: points, length bytes and total are those of a run over the list's array; a 3 ends a
/// sentence here too.
///
/// Refusals: 1; then row by row 3 to 8; then 9; 14; 15. They leave `points` and `lengths` untouched.
pub fn plain(table: &[i32], after_start: bool, words: &[u32], points: &mut [i32], lengths: &mut [u8]) -> Total {
    unsafe {
        raw::backoff_plain(
            table.as_ptr(),
            table.len(),
            after_start,
            words.as_ptr(),
            words.len(),
            points.as_mut_ptr(),
            points.len(),
            lengths.as_mut_ptr(),
            lengths.len(),
        )
    }
}

/// Gives the list of an array back, row for row, and in `work` the slots of the rows' nodes; `base[1]` is the number of rows.
///
/// Refusals: 11; 15, where `table` has fewer than eight items or `work` fewer than one for each row; 12, where the array holds no accepted list, or a
/// marker tells wrongly whether some row goes on after its row or puts a word in front of it. After
/// 11 and 15 the slices are untouched, after 12 they are 0 for each row. They are always untouched past the rows.
pub fn unload(base: &[i32], check: &[i32], table: &mut [i32], work: &mut [u32]) -> Status {
    unsafe {
        raw::backoff_unload(
            base.as_ptr(),
            base.len(),
            check.as_ptr(),
            check.len(),
            table.as_mut_ptr(),
            table.len(),
            work.as_mut_ptr(),
            work.len(),
        )
    }
}

/// Reads an ARPA text, whose form `include/backoff.h` gives: `table` gets its rows in list order, `store` the texts of its words, 64 bytes to a word. For a
/// text of so many lines, `8 * lines` numbers and `64 * (lines + 4)` bytes are always enough.
///
/// Refusals: line by line 17, 18, 15, and 19 at the next heading or the end line; then, of the rows in list order, 1; row by row 3 to 8; then 9. They leave
/// `table` and `store` 0 throughout. Where the call accepts, all that holds no row and no text is 0. With `to_be_filled`, 8 is given as by [`fill`], so that a pruned
/// list may be read and filled; nothing is filled here.
///
/// ```
/// let text = b"\\data\\\nngram 1=4\nngram 2=1\n\n\\1-grams:\n-2\t<unk>\n-99\t<s>\t-0.3\n-1\t</s>\n-0.6\tgood\t-0.2\n\n\\2-grams:\n-0.4\t<s> good\n\n\\end\\\n";
/// let lines = text.iter().filter(|&&byte| byte == b'\n').count();
/// let (mut table, mut store) = (vec![0; 8 * lines], vec![0; 64 * (lines + 4)]);
/// let read = backoff::read_arpa(text, false, &mut table, &mut store);
/// assert_eq!(read, backoff::Rows { number: 0, rows: 5, place: 0 });
/// table.truncate(8 * read.rows as usize);
/// assert_eq!(table[8 * 3..8 * 4], [1, 4, 0, 0, 0, 0, -600_000, -200_000]);
/// assert_eq!(backoff::check(&table).number, 0);
///
/// // Word 4 is `good`; `bad` has no number.
/// assert_eq!(backoff::find_text(&store, b"good"), Some(4));
/// assert_eq!(backoff::find_text(&store, b"bad"), None);
/// assert_eq!(backoff::texts(&store).last(), Some((4, &b"good"[..])));
/// ```
pub fn read_arpa(text: &[u8], to_be_filled: bool, table: &mut [i32], store: &mut [u8]) -> Rows {
    unsafe { raw::backoff_arpa(text.as_ptr(), text.len(), to_be_filled, table.as_mut_ptr(), table.len(), store.as_mut_ptr(), store.len()) }
}

/// Fills a pruned list: `filled` gets the complete list, with each absent row of two or more words that is some row without its first words. An added row has b 0,
/// and as p the points that the lent list gives its last word after the words before it. So every word has the same points over both lists. A list that
/// lacks nothing comes back as it is.
///
/// Refusals: 1; row by row 3 to 8, where 8 is given for an absent row without the last word and for an absent one-word row alone; 9; 5 at the first row of the lent list that
/// needs a row whose p is out of range; 1, where the complete list has more than 65,535 rows; 15, where `filled` is too short for it. They write nothing. `filled` is
/// always untouched past the rows.
///
/// ```
/// // The row of words 4 5 is absent.
/// let list = [
///     [1, 1, 0, 0, 0, 0, -20_000, 0],
///     [1, 2, 0, 0, 0, 0, -990_000, -3_000],
///     [1, 3, 0, 0, 0, 0, -10_000, 0],
///     [1, 4, 0, 0, 0, 0, -6_000, -2_000],
///     [1, 5, 0, 0, 0, 0, -9_000, -1_000],
///     [2, 2, 4, 0, 0, 0, -4_000, -500],
///     [3, 2, 4, 5, 0, 0, -1_000, 0],
/// ];
/// let table = list.as_flattened();
/// assert_eq!(backoff::check(table), backoff::Status { number: 8, place: 7 });
/// let mut filled = [0; 8 * 8];
/// assert_eq!(backoff::fill(table, &mut filled).rows, 8);
/// // b of 4, then p of 5.
/// assert_eq!(filled[8 * 6..8 * 7], [2, 4, 5, 0, 0, 0, -2_000 - 9_000, 0]);
/// assert_eq!(backoff::check(&filled).number, 0);
/// ```
pub fn fill(table: &[i32], filled: &mut [i32]) -> Rows {
    unsafe { raw::backoff_fill(table.as_ptr(), table.len(), filled.as_mut_ptr(), filled.len()) }
}

/// The words of a store with their texts, by ascending number: what a map from texts to numbers is made of.
pub fn texts(store: &[u8]) -> impl Iterator<Item = (u32, &[u8])> {
    let (records, _) = store.as_chunks::<RECORD_BYTES>();
    (0..).zip(records).filter(|(_, record)| record[0] != 0).filter_map(|(word, record)| Some((word, record.get(1..=record[0] as usize)?)))
}

/// The number of the word that has this text in a store. It looks at one record after another; for many texts make a map of [`texts`].
pub fn find_text(store: &[u8], text: &[u8]) -> Option<u32> {
    texts(store).find(|&(_, other)| other == text).map(|(word, _)| word)
}
