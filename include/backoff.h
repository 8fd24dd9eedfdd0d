/* backoff.h: back-off scoring over a double array, for C99 and C++. To compile:
 * cc prog.c $(pkg-config --cflags --libs backoff). The rule that scores a word is in docs/back-off.md.
 *
 * Lists. A point is 1/1,000,000 of a base-10 logarithm. A list has eight numbers to a row: m, five words oldest first
 * (unused ones 0), log-probability p, back-off b. Words are 1 to 65,535: 1 is the unknown word, 2 is <s>, 3 is </s>.
 * Rows are numbered from 1. The order n is the m of the last row. Rows ascend strictly by m, then by last word, then by
 * the word before it, and so on. A row of two or more words needs the row without its first word and the row without
 * its last word.
 *
 * Slices. A slice is a pointer, then the number of its items (not of its bytes). The pointer is to that many items,
 * aligned for their type; a slice of no items is neither read nor written, and its pointer may be NULL. The caller lends
 * it until the call returns. A slice that the call writes must not overlap any other slice of the call. A const slice is
 * not written, and nothing outside the slices is read or written.
 *
 * Answers. Every call takes any numbers in slices of any lengths. Its answer has a number and a place: 0 and 0 where the
 * call accepts, else those of the first check that fails, in the order that stands at the call. "Untouched" means that
 * every item is as it was before the call; the call may have written the same number there, so the memory is writable.
 *
 * Ownership. The caller owns all memory. A call keeps no pointer, allocates nothing and has no memory of its own;
 * backoff_build and backoff_unload take 65 KiB of stack. The array is what base and check hold: plain numbers, which
 * may be copied and saved. It must stay unchanged while states over it are in use. A state is nine plain numbers, which
 * may be copied too. It belongs to the array that it came from, or a copy of it; check 16 does not notice a state of
 * another array. Two readings with equal states over one array get the same points whatever follows, so the one with
 * the lower total can be dropped.
 *
 * Arrays. Each row of a list has a node, which is reached from the root in slot 0 by the words of the row, newest first:
 * that is the walk. A node in slot s with base[s] = d has its marker in slot d, which holds p and b of the row, and its
 * child for word w in slot d + w or in slot d - w, where check is s. A build lays all children of a node on one side of d.
 * A walk looks at d + w first, then at d - w if that is at least 1. The longest rows, those of as many words as the order,
 * have no b, and no row is longer. So the node of such a row has no marker and no child: base of its own slot is p - 1, and
 * check is its parent, as everywhere. docs/double-array.svg is a picture of an array and a walk.
 *
 * Slots. base and check have the same length, the number of slots. A build takes two slots for the root and for each row,
 * but one for a longest row: 2 * (rows + 1) less the longest rows. A list needs at least so many, and at least its largest
 * word + 2; often it needs more, with free slots in between. What a build writes does not depend on how many slots it is
 * lent: the array in the fewest slots is the beginning of the array in more slots, and all slots after it are free. So one
 * build into BACKOFF_SLOT_LIMIT slots is enough: cut it after the last slot that is not free (backoff_array_fewest_slots),
 * and the part before the cut answers and unloads as the whole does. Words that are numbered without gaps usually need the
 * fewest slots. An accepted list may need more than BACKOFF_SLOT_LIMIT slots; then 10 is final for these word numbers.
 *
 * Saved arrays. Write the number of slots, base, check, and a checksum of them; each number as four bytes, lowest first,
 * so that every machine reads the file. After loading compare the checksum, then call backoff_unload. Its 0 proves that
 * the array holds an accepted list; only the checksum says that it is the list which you saved. check[0] says which
 * releases read the array: it is the order + 24 in all releases with this BACKOFF_VERSION_MAJOR. Every other number there
 * gives 11, also the order + 16 of version 3, the order + 40 of version 2, the order + 8 of version 1 and the order itself,
 * which arrays had before there were versions: build such an array anew from its list. The program's `backoff build` writes
 * such a file; docs/command-line.md has its form, and examples/saved.c follows it.
 *
 * Threads. Calls may run at the same time if no slice that one of them writes is lent to another. So threads may share
 * one array for lookups, starts, runs, batches, listings, fragments and unloading, each with its own slices to be
 * written. */
#ifndef BACKOFF_H
#define BACKOFF_H

#include <stdbool.h>
#include <stddef.h>
#include <stdint.h>

#ifdef __cplusplus
extern "C" {
#endif

/* The version. All releases with the same major number have the calls, structs and numbers that stand here, and read each
 * other's lists and arrays. A higher minor number means further calls or numbers. Where a call or a struct changes, a
 * point becomes another part of a logarithm, or arrays get another head (check[0]), the major number changes. */
#define BACKOFF_VERSION_MAJOR 4
#define BACKOFF_VERSION_MINOR 1
#define BACKOFF_VERSION_PATCH 0

/* The numbers of refusals. The place is the row for 3 to 8, the word (from 1) for 12 in a run or a fragment, the
 * sentence (from 1) for 20 and for 12 in a batch, 1 or 2 for the first or second fragment for 21, the line (from 1) for
 * 17 to 19 and, where an ARPA text is read, for 15; otherwise it is 0. */
enum backoff_number {
    BACKOFF_ACCEPTED = 0,
    BACKOFF_TABLE_LENGTH = 1,    /* the table has no items, a number of items that 8 does not divide, or more than
                                    65,535 rows; filling: the complete list has more than 65,535 rows */
    BACKOFF_ARRAY_LENGTH = 2,    /* base and check differ in length, have fewer than 2 or more than 1,048,576 slots,
                                    or work is shorter than the rows */
    BACKOFF_ROW_LENGTH = 3,      /* m is outside 1..5 */
    BACKOFF_ROW_WORDS = 4,       /* a used word is outside 1..65,535, or an unused one is not 0 */
    BACKOFF_ROW_PROBABILITY = 5, /* p is outside -99,000,000..0; filling: that of a row that this row needs */
    BACKOFF_ROW_BACKOFF = 6,     /* b is outside -99,000,000..99,000,000, or not 0 where m is the order */
    BACKOFF_ROW_ORDER = 7,       /* the row does not come after the row before it */
    BACKOFF_SHORTER_ROW = 8,     /* the row without its first or without its last word is missing; where filling follows:
                                    the row without its last word, or the row of its last word alone */
    BACKOFF_RESERVED_WORD = 9,   /* word 1, 2 or 3 has no row of one word */
    BACKOFF_NO_ROOM = 10,        /* the array of the list needs more slots than base and check have */
    BACKOFF_ARRAY_HEAD = 11,     /* base and check have lengths that 2 refuses, or slots 0 and 1 are not as a build writes
                                    them: see "Saved arrays" above */
    BACKOFF_BROKEN_NODE = 12,    /* a node on the walk has no p and b in range, or there is no word 1 where a word is
                                    replaced by it; unload: the array holds no accepted list, or a marker's e or f
                                    (at backoff_build) is wrong */
    BACKOFF_TEXT_LINE = 13,      /* a text line is not in form; only the totals program gives this */
    BACKOFF_WORD_COUNT = 14,     /* a lookup has no or more than 5 words; a run, a fragment or a join has more than
                                    65,535; a batch has more than 65,535 words or sentences */
    BACKOFF_SHORT_SLICE = 15,    /* a slice to be written is too short */
    BACKOFF_BAD_STATE = 16,      /* the length of the state is not 9, its count is outside 0..n-1, an unused number is
                                    not 0, a word is outside 1..65,535, or a back-off is out of range */
    BACKOFF_ARPA_LINE = 17,      /* a line of an ARPA text is not in form, or a line is missing at its end */
    BACKOFF_ARPA_WORD = 18,      /* a word of an ARPA text has no line among the rows of one word */
    BACKOFF_ARPA_COUNT = 19,     /* a section of an ARPA text has more or fewer lines than its count says */
    BACKOFF_SENTENCE_ENDS = 20,  /* the end of a sentence of a batch is below the one before it, or past the words */
    BACKOFF_BAD_FRAGMENT = 21,   /* kept is not the smaller of n-1 and count, the state is one that 16 refuses, or total is
                                    further from 0 than count * n * 99,000,000 */
    BACKOFF_LISTING_SIZE = 22    /* the k of a listing is outside 1..4, or more than 16 words are usable */
};

/* Sizes and limits. */
enum backoff_limit {
    BACKOFF_ROW_ITEMS = 8,        /* the numbers of a row */
    BACKOFF_STATE_LENGTH = 9,     /* the numbers of a state */
    BACKOFF_ORDER_LIMIT = 5,      /* the most words of a row or a lookup */
    BACKOFF_ROW_LIMIT = 65535,    /* the most rows of a list */
    BACKOFF_WORD_LIMIT = 65535,   /* the largest word */
    BACKOFF_RUN_LIMIT = 65535,    /* the most words of a run or a fragment, and the most words and sentences of a batch */
    BACKOFF_SLOT_LIMIT = 1048576, /* the most slots of an array */
    BACKOFF_RECORD_BYTES = 64,    /* the bytes of a word's record in a store of texts */
    BACKOFF_TEXT_LIMIT = 63,      /* the most bytes of a word's text */
    BACKOFF_LEAST_PROBABILITY = -99000000,
    BACKOFF_LEAST_BACKOFF = -99000000,
    BACKOFF_LARGEST_BACKOFF = 99000000,
    BACKOFF_POINTS_PER_LOG = 1000000, /* the points of a base-10 logarithm of 1 */
    BACKOFF_ORDER_HEAD = 24,          /* check[0] of an array is its order and this */
    BACKOFF_SENTENCE_LIMIT = 4,       /* the most words of a listed sentence */
    BACKOFF_USABLE_LIMIT = 16,        /* the most words of which listed sentences are made */
    BACKOFF_LISTING_LIMIT = 65536,    /* the most sentences of a listing */
    BACKOFF_UNKNOWN_WORD = 1,
    BACKOFF_START_WORD = 2,      /* <s> */
    BACKOFF_END_WORD = 3,        /* </s> */
    BACKOFF_UNKNOWN_LENGTH = 8,  /* added to the length byte of an unknown word */
    BACKOFF_EXTENDED_LENGTH = 16 /* added to a length byte where some row puts a further word in front of the matched row */
};

/* Number and place of a refusal; both are 0 where the call accepts. */
struct backoff_status {
    uint32_t number;
    uint32_t place;
};

/* The answer of a lookup: found is 1 or 0; p and b are those of the row; left is 1 if some row puts a further word in
 * front of this row, else 0. Where found is 0, p, b and left are 0. */
struct backoff_found {
    uint32_t number;
    uint32_t place;
    uint32_t found;
    int32_t p;
    int32_t b;
    uint32_t left;
};

/* The answer of a run or of plain scoring: total is the sum of the words' points, and 0 where the call refuses. */
struct backoff_total {
    uint32_t number;
    uint32_t place;
    int64_t total;
};

/* Checks a list.
 * Refusals: 1; then row by row 3, 4, 5, 6, 7, 8; then 9. */
struct backoff_status backoff_check(const int32_t *table, size_t table_len);

/* Fills base and check with the double array of a list, and work with the slots of the nodes of its rows. base and check
 * have the same length ("Slots" above says which); work has at least one item for each row.
 * Refusals: 1; 2; then row by row 3, 4, 5, 6, 7, 8; then 9; 10.
 * Accepted: every slot of base and check is written; work[i - 1] is the slot of row i, and work is untouched past the
 * rows. The marker of row i is in slot base[work[i - 1]]: its check is p - 1, its base is 4 * b + 2 * e + f, where e is 1
 * if some row puts a further word in front of row i, and f is 1 if some row is row i followed by one more word. A longest
 * row has no marker: base[work[i - 1]] is p - 1 itself. check[0] is the order + 24, base[1] the number of rows.
 * After 1 to 9: base, check and work are untouched.
 * After 10: every slot is free (base 0, check INT32_MIN); work is 0 for each row and untouched past the rows. */
struct backoff_status backoff_build(const int32_t *table, size_t table_len, int32_t *base, size_t base_len, int32_t *check,
                                    size_t check_len, uint32_t *work, size_t work_len);

/* Looks up 1 to 5 words, oldest first: found is 1 where they are a row. No word is replaced by 1. A word outside
 * 1..65,535, or more words than the order, are not found. left is 1 exactly if some row of the list is these words with
 * one more in front; over an array that backoff_build did not write, left is the e of the row's marker, and 0 for a longest
 * row.
 * Refusals: 11; 14; 12. */
struct backoff_found backoff_lookup(const int32_t *base, size_t base_len, const int32_t *check, size_t check_len,
                                    const uint32_t *words, size_t words_len);

/* Writes the state after <s>, with which a sentence begins; after a 3 a run goes on from it by itself. The state of no
 * context is nine zeros and needs no call. A state has count, four words newest first, and four back-offs (of the newest
 * word, of the newest two, ..); unused ones are 0. What stood in the slice before is not read. Every accepted list has
 * <s>. Over an array without a row for it, which no build wrote, <s> is replaced by 1 like any word: the state is the one
 * after word 1, and 12 where there is no word 1 either.
 * Refusals: 16, where state_len is not 9; 11; 12.
 * Accepted: state is the state after <s>.
 * After 16: state is untouched.
 * After 11 and 12: state is nine zeros. */
struct backoff_status backoff_start(const int32_t *base, size_t base_len, const int32_t *check, size_t check_len,
                                    int32_t *state, size_t state_len);

/* Scores words one after another from a state, and leaves the state after them in its place. A word without a row of one
 * word is scored as word 1, so is a word outside 1..65,535. A word given as 3 ends a sentence: it is scored after the
 * words before it, and after it the state is what backoff_start gives, so that the next word is scored after <s> alone.
 * So all sentences of a reading may go through one run, or through several, each sentence closed with a 3. points and
 * lengths have at least one item for each word. A length byte is the matched length, the number of words in the row
 * whose p was used, plus 8 if the word was scored as 1, plus 16 if some row puts a further word in front of that row;
 * over an array that backoff_build did not write, 16 is as the e of the row's marker says, and not added for a longest
 * row. So byte & 7 is the matched length, byte & BACKOFF_UNKNOWN_LENGTH is not 0 for an unknown word, a word given as 1
 * too, and byte & BACKOFF_EXTENDED_LENGTH is not 0 where the row can grow to the left. A run of no words is accepted; its
 * total is 0 and its state stays.
 * Refusals: 16, where state_len is not 9; 11; 16 for the numbers of the state; 14; 15; 12, at the word that met it. Where
 * backoff_start gives 12, it is met at the first 3, also where that is the last word.
 * Accepted: points and lengths have the answer of each word, and are untouched past the words; state is the state after
 * the words.
 * After 11, 14, 15 and 16: state, points and lengths are untouched.
 * After 12: state is untouched; points and lengths are 0 for each word of the run, and untouched past the words. */
struct backoff_total backoff_run(const int32_t *base, size_t base_len, const int32_t *check, size_t check_len,
                                 int32_t *state, size_t state_len, const uint32_t *words, size_t words_len, int32_t *points,
                                 size_t points_len, uint8_t *lengths, size_t lengths_len);

/* The answer of a batch, its sheet. words and unknown leave the closing 3s out; total has their points, and matched counts
 * them: matched[L - 1] is how many of the scored words had the matched length L. So the five counts add up to words +
 * sentences. All but number and place is 0 where the call refuses. The place may be the number of any sentence, so it has 64
 * bits. */
struct backoff_sheet {
    uint32_t number;
    uint32_t sentences;
    uint64_t place;
    int64_t total;
    uint32_t words;
    uint32_t unknown;
    uint32_t matched[5];
};

/* Scores many sentences, each from <s> and closed with a 3. The words of all sentences lie in words, one sentence after the
 * other; ends has, for each sentence, the number of words up to its end. Words after the last end belong to no sentence. A
 * sentence may have no words. Points and length bytes of each word are written at the word's own place, as a run over the
 * sentence from the state after <s> writes them; the closing 3 has no place there, but counts in the sheet. points and
 * lengths have at least one item for each word up to the last end. Parts of a sheet are independent: sentences i to j are
 * the sheet of words, points and lengths from the end before i to the end of j, and of their ends less that first end. The
 * fields of the sheets of all parts, added up, are those of the whole. So parts may be scored at the same time.
 * Refusals: 11; 20, at the first sentence whose end is below the one before it or past the words; 14, where words or ends
 * has more than 65,535 items; 15; 12, at the first sentence that met it, be it at its start, at a word or at its closing 3.
 * Accepted: points and lengths have the answers, and are untouched past the last end.
 * After 11, 14, 15 and 20: points and lengths are untouched.
 * After 12: points and lengths are 0 up to the last end, and untouched past it. */
struct backoff_sheet backoff_batch(const int32_t *base, size_t base_len, const int32_t *check, size_t check_len,
                                   const uint32_t *words, size_t words_len, const uint32_t *ends, size_t ends_len,
                                   int32_t *points, size_t points_len, uint8_t *lengths, size_t lengths_len);

/* The answer of a listing: sentences is how many sentences are listed, and 0 where the call refuses. */
struct backoff_listing {
    uint32_t number;
    uint32_t place;
    uint32_t sentences;
};

/* Lists every sentence of k words, k from 1 to 4, with its total. Sentences are made of the usable words: those that have a
 * row of one word, other than 2 and 3; word 1 is one of them. Over an array that backoff_build did not write, they are those
 * for which the root has a child. There may be 16 at most, and v usable words make v^k sentences. Each is listed once, in
 * ascending order, the first word weighing most: of the words 1, 4 and 5 the sentences of two words are 1 1, 1 4, 1 5, 4 1,
 * 4 4, 4 5, 5 1, 5 4, 5 5. Sentence i, from 1, has its words in words[k * (i - 1)] and the k - 1 items after it, and its
 * total in totals[i - 1]: the total of a run over its words and a 3, from the state after <s>. k * BACKOFF_LISTING_LIMIT
 * words and BACKOFF_LISTING_LIMIT totals are enough for any array. Where no word is usable, which no build leaves, there is
 * no sentence, and nothing is walked.
 * Refusals: 11; 22; 15, where words has fewer than k * v^k items or totals fewer than v^k; 12, where a sentence meets it.
 * Accepted: words and totals have the listing, and are untouched past it.
 * After 11, 15 and 22: words and totals are untouched.
 * After 12: words and totals are 0 where the listing would stand, and untouched past it. */
struct backoff_listing backoff_sentences(const int32_t *base, size_t base_len, const int32_t *check, size_t check_len,
                                         uint32_t k, uint32_t *words, size_t words_len, int64_t *totals, size_t totals_len);

/* The answer of the largest move: the distance of two totals, and the numbers of the two sentences in the listing, from 1.
 * All three are 0 where no pair is named, and where the call refuses. */
struct backoff_move {
    uint32_t number;
    uint32_t place;
    int64_t distance;
    uint32_t first;
    uint32_t second;
};

/* Lists the sentences of k words as backoff_sentences does, and finds how far one word can move a total: the largest
 * distance between the totals of two of them that differ at one place, exactly, and the pair that reaches it. first is the
 * smaller of the two numbers; sentence i has its words in words[k * (i - 1)] and the k - 1 items after it, its total in
 * totals[i - 1]. Of several pairs it is the one whose first sentence, then second, is the earliest in the listing. So where
 * all totals are equal, the distance is 0 and the pair is 1 and 2. Fewer than two usable words make no pair: then all three
 * are 0. Over the array of backoff_build the distance is at most n * (2 * n - 1) * 99,000,000, where n is the order.
 * Refusals, and what words and totals hold after each answer: as at backoff_sentences. */
struct backoff_move backoff_largest_move(const int32_t *base, size_t base_len, const int32_t *check, size_t check_len,
                                         uint32_t k, uint32_t *words, size_t words_len, int64_t *totals, size_t totals_len);

/* Some words of a reading, scored without left context: the total of their points, how many they are, how many first words
 * are kept (the smaller of n - 1 and count), these words as they were given, and the state after all words. Unused items of
 * first are 0; a join does not read them. Nine zeros, nothing kept, count 0 and total 0 are the empty fragment. A fragment
 * belongs to the array that it came from, or a copy of it. */
struct backoff_fragment {
    int64_t total;
    uint32_t count;
    uint32_t kept;
    uint32_t first[4];
    int32_t state[9];
};

/* The answer of scoring a fragment or of a join: the empty fragment where the call refuses. */
struct backoff_joined {
    uint32_t number;
    uint32_t place;
    struct backoff_fragment fragment;
};

/* Scores words without left context. Total and state are those of a run from nine zeros over these words. It writes nothing.
 * Refusals: 11; 14; 12, at the word that met it. */
struct backoff_joined backoff_score_fragment(const int32_t *base, size_t base_len, const int32_t *check, size_t check_len,
                                             const uint32_t *words, size_t words_len);

/* Joins two neighbours: the fragment of the words of one, followed by those of two. Over the array of backoff_build, and for
 * fragments that came from it, the answer is what backoff_score_fragment gives for all the words at once. So a reading may
 * be built from the middle outwards, in any order; every order gives the same fragment, where no scoring and no join was
 * refused. Joined after an empty fragment that has the state of backoff_start, a fragment gets the total and the state of a
 * run from there.
 * For any two fragments that pass 21, the total is both totals, less the points of two's kept words from nine zeros, plus
 * their points after one's state; the state is two's if two has n - 1 words or more, else what those points left. A join
 * without kept words in two walks nothing.
 * Refusals: 11; 21, with 1 or 2; 14, where both have more than 65,535 words together; 12, with 0. */
struct backoff_joined backoff_join_fragments(const int32_t *base, size_t base_len, const int32_t *check, size_t check_len,
                                             struct backoff_fragment one, struct backoff_fragment two);

/* Scores words from the list alone, after <s> or with no context: points, length bytes and total are those of a run over
 * the array of the list; a 3 ends a sentence here too. Each call checks the list again.
 * Refusals: 1; then row by row 3, 4, 5, 6, 7, 8; then 9; 14; 15.
 * Accepted: points and lengths have the answer of each word, and are untouched past the words.
 * Refused: points and lengths are untouched. */
struct backoff_total backoff_plain(const int32_t *table, size_t table_len, bool after_start, const uint32_t *words,
                                   size_t words_len, int32_t *points, size_t points_len, uint8_t *lengths,
                                   size_t lengths_len);

/* Gives the list of an array back, row for row, and the slots of the nodes of its rows. base[1] is the number of rows:
 * table has at least eight items, and work at least one, for each. 12 means that the rows that the array has, of up to as
 * many words as its order, are no accepted list of that order and number of rows, or that some marker's e or f is wrong.
 * Refusals: 11; 15; 12.
 * Accepted: table has the rows, work their slots; both are untouched past the rows.
 * After 11 and 15: table and work are untouched.
 * After 12: table and work are 0 for each row, and untouched past the rows. */
struct backoff_status backoff_unload(const int32_t *base, size_t base_len, const int32_t *check, size_t check_len,
                                     int32_t *table, size_t table_len, uint32_t *work, size_t work_len);

/* The answer of reading an ARPA text or of filling a list: rows is the number of rows, and 0 where the call refuses. The
 * place may be a line, so it has 64 bits. */
struct backoff_rows {
    uint32_t number;
    uint32_t rows;
    uint64_t place;
};

/* Reads an ARPA text: fills table with its rows in list order, and store with the texts of its words.
 *
 * The text has these lines, in this order; each ends with LF, and empty lines may stand anywhere.
 *   \data\            begins the counts
 *   ngram 1=COUNT     one such line for each length, from 1 upwards, five at most; one space may stand before = and one
 *                     after it; a count has one to nine digits
 *   \1-grams:         begins the rows of one word, which come in any order; such a section follows for each length
 *   \end\             ends the text
 * A row is p, a tab, as many words as its section says with one space between two, and, where it has one, a tab and b. A
 * missing b is 0. p and b are base-10 logarithms: a minus or none, one to three digits, and optionally a point with one to
 * seven digits; they are rounded to the nearest point, so to six decimals, a half away from zero. A word is 1 to 63 bytes,
 * all above the space.
 *
 * The words <unk>, <s> and </s> are 1, 2 and 3; the others count up from 4 as the one-word section brings them, and one
 * that comes again keeps its number. Record k of the store, the 64 bytes from 64 * k, is the length of the text of word k,
 * then the text; record 0 is unused. Rows of equal words stay as they came, so that the second of them gives 7.
 *
 * The first i rows need 8 * i items of table, word k needs 64 * (k + 1) bytes of store: for a text of so many lines,
 * 8 * lines items and 64 * (lines + 4) bytes are always enough.
 *
 * With to_be_filled, 8 is given as by backoff_fill, which is then to follow: a pruned list may lack a row without its first
 * word. Nothing is filled here.
 *
 * Refusals: line by line 17, 18, 15, and 19 at the next heading or the end line; then, of the rows in list order, 1; row by
 * row 3, 4, 5, 6, 7, 8; then 9. The place is the line for 15, 17, 18 and 19, the row in list order for 3 to 8, and 0 for 1
 * and 9. Where the text ends too early, 17 has the number of its lines + 1; what follows its last LF is a line not in form.
 * Accepted: table has the rows, store the records of the words; everything else in both is 0.
 * Refused: table and store are 0 throughout. */
struct backoff_rows backoff_arpa(const uint8_t *text, size_t text_len, bool to_be_filled, int32_t *table, size_t table_len,
                                 uint8_t *store, size_t store_len);

/* Fills a pruned list. Some estimators drop a row and keep one that is longer on the left. filled gets the complete
 * list, the rows of table among them: each absent row of two or more words that is some row of table without its first
 * words is added, and no other. An added row has b 0, and as p the points that the lent list gives its last word after
 * the words before it (a 3 among them ends nothing here). So every word has the same points after every history, over
 * the lent list and over the filled one; matched lengths may grow. The order stays. A list that lacks nothing comes back
 * as it is. The complete list has at most three more rows for each row of table; 65,535 rows are enough for any.
 * Refusals: 1; row by row 3, 4, 5, 6, 7, 8, where 8 is given for an absent row without the last word and for an absent
 * row of the last word alone; then 9; 5, at the first row of table that needs an added row whose p is out of range; 1,
 * where the complete list has more than 65,535 rows; 15, where filled is too short for it. The place is the row of table
 * for 3 to 8, else 0.
 * Accepted: filled has the complete list, and is untouched past its rows.
 * Refused: filled is untouched. */
struct backoff_rows backoff_fill(const int32_t *table, size_t table_len, int32_t *filled, size_t filled_len);

/* How many words a store has that backoff_arpa filled: they are 1 up to this number. Of other bytes it is the number of
 * records from 1 on that have a text, up to the first that has none. */
static inline uint32_t backoff_store_count(const uint8_t *store, size_t store_len) {
    size_t records = store_len / BACKOFF_RECORD_BYTES, word = 1;
    while (word < records && word <= BACKOFF_WORD_LIMIT && store[BACKOFF_RECORD_BYTES * word] != 0 &&
           store[BACKOFF_RECORD_BYTES * word] <= BACKOFF_TEXT_LIMIT)
        word++;
    return (uint32_t)(word - 1);
}

/* The number of the word that has this text in a store, and 0 where none has; every call scores 0 as an unknown word. It
 * looks at one record after another: for many texts make a map of your own. */
static inline uint32_t backoff_store_find(const uint8_t *store, size_t store_len, const uint8_t *text, size_t text_len) {
    uint32_t count = backoff_store_count(store, store_len);
    for (uint32_t word = 1; word <= count; word++) {
        const uint8_t *record = store + (size_t)BACKOFF_RECORD_BYTES * word;
        size_t same = 0;
        while (record[0] == text_len && same < text_len && record[1 + same] == text[same])
            same++;
        if (same > 0 && same == text_len)
            return word;
    }
    return 0;
}

/* Base and check in one struct, so that they cannot be swapped. Each backoff_array_ form is the call of that name over
 * array->base and array->check, both of array->slots items; all that stands at the call holds. This program
 *
 *     #include "backoff.h"
 *     #include <stdio.h>
 *
 *     static const int32_t list[] = {1, 1, 0, 0, 0, 0, -20000, 0, 1, 2, 0, 0, 0, 0, -990000, -3000,
 *                                    1, 3, 0, 0, 0, 0, -10000, 0, 1, 4, 0, 0, 0, 0, -6000, -2000,
 *                                    2, 2, 4, 0, 0, 0, -4000, 0};
 *     static int32_t base[BACKOFF_SLOT_LIMIT], check[BACKOFF_SLOT_LIMIT];
 *
 *     int main(void) {
 *         struct backoff_array array = {base, check, BACKOFF_SLOT_LIMIT};
 *         uint32_t work[5], words[] = {4, 3};
 *         int32_t state[9], points[2];
 *         uint8_t lengths[2];
 *         struct backoff_status built = backoff_array_build(&array, list, 40, work, 5);
 *         if (built.number != BACKOFF_ACCEPTED) {
 *             printf("row %u: %s\n", (unsigned)built.place, backoff_reason(built.number));
 *             return 1;
 *         }
 *         array.slots = backoff_array_fewest_slots(&array);
 *         backoff_array_start(&array, state, 9);
 *         struct backoff_total run = backoff_array_run(&array, state, 9, words, 2, points, 2, lengths, 2);
 *         printf("%u slots, %d and %d points\n", (unsigned)array.slots, (int)points[0], (int)points[1]);
 *         return run.number != BACKOFF_ACCEPTED;
 *     }
 *
 * prints
 *
 *     12 slots, -4000 and -12000 points
 */
struct backoff_array {
    int32_t *base;
    int32_t *check;
    size_t slots;
};

/* The slots up to the last one that is not free, 0 where all are free: the fewest into which backoff_build can build the
 * same list. */
static inline size_t backoff_array_fewest_slots(const struct backoff_array *array) {
    size_t slots = array->slots;
    while (slots > 0 && array->check[slots - 1] == INT32_MIN)
        slots--;
    return slots;
}

static inline struct backoff_status backoff_array_build(const struct backoff_array *array, const int32_t *table,
                                                        size_t table_len, uint32_t *work, size_t work_len) {
    return backoff_build(table, table_len, array->base, array->slots, array->check, array->slots, work, work_len);
}

static inline struct backoff_found backoff_array_lookup(const struct backoff_array *array, const uint32_t *words,
                                                        size_t words_len) {
    return backoff_lookup(array->base, array->slots, array->check, array->slots, words, words_len);
}

static inline struct backoff_status backoff_array_start(const struct backoff_array *array, int32_t *state,
                                                        size_t state_len) {
    return backoff_start(array->base, array->slots, array->check, array->slots, state, state_len);
}

static inline struct backoff_total backoff_array_run(const struct backoff_array *array, int32_t *state, size_t state_len,
                                                     const uint32_t *words, size_t words_len, int32_t *points,
                                                     size_t points_len, uint8_t *lengths, size_t lengths_len) {
    return backoff_run(array->base, array->slots, array->check, array->slots, state, state_len, words, words_len, points,
                       points_len, lengths, lengths_len);
}

static inline struct backoff_sheet backoff_array_batch(const struct backoff_array *array, const uint32_t *words,
                                                       size_t words_len, const uint32_t *ends, size_t ends_len,
                                                       int32_t *points, size_t points_len, uint8_t *lengths,
                                                       size_t lengths_len) {
    return backoff_batch(array->base, array->slots, array->check, array->slots, words, words_len, ends, ends_len, points,
                         points_len, lengths, lengths_len);
}

static inline struct backoff_listing backoff_array_sentences(const struct backoff_array *array, uint32_t k, uint32_t *words,
                                                             size_t words_len, int64_t *totals, size_t totals_len) {
    return backoff_sentences(array->base, array->slots, array->check, array->slots, k, words, words_len, totals, totals_len);
}

static inline struct backoff_move backoff_array_largest_move(const struct backoff_array *array, uint32_t k, uint32_t *words,
                                                             size_t words_len, int64_t *totals, size_t totals_len) {
    return backoff_largest_move(array->base, array->slots, array->check, array->slots, k, words, words_len, totals,
                                totals_len);
}

static inline struct backoff_joined backoff_array_score_fragment(const struct backoff_array *array, const uint32_t *words,
                                                                 size_t words_len) {
    return backoff_score_fragment(array->base, array->slots, array->check, array->slots, words, words_len);
}

static inline struct backoff_joined backoff_array_join_fragments(const struct backoff_array *array,
                                                                 struct backoff_fragment one,
                                                                 struct backoff_fragment two) {
    return backoff_join_fragments(array->base, array->slots, array->check, array->slots, one, two);
}

static inline struct backoff_status backoff_array_unload(const struct backoff_array *array, int32_t *table,
                                                         size_t table_len, uint32_t *work, size_t work_len) {
    return backoff_unload(array->base, array->slots, array->check, array->slots, table, table_len, work, work_len);
}

/* What a refusal number means, in a sentence; for a number that no call gives, too. */
static inline const char *backoff_reason(uint32_t number) {
    static const char *const reasons[] = {
        "Nothing is refused.",
        "The table is empty, its length is not a multiple of 8, or there are more than 65,535 rows.",
        "base and check differ in length, have fewer than 2 or more than 1,048,576 slots, or work is too short.",
        "The row's m is not between 1 and 5.",
        "A word of the row is not between 1 and 65,535, or an unused place is not 0.",
        "The row's log-probability is not between -99,000,000 and 0.",
        "The row's back-off is not between -99,000,000 and 99,000,000, or the row is of the longest and has one.",
        "The row does not come after the row before it in list order.",
        "The row without this row's first word, or the one without its last word, is missing.",
        "Word 1, 2 or 3 has no row of one word.",
        "The list needs more slots than base and check have.",
        "base and check do not begin like an array of this version.",
        "The array is damaged: a node has no p and b in range, or the rows are not an accepted list.",
        "A line of LIST or TEXT is not in form.",
        "There are too many words or sentences, or a lookup has no words.",
        "A slice to be written is too short.",
        "The state is not nine numbers long, or not a state over an array of this order.",
        "A line of the ARPA text is not in form, or a line is missing at its end.",
        "A word of the ARPA text has no line in the section of one word.",
        "A section of the ARPA text has more or fewer lines than its count says.",
        "The end of a sentence is below the one before it, or past the words.",
        "The fragment's kept words, state or total cannot come from an array of this order.",
        "The sentences to be listed have no words or more than 4, or there are more than 16 words to make them of.",
    };
    return number < sizeof reasons / sizeof reasons[0] ? reasons[number] : "No call refuses by this number.";
}

#ifdef __cplusplus
}
#endif

#endif
