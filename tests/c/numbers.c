/* The numbers of the header: each refusal is provoked by a call and has the header's number. */
#include "test.h"

enum { SLOTS = 20, ITEMS = 72 };

static int32_t base[SLOTS];
static int32_t check[SLOTS];
static uint32_t work[9];
static int32_t state[BACKOFF_STATE_LENGTH];
static int32_t points[2];
static uint8_t lengths[2];

static struct backoff_status build(size_t slots, size_t work_len) {
    return backoff_build(&SAMPLE[0][0], ITEMS, base, slots, check, slots, work, work_len);
}

static int run_is(size_t state_len, size_t points_len, uint32_t number, uint32_t place) {
    static const uint32_t words[2] = {4, 5};
    struct backoff_total answer =
        backoff_run(base, SLOTS, check, SLOTS, state, state_len, words, 2, points, points_len, lengths, 2);
    return answer.number == number && answer.place == place;
}

static void expect_list_numbers(void) {
    expect("table length", is(backoff_check(&SAMPLE[0][0], ITEMS - 1), BACKOFF_TABLE_LENGTH, 0));
    expect("row length", is(check_changed(8, 0, BACKOFF_ORDER_LIMIT + 1), BACKOFF_ROW_LENGTH, 8));
    expect("row words", is(check_changed(9, 3, BACKOFF_WORD_LIMIT + 1), BACKOFF_ROW_WORDS, 9));
    expect("row probability", is(check_changed(2, 6, BACKOFF_LEAST_PROBABILITY - 1), BACKOFF_ROW_PROBABILITY, 2));
    expect("row back-off", is(check_changed(4, 7, BACKOFF_LARGEST_BACKOFF + 1), BACKOFF_ROW_BACKOFF, 4));
    expect("row back-off below", is(check_changed(5, 7, BACKOFF_LEAST_BACKOFF - 1), BACKOFF_ROW_BACKOFF, 5));
    expect("row order", is(check_changed(3, 1, BACKOFF_START_WORD), BACKOFF_ROW_ORDER, 3));
    expect("shorter row", is(check_changed(6, 1, 6), BACKOFF_SHORTER_ROW, 6));
    expect("reserved word", is(backoff_check(&SAMPLE[0][0], BACKOFF_ROW_ITEMS), BACKOFF_RESERVED_WORD, 0));
    expect("accepted", is(backoff_check(&SAMPLE[0][0], ITEMS), BACKOFF_ACCEPTED, 0));
}

static void expect_array_numbers(void) {
    static const uint32_t words[1] = {BACKOFF_END_WORD};
    expect("array length", is(build(SLOTS, 8), BACKOFF_ARRAY_LENGTH, 0));
    expect("no room", is(build(SLOTS - 1, 9), BACKOFF_NO_ROOM, 0));
    expect("array head", is(backoff_start(base, SLOTS, check, SLOTS, state, BACKOFF_STATE_LENGTH), BACKOFF_ARRAY_HEAD, 0));
    expect("built", is(build(SLOTS, 9), BACKOFF_ACCEPTED, 0));
    check[0] += 16 - BACKOFF_ORDER_HEAD;
    expect("older head", is(backoff_start(base, SLOTS, check, SLOTS, state, BACKOFF_STATE_LENGTH), BACKOFF_ARRAY_HEAD, 0));
    check[0] -= 16 - BACKOFF_ORDER_HEAD;
    expect("word count", backoff_lookup(base, SLOTS, check, SLOTS, words, 0).number == BACKOFF_WORD_COUNT);
    expect("short slice", run_is(BACKOFF_STATE_LENGTH, 1, BACKOFF_SHORT_SLICE, 0));
    expect("bad state by its length", run_is(BACKOFF_STATE_LENGTH - 1, 2, BACKOFF_BAD_STATE, 0));
    state[0] = 3;
    expect("bad state by its numbers", run_is(BACKOFF_STATE_LENGTH, 2, BACKOFF_BAD_STATE, 0));
    state[0] = 0;
    expect("listing size",
           backoff_sentences(base, SLOTS, check, SLOTS, BACKOFF_SENTENCE_LIMIT + 1, NULL, 0, NULL, 0).number ==
               BACKOFF_LISTING_SIZE);
    base[work[4]] = 0;
    expect("broken node at the second word", run_is(BACKOFF_STATE_LENGTH, 2, BACKOFF_BROKEN_NODE, 2));
}

/* The limits of the list and of a run are those that the calls keep to. */
static void expect_limits(void) {
    static int32_t rows[BACKOFF_ROW_LIMIT + 1][BACKOFF_ROW_ITEMS];
    static uint32_t words[BACKOFF_RUN_LIMIT + 1];
    static int32_t wide_base[BACKOFF_SLOT_LIMIT + 1];
    static int32_t wide_check[BACKOFF_SLOT_LIMIT + 1];
    for (int32_t i = 0; i < BACKOFF_ROW_LIMIT; i++) {
        rows[i][0] = 1;
        rows[i][1] = i + 1;
    }
    size_t items = (size_t)BACKOFF_ROW_ITEMS * BACKOFF_ROW_LIMIT;
    expect("the most rows", is(backoff_check(&rows[0][0], items), BACKOFF_ACCEPTED, 0));
    expect("one row more", is(backoff_check(&rows[0][0], items + BACKOFF_ROW_ITEMS), BACKOFF_TABLE_LENGTH, 0));
    size_t run = BACKOFF_RUN_LIMIT;
    expect("the most words",
           backoff_plain(&SAMPLE[0][0], ITEMS, true, words, run, NULL, 0, NULL, 0).number == BACKOFF_SHORT_SLICE);
    expect("one word more",
           backoff_plain(&SAMPLE[0][0], ITEMS, true, words, run + 1, NULL, 0, NULL, 0).number == BACKOFF_WORD_COUNT);
    size_t slots = BACKOFF_SLOT_LIMIT;
    expect("the most slots",
           is(backoff_build(&SAMPLE[0][0], ITEMS, wide_base, slots, wide_check, slots, work, 9), BACKOFF_ACCEPTED, 0));
    expect("one slot more", is(backoff_build(&SAMPLE[0][0], ITEMS, wide_base, slots + 1, wide_check, slots + 1, work, 9),
                               BACKOFF_ARRAY_LENGTH, 0));
}

/* The longest sentences over so many usable words: 1, then 4 and those after it. */
static struct backoff_listing list_usable(int32_t usable) {
    enum { MOST = BACKOFF_USABLE_LIMIT + 3, WIDE = 2 * MOST + 2 };
    static int32_t rows[MOST][BACKOFF_ROW_ITEMS], wide_base[WIDE], wide_check[WIDE];
    static uint32_t slots[MOST], words[BACKOFF_SENTENCE_LIMIT * BACKOFF_LISTING_LIMIT];
    static int64_t totals[BACKOFF_LISTING_LIMIT];
    size_t count = (size_t)usable + 2;
    for (int32_t i = 0; i < usable + 2; i++) {
        rows[i][0] = 1;
        rows[i][1] = i + 1;
    }
    backoff_build(&rows[0][0], BACKOFF_ROW_ITEMS * count, wide_base, WIDE, wide_check, WIDE, slots, count);
    return backoff_sentences(wide_base, WIDE, wide_check, WIDE, BACKOFF_SENTENCE_LIMIT, words,
                             sizeof words / sizeof words[0], totals, BACKOFF_LISTING_LIMIT);
}

static void expect_listing_limits(void) {
    struct backoff_listing most = list_usable(BACKOFF_USABLE_LIMIT), more = list_usable(BACKOFF_USABLE_LIMIT + 1);
    expect("the most sentences", most.number == BACKOFF_ACCEPTED && most.sentences == BACKOFF_LISTING_LIMIT);
    expect("one usable word more", more.number == BACKOFF_LISTING_SIZE && more.sentences == 0);
}

int main(void) {
    expect_list_numbers();
    expect_array_numbers();
    expect_limits();
    expect_listing_limits();
    return counted();
}
