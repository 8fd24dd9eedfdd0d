/* Blocks of the fuzzer's own, and all that it draws. */
#include "fuzz.h"
#include <stdio.h>
#include <stdlib.h>

enum { MOST_BLOCKS = 1 << 16, MOST_ROWS = 200 };

static void *blocks[MOST_BLOCKS];
static size_t block_count;
static uint64_t random_state;

struct slice block(size_t count, size_t width) {
    struct slice slice = {malloc(count * width), count, width};
    if (slice.items == NULL || block_count == MOST_BLOCKS) {
        fprintf(stderr, "fuzz: no memory\n");
        exit(2);
    }
    blocks[block_count++] = slice.items;
    return slice;
}

void release_blocks(void) {
    while (block_count > 0)
        free(blocks[--block_count]);
}

struct slice part_of(struct slice slice, size_t from, size_t to) {
    struct slice part = block(to - from, slice.width);
    memcpy(part.items, (unsigned char *)slice.items + from * slice.width, part.count * part.width);
    return part;
}

struct slice copy_of(struct slice slice) {
    return part_of(slice, 0, slice.count);
}

bool same(struct slice a, struct slice b) { return a.count == b.count && memcmp(a.items, b.items, a.count * a.width) == 0; }

/* Splitmix64: every case has its own stream. */
static uint64_t bits(void) {
    random_state += 0x9E3779B97F4A7C15u;
    uint64_t mixed = random_state;
    mixed = (mixed ^ (mixed >> 30)) * 0xBF58476D1CE4E5B9u;
    mixed = (mixed ^ (mixed >> 27)) * 0x94D049BB133111EBu;
    return mixed ^ (mixed >> 31);
}

void seed_case(uint64_t seed, uint64_t number) {
    random_state = seed;
    random_state = bits() ^ (number * 0xD1342543DE82EF95u);
}

size_t below(size_t end) { return (size_t)(((bits() >> 32) * (uint64_t)end) >> 32); }

bool chance(size_t percent) { return below(100) < percent; }

static int32_t between(int32_t least, int32_t most) { return least + (int32_t)below((size_t)(most - least) + 1); }

/* Limits of every range, and their neighbours. */
int32_t extreme(void) {
    static const int32_t numbers[] = {
        INT32_MIN,  INT32_MIN + 1,
        -396000001, -396000000,
        -99000002,  -99000001,
        -99000000,  -990001,
        -2,         -1,
        0,          1,
        2,          3,
        4,          5,
        6,          9,
        13,         16,
        19,         24,
        25,         29,
        30,         40,
        43,         65534,
        65535,      65536,
        65537,      990001,
        1048575,    1048576,
        98999999,   99000000,
        99000001,   396000003,
        396000004,  INT32_MAX,
    };
    return numbers[below(sizeof numbers / sizeof numbers[0])];
}

struct slice rubbish(size_t count, size_t width) {
    struct slice slice = block(count, width);
    for (size_t i = 0; i < count * width; i++)
        bytes_of(slice)[i] = (uint8_t)bits();
    return slice;
}

/* ---- lists */

static int32_t drawn_probability(void) {
    return chance(20) ? (chance(50) ? 0 : BACKOFF_LEAST_PROBABILITY) : between(BACKOFF_LEAST_PROBABILITY, 0);
}

static int32_t drawn_backoff(void) {
    if (chance(30))
        return 0;
    return chance(20) ? (chance(50) ? BACKOFF_LARGEST_BACKOFF : BACKOFF_LEAST_BACKOFF)
                      : between(BACKOFF_LEAST_BACKOFF, BACKOFF_LARGEST_BACKOFF);
}

/* Adds a row of these words, oldest first, unless it is there or there is no room. */
static void add_row(int32_t (*rows)[8], size_t *count, const int32_t *words, size_t length) {
    int32_t row[8] = {(int32_t)length};
    memcpy(row + 1, words, length * sizeof *words);
    for (size_t i = 0; i < *count; i++)
        if (compare_rows(rows[i], row) == 0)
            return;
    if (*count < MOST_ROWS)
        memcpy(rows[(*count)++], row, sizeof row);
}

/* Adds every part of a sentence that has at most `order` words, the short ones first, so that no row lacks a shorter one. */
static void add_parts(int32_t (*rows)[8], size_t *count, const int32_t *sentence, size_t words, size_t order) {
    for (size_t length = 1; length <= order && length <= words; length++)
        for (size_t from = 0; from + length <= words; from++)
            add_row(rows, count, sentence + from, length);
}

static int32_t drawn_word(const int32_t *vocabulary) { return vocabulary[below(8)]; }

/* A list of the parts of random sentences; the longest parts are of `order` words. */
struct slice accepted_list(void) {
    static int32_t rows[MOST_ROWS][8];
    static const int32_t marks[3] = {BACKOFF_UNKNOWN_WORD, BACKOFF_START_WORD, BACKOFF_END_WORD};
    int32_t vocabulary[8] = {1, 2, 3};
    size_t count = 0, order = 1 + below(BACKOFF_ORDER_LIMIT), sentences = 1 + below(5);
    int32_t largest = below(200) == 0 ? BACKOFF_WORD_LIMIT : chance(30) ? 200 : 9;
    for (size_t i = 3; i < 8; i++)
        vocabulary[i] = chance(10) ? largest : between(4, largest);
    add_parts(rows, &count, marks, 3, 1);
    for (size_t i = 0; i < sentences; i++) {
        int32_t sentence[8];
        size_t words = i == 0 ? order : 1 + below(8);
        for (size_t j = 0; j < words; j++)
            sentence[j] = drawn_word(vocabulary);
        add_parts(rows, &count, sentence, words, order);
    }
    qsort(rows, count, sizeof rows[0], compare_rows);
    for (size_t i = 0; i < count; i++) {
        rows[i][6] = drawn_probability();
        rows[i][7] = rows[i][0] == (int32_t)order ? 0 : drawn_backoff();
    }
    struct slice table = block(8 * count, 4);
    memcpy(table.items, rows, 8 * count * 4);
    return table;
}

/* The list with at least so many rows of one word: words up to 60 are added. */
struct slice with_words(struct slice table, size_t words) {
    static int32_t rows[MOST_ROWS][8];
    size_t count = rows_in(table), ones = 0;
    memcpy(rows, table.items, table.count * 4);
    while (ones < count && rows[ones][0] == 1)
        ones++;
    while (ones < words) {
        int32_t word = between(4, 60);
        size_t before = count;
        add_row(rows, &count, &word, 1);
        rows[count - 1][6] = count > before ? drawn_probability() : rows[count - 1][6];
        ones += count - before;
    }
    qsort(rows, count, sizeof rows[0], compare_rows);
    struct slice longer = block(8 * count, 4);
    memcpy(longer.items, rows, 8 * count * 4);
    return longer;
}

/* Numbers of which five in a row add up to a p in range. */
void soften(struct slice table) {
    int32_t order = row_of(table, rows_in(table) - 1)[0];
    for (size_t i = 0; i < rows_in(table); i++) {
        int32_t *row = ints(table) + BACKOFF_ROW_ITEMS * i;
        row[6] = between(-20000000, -8000000);
        row[7] = row[0] == order || chance(20) ? 0 : between(-19000000, 2000000);
    }
}

/* Few different numbers, so that many totals are equal. */
void even_out(struct slice table) {
    int32_t order = row_of(table, rows_in(table) - 1)[0];
    for (size_t i = 0; i < rows_in(table); i++) {
        int32_t *row = ints(table) + BACKOFF_ROW_ITEMS * i;
        row[6] = between(-2, 0);
        row[7] = row[0] == order ? 0 : between(-1, 1);
    }
}

/* Words 1, 2, 3 and so on; above the limit the last ones are no words. */
struct slice longest_list(size_t rows) {
    struct slice table = block(8 * rows, 4);
    memset(table.items, 0, 8 * rows * 4);
    for (size_t i = 0; i < rows; i++) {
        ints(table)[8 * i] = 1;
        ints(table)[8 * i + 1] = (int32_t)i + 1;
    }
    return table;
}

/* One change that an accepted list does not often stand. */
void damage_list(struct slice *table) {
    size_t rows = rows_in(*table);
    int32_t *row = ints(*table) + 8 * below(rows);
    int32_t *other = ints(*table) + 8 * below(rows);
    switch (below(6)) {
    case 0:
        row[below(8)] = extreme();
        break;
    case 1:
        row[1 + below(5)] = between(1, 9);
        break;
    case 2:
        memmove(row, other, 8 * sizeof *row);
        break;
    case 3:
        memmove(row, row + 8, (size_t)(ints(*table) + 8 * (rows - 1) - row) * sizeof *row);
        *table = part_of(*table, 0, table->count - 8);
        break;
    case 4:
        *table = part_of(*table, 0, below(table->count + 1));
        break;
    default:
        row[6 + below(2)] = chance(50) ? 1 : -1;
    }
}

/* Words of the list's rows, in their order or alone, sentence ends, and words that it may not have. */
struct slice text(struct slice table, size_t count) {
    static const uint32_t odd[] = {0, 1, 2, 3, 65535, 65536, 65537, 0x7FFFFFFF, 0x80000000, 0xFFFFFFFF};
    struct slice words = block(count, 4);
    size_t i = 0;
    while (i < count) {
        const int32_t *row = row_of(table, below(rows_in(table)));
        if (chance(10))
            words_of(words)[i++] = BACKOFF_END_WORD;
        else if (chance(15))
            words_of(words)[i++] = chance(70) ? odd[below(10)] : (uint32_t)below(12);
        for (size_t j = 1; j <= (size_t)row[0] && i < count; j++)
            words_of(words)[i++] = (uint32_t)row[j];
    }
    return words;
}

/* ---- arrays and states */

/* A number that an array may have in some slot. */
static int32_t slot_number(size_t slots) { return chance(50) ? (int32_t)below(slots + 1) : extreme(); }

/* Up to three numbers become others; the head is often spared. */
void damage_arrays(struct slice base, struct slice check) {
    for (size_t left = 1 + below(3); left > 0 && base.count > 2; left--) {
        size_t slot = chance(90) ? 2 + below(base.count - 2) : below(2);
        int32_t *number = ints(chance(50) ? base : check) + slot;
        *number = chance(30) ? *number ^ (int32_t)(1u << below(22)) : slot_number(base.count);
    }
}

/* Small arrays that no build wrote, with a right head and so that walks often go on, or end in a node that holds p − 1. */
void draw_arrays(struct slice *base, struct slice *check) {
    size_t slots = 2 + below(40);
    *base = block(slots, 4);
    *check = block(slots, 4);
    for (size_t i = 0; i < slots; i++) {
        ints(*base)[i] = chance(25) ? between(-5, -1) : chance(80) ? between(1, (int32_t)slots) : extreme();
        ints(*check)[i] = chance(40) ? between(-5, -1) : chance(80) ? (int32_t)below(chance(50) ? 3 : slots) : extreme();
    }
    ints(*base)[0] = 1;
    ints(*base)[1] = between(3, 9);
    ints(*check)[0] = HEAD + between(1, BACKOFF_ORDER_LIMIT);
    ints(*check)[1] = -1;
}

/* Any d that fits, and for each child a side of its own; the root, which is first, has 1. */
size_t drawn_fit(struct slice taken, const int32_t *words, size_t count, size_t *slots) {
    size_t largest = count == 0 ? 0 : (size_t)words[count - 1], most = taken.count - largest - 1, span = 16;
    for (;;) {
        size_t d = bytes_of(taken)[1] == 0 ? 1 : 1 + below(span), i = 0;
        for (; i < count; i++) {
            size_t word = (size_t)words[i];
            slots[i] = word < d && chance(50) ? d - word : d + word;
            if (bytes_of(taken)[slots[i]] != 0)
                break;
        }
        if (i == count && bytes_of(taken)[d] == 0)
            return d;
        span = chance(90) || 2 * span > most ? span : 2 * span;
    }
}

/* Gives some children ahead of their node's d a second slot behind it, where that is free: no walk looks at it. */
void plant_decoys(struct slice base, struct slice check) {
    for (size_t slot = 2; slot < check.count; slot++) {
        int32_t node = ints(check)[slot];
        size_t d = node < 0 ? 0 : (size_t)ints(base)[node];
        if (slot <= d || 2 * d <= slot || ints(check)[2 * d - slot] != INT32_MIN || chance(50))
            continue;
        ints(check)[2 * d - slot] = node;
        ints(base)[2 * d - slot] = chance(50) ? ints(base)[slot] : slot_number(base.count);
    }
}

/* Gives some free slots a node of n words as their parent: it has no children, so that no walk looks at them. */
void plant_below(struct slice base, struct slice check, size_t node) {
    for (size_t slot = 2; slot < check.count; slot++) {
        if (ints(check)[slot] != INT32_MIN || chance(50))
            continue;
        ints(check)[slot] = (int32_t)node;
        ints(base)[slot] = chance(50) ? between(-5, -1) : slot_number(base.count);
    }
}

/* A state of the caller's own making; now and then one number of it is out of form. */
struct slice own_state(int32_t order) {
    struct slice state = block(BACKOFF_STATE_LENGTH, 4);
    memset(state.items, 0, BACKOFF_STATE_LENGTH * 4);
    ints(state)[0] = (int32_t)below((size_t)order);
    for (int32_t i = 0; i < ints(state)[0]; i++) {
        ints(state)[1 + i] = chance(90) ? between(1, 9) : BACKOFF_WORD_LIMIT;
        ints(state)[5 + i] = drawn_backoff();
    }
    if (chance(15))
        ints(state)[below(BACKOFF_STATE_LENGTH)] = extreme();
    return state;
}
