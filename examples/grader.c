/* A small grader. Each part of a tape may have been one of several runs of words. Every reading goes on with each of
 * them from its own carried state. Two readings with equal states get the same points from there on, so the one with
 * the lower total is dropped.
 *
 *     cc -std=c99 -Iinclude examples/grader.c target/staticlib/libgrader.a -o grader && ./grader
 */
#include "backoff.h"
#include <stdio.h>
#include <stdlib.h>
#include <string.h>

/* m, five words oldest first (unused ones 0), log-probability, back-off. */
static const int32_t list[][BACKOFF_ROW_ITEMS] = {
    {1, 1, 0, 0, 0, 0, -20000, 0},    {1, 2, 0, 0, 0, 0, -990000, -3000}, {1, 3, 0, 0, 0, 0, -10000, 0},
    {1, 4, 0, 0, 0, 0, -6000, -2000}, {1, 5, 0, 0, 0, 0, -9000, -1000},   {2, 5, 3, 0, 0, 0, -1500, 0},
    {2, 2, 4, 0, 0, 0, -4000, -500},  {2, 4, 5, 0, 0, 0, -3000, 0},       {3, 2, 4, 5, 0, 0, -1000, 0},
};
enum { ITEMS = sizeof list / sizeof list[0][0], ROWS = ITEMS / BACKOFF_ROW_ITEMS, SLOTS = 64 };

/* The tape: the runs of words that each part may have been. The fourth part is the end of a sentence. Behind it every
 * reading has the state after <s>, so that one of them is kept, and the next sentence goes on from there. */
enum { MOST_RUNS = 3, RUN_WORDS = 2 };
struct run {
    size_t count;
    uint32_t words[RUN_WORDS];
};
struct part {
    size_t count;
    struct run runs[MOST_RUNS];
};
static const struct part tape[] = {
    {3, {{1, {4}}, {1, {5}}, {1, {9}}}},
    {2, {{1, {5}}, {1, {9}}}},
    {2, {{1, {4}}, {2, {4, 5}}}},
    {1, {{1, {BACKOFF_END_WORD}}}},
    {2, {{2, {4, BACKOFF_END_WORD}}, {2, {9, BACKOFF_END_WORD}}}},
};
enum { PARTS = sizeof tape / sizeof tape[0], MOST_WORDS = PARTS * RUN_WORDS, MOST_READINGS = 16 };

struct reading {
    int32_t state[BACKOFF_STATE_LENGTH];
    int64_t total;
    size_t unknown;
    size_t count;
    uint32_t words[MOST_WORDS];
};

/* The array is built once and then only read. */
static int32_t base[SLOTS], check[SLOTS];

static void require(const char *call, uint32_t number, uint32_t place) {
    if (number != BACKOFF_ACCEPTED) {
        fprintf(stderr, "%s refused: %u at %u\n", call, (unsigned)number, (unsigned)place);
        exit(EXIT_FAILURE);
    }
}

/* Scores a run from the state of the reading, and adds it to the reading. */
static void extend(struct reading *reading, const struct run *run) {
    int32_t points[RUN_WORDS];
    uint8_t lengths[RUN_WORDS];
    struct backoff_total scored = backoff_run(base, SLOTS, check, SLOTS, reading->state, BACKOFF_STATE_LENGTH, run->words,
                                              run->count, points, RUN_WORDS, lengths, RUN_WORDS);
    require("backoff_run", scored.number, scored.place);
    reading->total += scored.total;
    for (size_t i = 0; i < run->count; i++) {
        reading->unknown += (lengths[i] & BACKOFF_UNKNOWN_LENGTH) != 0;
        reading->words[reading->count++] = run->words[i];
    }
}

/* Adds a reading to the kept ones; where one of them has the same state, only the better of the two stays. */
static size_t keep(struct reading *kept, size_t count, const struct reading *added) {
    for (size_t i = 0; i < count; i++) {
        if (memcmp(kept[i].state, added->state, sizeof added->state) == 0) {
            if (kept[i].total < added->total)
                kept[i] = *added;
            return count;
        }
    }
    if (count == MOST_READINGS) {
        fprintf(stderr, "too many readings\n");
        exit(EXIT_FAILURE);
    }
    kept[count] = *added;
    return count + 1;
}

static void print(const struct reading *reading) {
    printf("%8lld points, %zu unknown:", (long long)reading->total, reading->unknown);
    for (size_t i = 0; i < reading->count; i++)
        printf(" %u", (unsigned)reading->words[i]);
    printf("\n");
}

/* Every reading with every run of a part; gives back how many readings are kept. */
static size_t advance(struct reading *readings, size_t count, const struct part *part) {
    static struct reading kept[MOST_READINGS];
    size_t left = 0;
    for (size_t i = 0; i < count * part->count; i++) {
        struct reading longer = readings[i / part->count];
        extend(&longer, &part->runs[i % part->count]);
        print(&longer);
        left = keep(kept, left, &longer);
    }
    memcpy(readings, kept, sizeof kept);
    printf("%zu kept\n", left);
    return left;
}

int main(void) {
    static struct reading readings[MOST_READINGS];
    uint32_t work[ROWS];
    struct backoff_status status = backoff_build(&list[0][0], ITEMS, base, SLOTS, check, SLOTS, work, ROWS);
    require("backoff_build", status.number, status.place);
    status = backoff_start(base, SLOTS, check, SLOTS, readings[0].state, BACKOFF_STATE_LENGTH);
    require("backoff_start", status.number, status.place);

    size_t count = 1;
    for (size_t i = 0; i < PARTS; i++)
        count = advance(readings, count, &tape[i]);
    const struct reading *best = &readings[0];
    for (size_t i = 1; i < count; i++)
        if (best->total < readings[i].total)
            best = &readings[i];
    printf("best\n");
    print(best);

    /* The same total from the list alone. */
    int32_t points[MOST_WORDS];
    uint8_t lengths[MOST_WORDS];
    struct backoff_total plain =
        backoff_plain(&list[0][0], ITEMS, true, best->words, best->count, points, MOST_WORDS, lengths, MOST_WORDS);
    require("backoff_plain", plain.number, plain.place);
    printf("%8lld points by plain scoring\n", (long long)plain.total);
    return 0;
}
