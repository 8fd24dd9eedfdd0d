/* An hour's sheet on all cores. The threads share one array. Each takes some sentences as a sheet of its own, and the sheets
 * of all parts are added up. The result is that of one call for the whole sheet.
 *
 *     cc -std=c99 -pthread -Iinclude examples/batch.c target/staticlib/libgrader.a -o batch && ./batch
 */
#define _DEFAULT_SOURCE
#include "backoff.h"
#include <pthread.h>
#include <stdio.h>
#include <stdlib.h>
#include <string.h>
#include <unistd.h>

/* m, five words oldest first (unused ones 0), log-probability, back-off. */
static const int32_t list[][BACKOFF_ROW_ITEMS] = {
    {1, 1, 0, 0, 0, 0, -20000, 0},    {1, 2, 0, 0, 0, 0, -990000, -3000}, {1, 3, 0, 0, 0, 0, -10000, 0},
    {1, 4, 0, 0, 0, 0, -6000, -2000}, {1, 5, 0, 0, 0, 0, -9000, -1000},   {2, 5, 3, 0, 0, 0, -1500, 0},
    {2, 2, 4, 0, 0, 0, -4000, -500},  {2, 4, 5, 0, 0, 0, -3000, 0},       {3, 2, 4, 5, 0, 0, -1000, 0},
};
enum { ITEMS = sizeof list / sizeof list[0][0], ROWS = ITEMS / BACKOFF_ROW_ITEMS, SLOTS = 64 };
static int32_t base[SLOTS], check[SLOTS];

/* The sheet: sentences of 0 to 11 of the words 4, 5 and 9, one behind the other. */
enum { SENTENCES = 10000, MOST_WORDS = BACKOFF_RUN_LIMIT, MOST_THREADS = 64 };
static uint32_t words[MOST_WORDS], ends[SENTENCES];
static int32_t points[MOST_WORDS];
static uint8_t lengths[MOST_WORDS];

/* Some sentences of the sheet: from `first` up to `next`, numbered from 0. */
struct part {
    size_t first;
    size_t next;
    struct backoff_sheet sheet;
};

static size_t start_of(size_t sentence) { return sentence == 0 ? 0 : ends[sentence - 1]; }

/* A part has its own stretch of words, points and lengths. Its ends are counted from its first word on. */
static void *score(void *argument) {
    struct part *part = argument;
    size_t from = start_of(part->first), count = start_of(part->next) - from, sentences = part->next - part->first;
    uint32_t *own_ends = malloc((sentences + 1) * sizeof *own_ends);
    if (own_ends == NULL)
        exit(EXIT_FAILURE);
    for (size_t i = 0; i < sentences; i++)
        own_ends[i] = ends[part->first + i] - (uint32_t)from;
    part->sheet = backoff_batch(base, SLOTS, check, SLOTS, words + from, count, own_ends, sentences, points + from, count,
                                lengths + from, count);
    free(own_ends);
    return NULL;
}

/* The sheet of two parts. The place of a refused part is that of its own sentences. */
static struct backoff_sheet add(struct backoff_sheet sum, const struct part *part) {
    struct backoff_sheet more = part->sheet;
    if (more.number != BACKOFF_ACCEPTED) {
        fprintf(stderr, "refused: %u at sentence %zu\n", (unsigned)more.number, part->first + (size_t)more.place);
        exit(EXIT_FAILURE);
    }
    sum.sentences += more.sentences;
    sum.words += more.words;
    sum.unknown += more.unknown;
    sum.total += more.total;
    for (size_t i = 0; i < 5; i++)
        sum.matched[i] += more.matched[i];
    return sum;
}

/* The whole sheet by so many threads. */
static struct backoff_sheet score_in_parts(size_t threads) {
    static struct part parts[MOST_THREADS];
    static pthread_t ids[MOST_THREADS];
    struct backoff_sheet sum = {0};
    for (size_t i = 0; i < threads; i++) {
        parts[i].first = SENTENCES * i / threads;
        parts[i].next = SENTENCES * (i + 1) / threads;
        if (pthread_create(&ids[i], NULL, score, &parts[i]) != 0)
            exit(EXIT_FAILURE);
    }
    for (size_t i = 0; i < threads; i++) {
        pthread_join(ids[i], NULL);
        sum = add(sum, &parts[i]);
    }
    return sum;
}

static bool same(const struct backoff_sheet *a, const struct backoff_sheet *b) {
    return a->sentences == b->sentences && a->words == b->words && a->unknown == b->unknown && a->total == b->total &&
           memcmp(a->matched, b->matched, sizeof a->matched) == 0;
}

static void dictate(void) {
    static const uint32_t known[] = {4, 5, 4, 5, 9};
    uint32_t random = 1, count = 0;
    for (size_t i = 0; i < SENTENCES; i++) {
        for (uint32_t left = (random >> 16) % 12; left > 0; left--) {
            random = random * 1664525u + 1013904223u;
            words[count++] = known[(random >> 16) % 5];
        }
        random = random * 1664525u + 1013904223u;
        ends[i] = count;
    }
}

int main(void) {
    uint32_t work[ROWS];
    if (backoff_build(&list[0][0], ITEMS, base, SLOTS, check, SLOTS, work, ROWS).number != BACKOFF_ACCEPTED)
        return EXIT_FAILURE;
    dictate();
    long cores = sysconf(_SC_NPROCESSORS_ONLN);
    size_t threads = cores < 1 ? 1 : cores > MOST_THREADS ? MOST_THREADS : (size_t)cores;
    struct backoff_sheet parts = score_in_parts(threads);
    struct part all = {0, SENTENCES, {0}};
    score(&all);
    struct backoff_sheet whole = add((struct backoff_sheet){0}, &all);
    printf("%u sentences, %u words, %u unknown, %lld points\n", (unsigned)whole.sentences, (unsigned)whole.words,
           (unsigned)whole.unknown, (long long)whole.total);
    for (size_t i = 0; i < 5; i++)
        printf("matched length %zu: %u\n", i + 1, (unsigned)whole.matched[i]);
    printf("the parts add up to %s sheet\n", same(&parts, &whole) ? "the same" : "another");
    return same(&parts, &whole) ? EXIT_SUCCESS : EXIT_FAILURE;
}
