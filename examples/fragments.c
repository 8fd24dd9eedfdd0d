/* A reading graded from the middle outwards. The word that was heard best is scored first, then its neighbours are joined to
 * it on either side. However the reading is bracketed, the fragment is the same; joined after the state of start it has the
 * total of a run.
 *
 *     cc -std=c99 -Iinclude examples/fragments.c target/staticlib/libgrader.a -o fragments && ./fragments
 */
#include "backoff.h"
#include <stdio.h>
#include <stdlib.h>
#include <string.h>

/* m, five words oldest first (unused ones 0), log-probability, back-off. */
static const int32_t list[][BACKOFF_ROW_ITEMS] = {
    {1, 1, 0, 0, 0, 0, -20000, 0},    {1, 2, 0, 0, 0, 0, -990000, -3000}, {1, 3, 0, 0, 0, 0, -10000, 0},
    {1, 4, 0, 0, 0, 0, -6000, -2000}, {1, 5, 0, 0, 0, 0, -9000, -1000},   {2, 5, 3, 0, 0, 0, -1500, 0},
    {2, 2, 4, 0, 0, 0, -4000, -500},  {2, 4, 5, 0, 0, 0, -3000, 0},       {3, 2, 4, 5, 0, 0, -1000, 0},
};
enum { ITEMS = sizeof list / sizeof list[0][0], ROWS = ITEMS / BACKOFF_ROW_ITEMS, SLOTS = 64 };
static int32_t base[SLOTS], check[SLOTS];

/* The reading: four words and the end of the sentence. */
static const uint32_t reading[] = {4, 5, 9, 5, BACKOFF_END_WORD};
enum { WORDS = sizeof reading / sizeof reading[0] };

static struct backoff_fragment accepted(const char *call, struct backoff_joined answer) {
    if (answer.number != BACKOFF_ACCEPTED) {
        fprintf(stderr, "%s refused: %u at %u\n", call, (unsigned)answer.number, (unsigned)answer.place);
        exit(EXIT_FAILURE);
    }
    return answer.fragment;
}

/* The words of the reading from one place up to another. */
static struct backoff_fragment score(size_t from, size_t to) {
    return accepted("backoff_score_fragment", backoff_score_fragment(base, SLOTS, check, SLOTS, reading + from, to - from));
}

static struct backoff_fragment join(struct backoff_fragment one, struct backoff_fragment two) {
    return accepted("backoff_join_fragments", backoff_join_fragments(base, SLOTS, check, SLOTS, one, two));
}

static void print(const char *name, struct backoff_fragment fragment) {
    printf("%-20s %7lld points, %u words, first", name, (long long)fragment.total, (unsigned)fragment.count);
    for (uint32_t i = 0; i < fragment.kept; i++)
        printf(" %u", (unsigned)fragment.first[i]);
    printf(", state");
    for (int32_t i = 0; i < fragment.state[0]; i++)
        printf(" %d", (int)fragment.state[1 + i]);
    printf("\n");
}

int main(void) {
    uint32_t work[ROWS];
    struct backoff_fragment begin = {0};
    if (backoff_build(&list[0][0], ITEMS, base, SLOTS, check, SLOTS, work, ROWS).number != BACKOFF_ACCEPTED ||
        backoff_start(base, SLOTS, check, SLOTS, begin.state, BACKOFF_STATE_LENGTH).number != BACKOFF_ACCEPTED)
        return EXIT_FAILURE;

    /* From the middle outwards: 9, then 5 before it and 5 after it, then 4 before and 3 after. */
    struct backoff_fragment outwards = score(2, 3);
    print("9", outwards);
    outwards = join(join(score(1, 2), outwards), score(3, 4));
    print("5 9 5", outwards);
    outwards = join(join(score(0, 1), outwards), score(4, 5));
    print("4 5 9 5 3", outwards);

    /* From the left, and in two halves. */
    struct backoff_fragment from_left = score(0, 0);
    for (size_t i = 0; i < WORDS; i++)
        from_left = join(from_left, score(i, i + 1));
    struct backoff_fragment halves = join(score(0, 2), join(score(2, 4), score(4, 5)));
    bool agree = memcmp(&outwards.state, &from_left.state, sizeof outwards.state) == 0 &&
                 memcmp(&outwards.state, &halves.state, sizeof outwards.state) == 0 && outwards.total == from_left.total &&
                 outwards.total == halves.total;
    printf("three bracketings %s\n", agree ? "agree" : "differ");

    /* The whole reading after <s>, and the same by a run. */
    print("<s> 4 5 9 5 3", join(begin, outwards));
    int32_t points[WORDS];
    uint8_t lengths[WORDS];
    struct backoff_total run = backoff_run(base, SLOTS, check, SLOTS, begin.state, BACKOFF_STATE_LENGTH, reading, WORDS,
                                           points, WORDS, lengths, WORDS);
    printf("%-20s %7lld points\n", "by a run", (long long)run.total);
    return agree ? EXIT_SUCCESS : EXIT_FAILURE;
}
