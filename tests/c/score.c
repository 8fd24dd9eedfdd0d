/* Start, run and plain scoring from C. */
#include "test.h"

static int32_t base[20];
static int32_t check[20];
static int32_t state[9];
static int32_t points[3];
static uint8_t lengths[3];

static const uint32_t WORDS[3] = {4, 5, 3};
static const int32_t POINTS[3] = {-4000, -1000, -1500};
static const uint8_t LENGTHS[3] = {2, 3, 2};
static const uint8_t WITHOUT_CONTEXT[3] = {1 + BACKOFF_EXTENDED_LENGTH, 2 + BACKOFF_EXTENDED_LENGTH, 2};

static int is_k1(struct backoff_total answer) {
    int same = memcmp(points, POINTS, sizeof points) == 0 && memcmp(lengths, LENGTHS, sizeof lengths) == 0;
    memset(points, 0, sizeof points);
    memset(lengths, 0, sizeof lengths);
    return same && answer.number == 0 && answer.place == 0 && answer.total == -6500;
}

static int is_refused(struct backoff_total answer, uint32_t number) {
    return answer.number == number && answer.place == 0 && answer.total == 0;
}

/* Two sentences in one run, and start's 12 at the word that ends the first. */
static void expect_sentences(void) {
    static const uint32_t words[6] = {4, 5, 3, 4, 5, 3};
    static const int32_t expected[6] = {-4000, -1000, -1500, -4000, -1000, -1500};
    static const int32_t zeros[6] = {0};
    int32_t both[6];
    uint8_t bytes[6];
    backoff_start(base, 20, check, 20, state, 9);
    expect("two sentences in one run",
           backoff_run(base, 20, check, 20, state, 9, words, 6, both, 6, bytes, 6).total == -13000 &&
               memcmp(both, expected, sizeof both) == 0);
    base[3] = 0;
    memset(state, 0, sizeof state);
    struct backoff_total refused = backoff_run(base, 20, check, 20, state, 9, words, 6, both, 6, bytes, 6);
    expect("12 of start at the 3", refused.number == 12 && refused.place == 3 && refused.total == 0 &&
                                       memcmp(both, zeros, sizeof both) == 0);
}

int main(void) {
    static const int32_t after_start[9] = {1, 2, 0, 0, 0, -3000, 0, 0, 0};
    uint32_t work[9];
    expect("the sample is built", is(backoff_build(&SAMPLE[0][0], 72, base, 20, check, 20, work, 9), 0, 0));
    expect("a state of eight numbers gives 16 to start", is(backoff_start(base, 20, check, 20, state, 8), 16, 0));
    expect("start is accepted", is(backoff_start(base, 20, check, 20, state, 9), 0, 0));
    expect("the state after <s>", memcmp(state, after_start, sizeof state) == 0);
    expect("a state of eight numbers gives 16 to run",
           is_refused(backoff_run(base, 20, check, 20, state, 8, WORDS, 3, points, 3, lengths, 3), 16));
    expect("a points slice too short gives 15",
           is_refused(backoff_run(base, 20, check, 20, state, 9, WORDS, 3, points, 2, lengths, 3), 15));
    expect("K1 by a run", is_k1(backoff_run(base, 20, check, 20, state, 9, WORDS, 3, points, 3, lengths, 3)));
    expect("K5: the state after it is that after <s>", memcmp(state, after_start, sizeof state) == 0);
    expect("K1 again, in the sentence that follows",
           is_k1(backoff_run(base, 20, check, 20, state, 9, WORDS, 3, points, 3, lengths, 3)));
    expect("K1 by plain scoring", is_k1(backoff_plain(&SAMPLE[0][0], 72, true, WORDS, 3, points, 3, lengths, 3)));
    expect("another total without context",
           backoff_plain(&SAMPLE[0][0], 72, false, WORDS, 3, points, 3, lengths, 3).total == -10500);
    expect("rows that others put a word in front of, by plain scoring",
           memcmp(lengths, WITHOUT_CONTEXT, sizeof lengths) == 0);
    memset(lengths, 0, sizeof lengths);
    memset(state, 0, sizeof state);
    expect("and by a run", backoff_run(base, 20, check, 20, state, 9, WORDS, 3, points, 3, lengths, 3).total == -10500 &&
                               memcmp(lengths, WITHOUT_CONTEXT, sizeof lengths) == 0);
    expect_sentences();
    return counted();
}
