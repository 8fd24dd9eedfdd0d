/* Fragments and joins from C. */
#include "test.h"

enum { SLOTS = 20 };

static int32_t base[SLOTS];
static int32_t check[SLOTS];

static struct backoff_joined score(const uint32_t *words, size_t count) {
    return backoff_score_fragment(base, SLOTS, check, SLOTS, words, count);
}

static struct backoff_joined join(struct backoff_fragment one, struct backoff_fragment two) {
    return backoff_join_fragments(base, SLOTS, check, SLOTS, one, two);
}

static int same(struct backoff_fragment a, struct backoff_fragment b) {
    return a.total == b.total && a.count == b.count && a.kept == b.kept && memcmp(a.first, b.first, sizeof a.first) == 0 &&
           memcmp(a.state, b.state, sizeof a.state) == 0;
}

static int is_refused(struct backoff_joined answer, uint32_t number, uint32_t place) {
    struct backoff_fragment empty = {0};
    return answer.number == number && answer.place == place && same(answer.fragment, empty);
}

int main(void) {
    static const uint32_t words[3] = {4, 5, 3};
    static const struct backoff_fragment whole = {-10500, 3, 2, {4, 5, 0, 0}, {1, 2, 0, 0, 0, -3000, 0, 0, 0}};
    struct backoff_fragment begin = {0}, bad;
    uint32_t work[9];
    expect("no array gives 11", is_refused(score(words, 3), 11, 0) && is_refused(join(begin, begin), 11, 0));
    backoff_build(&SAMPLE[0][0], 72, base, SLOTS, check, SLOTS, work, 9);
    struct backoff_fragment first = score(words, 1).fragment, rest = score(words + 1, 2).fragment;
    expect("a fragment", score(words, 3).number == 0 && same(score(words, 3).fragment, whole));
    expect("joining is scoring", join(first, rest).number == 0 && same(join(first, rest).fragment, whole));
    backoff_start(base, SLOTS, check, SLOTS, begin.state, 9);
    expect("K1 after start's state", join(begin, whole).fragment.total == -6500);
    bad = whole;
    bad.kept = 3;
    expect("too many kept words give 21", is_refused(join(bad, whole), BACKOFF_BAD_FRAGMENT, 1));
    bad = whole;
    bad.state[0] = 3;
    expect("a state that 16 refuses gives 21", is_refused(join(whole, bad), 21, 2));
    bad = whole;
    bad.total = -3LL * 3 * BACKOFF_LARGEST_BACKOFF;
    expect("a total at its bound", join(bad, whole).number == 0);
    bad.total--;
    expect("a total further from 0 gives 21", is_refused(join(bad, whole), 21, 1));
    bad = whole;
    bad.count = BACKOFF_RUN_LIMIT - 2;
    expect("one word too many gives 14", is_refused(join(bad, whole), 14, 0));
    bad.count--;
    expect("as many as a run may have", join(bad, whole).number == 0);
    base[6] = 0;
    expect("12 at the word", is_refused(score(words, 3), 12, 2));
    expect("12 with 0 of a join", is_refused(join(first, rest), 12, 0));
    expect("no kept words, no walk", join(rest, score(words, 0).fragment).number == 0);
    return counted();
}
