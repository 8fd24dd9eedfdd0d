/* Wrong libraries with faults in fragments and joins, as faults.c has them for the other calls. */
#include "faults.h"

struct backoff_status __real_backoff_start(const int32_t *, size_t, const int32_t *, size_t, int32_t *, size_t);
struct backoff_total __real_backoff_run(const int32_t *, size_t, const int32_t *, size_t, int32_t *, size_t,
                                        const uint32_t *, size_t, int32_t *, size_t, uint8_t *, size_t);
struct backoff_joined __real_backoff_score_fragment(const int32_t *, size_t, const int32_t *, size_t, const uint32_t *,
                                                    size_t);
struct backoff_joined __real_backoff_join_fragments(const int32_t *, size_t, const int32_t *, size_t,
                                                    struct backoff_fragment, struct backoff_fragment);

static volatile uint32_t sink;

static bool is_root_child(const int32_t *check, size_t check_len, uint32_t word) {
    return word >= 1 && word <= BACKOFF_WORD_LIMIT && word + 1 < check_len && check[word + 1] == 0;
}

/* Total and state of a few words after a state. */
static int64_t score_words(const int32_t *base, const int32_t *check, size_t slots, const uint32_t *words, size_t count,
                           int32_t *state) {
    int32_t points[5];
    uint8_t lengths[5];
    return __real_backoff_run(base, slots, check, slots, state, 9, words, count, points, 5, lengths, 5).total;
}

struct backoff_joined __wrap_backoff_score_fragment(const int32_t *base, size_t base_len, const int32_t *check,
                                                    size_t check_len, const uint32_t *words, size_t words_len) {
    struct backoff_joined joined = __real_backoff_score_fragment(base, base_len, check, check_len, words, words_len);
    struct backoff_fragment *fragment = &joined.fragment;
    uint32_t order = joined.number == 0 ? (uint32_t)check[0] - BACKOFF_ORDER_HEAD : 1;
    for (uint32_t i = 0; has("fragment-keeps-replaced-words") && i < fragment->kept; i++)
        if (!is_root_child(check, check_len, fragment->first[i]))
            fragment->first[i] = BACKOFF_UNKNOWN_WORD;
    if (has("fragment-keeps-n-words") && joined.number == 0 && order <= 4 && words_len >= order) {
        fragment->first[order - 1] = words[order - 1];
        fragment->kept = order;
    }
    for (uint32_t i = 0; has("fragment-keeps-the-last-words") && i < fragment->kept; i++)
        fragment->first[i] = words[words_len - fragment->kept + i];
    if (has("fragment-begins-after-start") && joined.number == 0 && words_len > 0 && words_len <= 5) {
        int32_t state[9];
        if (__real_backoff_start(base, base_len, check, check_len, state, 9).number == 0)
            fragment->total = score_words(base, check, base_len, words, words_len, state);
    }
    if (has("fragment-names-no-word") && joined.number == 12)
        joined.place = 0;
    if (has("fragment-counts-after-12") && joined.number == 12)
        fragment->count = (uint32_t)words_len;
    if (has("fragment-forgets-its-state") && joined.number == 0)
        memset(fragment->state, 0, sizeof fragment->state);
    if (has("fragment-reads-past-the-words"))
        sink = *(const volatile uint32_t *)(words + words_len);
    return joined;
}

/* The faults of an accepted join. */
static void spoil_join(const int32_t *base, const int32_t *check, size_t slots, struct backoff_fragment one,
                       struct backoff_fragment two, struct backoff_fragment *joined) {
    int32_t after[9], alone[9] = {0};
    memcpy(after, one.state, sizeof after);
    int64_t points_after = score_words(base, check, slots, two.first, two.kept, after);
    int64_t points_alone = score_words(base, check, slots, two.first, two.kept, alone);
    if (has("join-takes-the-scored-state-always"))
        memcpy(joined->state, after, sizeof after);
    if (has("join-takes-the-second-state-always"))
        memcpy(joined->state, two.state, sizeof after);
    if (has("join-takes-the-first-state"))
        memcpy(joined->state, one.state, sizeof after);
    if (has("join-leaves-the-kept-words-in-twice"))
        joined->total += points_alone;
    if (has("join-leaves-the-kept-words-out"))
        joined->total -= points_after;
    if (has("join-adds-the-totals"))
        joined->total = one.total + two.total;
    if (has("join-keeps-the-second-words") && two.kept > 0)
        memcpy(joined->first, two.first, two.kept * sizeof *two.first);
    if (has("join-keeps-the-first-words-alone") && one.kept < joined->kept)
        joined->kept = one.kept;
    if (has("join-fills-unused-words") && joined->kept < 4)
        joined->first[3] = 1;
    if (has("join-keeps-one-count"))
        joined->count = one.count > two.count ? one.count : two.count;
}

static bool has_rest(struct backoff_fragment fragment) {
    for (uint32_t i = fragment.kept; i < 4; i++)
        if (fragment.first[i] != 0)
            return true;
    return false;
}

static int64_t distance(int64_t total) { return total < 0 ? -total : total; }

/* The refusals that a wrong library has where the real one accepts. */
static uint32_t refused_by_fault(int32_t order, struct backoff_fragment one, struct backoff_fragment two) {
    int64_t bound = (int64_t)one.count * BACKOFF_LARGEST_BACKOFF;
    if (has("join-bounds-without-n") && distance(one.total) > bound)
        return 21;
    if (has("join-excludes-the-bound") && one.count > 0 && distance(one.total) == bound * order)
        return 21;
    if (has("join-reads-unused-words") && (has_rest(one) || has_rest(two)))
        return 21;
    return 0;
}

/* The faults of a refused join. */
static void spoil_refused(struct backoff_fragment one, struct backoff_fragment two, struct backoff_joined *joined) {
    uint64_t count = (uint64_t)one.count + two.count;
    if (has("join-checks-14-before-21") && joined->number == 21 && count > BACKOFF_RUN_LIMIT)
        joined->number = 14, joined->place = 0;
    if (has("join-names-the-first") && joined->number == 21)
        joined->place = 1;
    if (has("join-says-21-for-too-many-words") && joined->number == 14)
        joined->number = 21, joined->place = 1;
    if (has("join-misses-a-bad-state") && joined->number == 21 && joined->place == 2 && two.kept == two.count)
        joined->number = 0, joined->place = 0, joined->fragment = one;
    if (has("join-leaves-the-first-after-12") && joined->number == 12)
        joined->fragment = one;
    if (has("join-names-a-word") && joined->number == 12)
        joined->place = 1;
    if (has("join-counts-in-32-bits") && joined->number == 14 && count > UINT32_MAX)
        joined->number = 0, joined->fragment.count = one.count + two.count;
}

struct backoff_joined __wrap_backoff_join_fragments(const int32_t *base, size_t base_len, const int32_t *check,
                                                    size_t check_len, struct backoff_fragment one,
                                                    struct backoff_fragment two) {
    struct backoff_joined joined = __real_backoff_join_fragments(base, base_len, check, check_len, one, two);
    if (joined.number != 0) {
        spoil_refused(one, two, &joined);
        return joined;
    }
    uint32_t number = refused_by_fault(check[0] - BACKOFF_ORDER_HEAD, one, two);
    if (number != 0) {
        struct backoff_joined refused = {.number = number, .place = 1};
        return refused;
    }
    spoil_join(base, check, base_len, one, two, &joined.fragment);
    return joined;
}
