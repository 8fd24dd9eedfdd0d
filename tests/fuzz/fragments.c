/* Fragments, scored and joined, over arrays that a build wrote and over others, beside runs and beside each other; and
 * fragments of the caller's own making. */
#include "fuzz.h"

static struct answer score_fragment(struct arrays a, struct slice words) {
    struct slice slices[3] = {a.base, a.check, words};
    return ask(FRAGMENT, false, slices);
}

static struct slice slice_of(struct backoff_fragment fragment) {
    struct slice slice = block(1, sizeof fragment);
    memcpy(slice.items, &fragment, sizeof fragment);
    return slice;
}

static struct answer join(struct arrays a, struct backoff_fragment one, struct backoff_fragment two) {
    struct slice slices[4] = {a.base, a.check, slice_of(one), slice_of(two)};
    return ask(JOIN, false, slices);
}

static struct slice state_of(struct backoff_fragment fragment) {
    struct slice state = block(BACKOFF_STATE_LENGTH, 4);
    memcpy(state.items, fragment.state, sizeof fragment.state);
    return state;
}

static struct slice kept_of(struct backoff_fragment fragment) {
    struct slice words = block(fragment.kept, 4);
    memcpy(words.items, fragment.first, fragment.kept * 4);
    return words;
}

/* A fragment is a run from nine zeros, refused as that is. */
static void see_as_run(struct arrays a, struct slice words) {
    struct backoff_fragment empty = {0};
    struct answer fragment = score_fragment(a, words);
    struct scored scored = run(a, state_of(empty), words, words.count, words.count);
    require(fragment.number == scored.answer.number && fragment.place == scored.answer.place, "refused as a run");
    require(fragment.fragment.total == scored.answer.total, "the total of a run");
    require(fragment.number != 0 || same(state_of(fragment.fragment), scored.state), "the state of a run");
}

/* "The joined total is both totals, less the second's kept words scored from nothing, plus those words scored after the
 * first's end state; the end state is the second's if it has n-1 words or more, else what that scoring leaves." */
static void see_formula(struct arrays a, struct backoff_fragment one, struct backoff_fragment two) {
    struct backoff_fragment empty = {0};
    struct answer joined = join(a, one, two);
    if (joined.number != 0 && joined.number != 12)
        return;
    struct slice words = kept_of(two);
    struct scored alone = run(a, state_of(empty), words, words.count, words.count);
    struct scored after = run(a, state_of(one), words, words.count, words.count);
    bool broken = alone.answer.number != 0 || after.answer.number != 0;
    require((joined.number == 12) == broken, "12 exactly where a scoring of the kept words meets it");
    if (broken)
        return;
    int64_t total = one.total + two.total - alone.answer.total + after.answer.total;
    bool is_long = two.count >= (uint32_t)order_in(a.check) - 1;
    require(joined.fragment.total == total, "the total of a join");
    require(same(state_of(joined.fragment), is_long ? state_of(two) : after.state), "the state of a join");
}

/* Over the array of a list: joining is scoring, in every bracketing of three parts, and after start it is the run. */
static void see_brackets(struct arrays a, struct slice words) {
    size_t first = below(words.count + 1), second = first + below(words.count - first + 1);
    struct backoff_fragment whole = score_fragment(a, words).fragment;
    struct backoff_fragment u = score_fragment(a, part_of(words, 0, first)).fragment;
    struct backoff_fragment v = score_fragment(a, part_of(words, first, second)).fragment;
    struct backoff_fragment w = score_fragment(a, part_of(words, second, words.count)).fragment;
    struct answer left = join(a, join(a, u, v).fragment, w), right = join(a, u, join(a, v, w).fragment);
    require(left.number == 0 && same_fragment(left.fragment, whole), "joining is scoring, bracketed on the left");
    require(right.number == 0 && same_fragment(right.fragment, whole), "joining is scoring, bracketed on the right");
    struct backoff_fragment begin = {0};
    struct slice state = rubbish(BACKOFF_STATE_LENGTH, 4);
    require(start(a, &state).number == 0, "start over a built array");
    memcpy(begin.state, state.items, sizeof begin.state);
    struct answer joined = join(a, begin, whole);
    struct scored scored = run(a, state, words, words.count, words.count);
    require(joined.number == 0 && joined.fragment.total == scored.answer.total, "the run's total after start");
    require(same(state_of(joined.fragment), scored.state), "the run's state after start");
}

/* A fragment of the caller's own making; now and then one item of it is out of form. */
static struct backoff_fragment own_fragment(int32_t order, struct slice words) {
    struct backoff_fragment fragment = {0};
    static const uint32_t counts[] = {65534, 65535, 65536, 0x7FFFFFFF, 0x80000000, 0xFFFFFFFF};
    fragment.count = chance(90) ? (uint32_t)below(6) : counts[below(6)];
    fragment.kept = fragment.count < (uint32_t)order - 1 ? fragment.count : (uint32_t)order - 1;
    for (size_t i = 0; i < 4; i++)
        fragment.first[i] = words_of(words)[i];
    memcpy(fragment.state, own_state(order).items, sizeof fragment.state);
    int64_t bound = (int64_t)fragment.count * order * BACKOFF_LARGEST_BACKOFF;
    fragment.total = chance(50) ? -(int64_t)(below(1000) + 1) * (bound / 1000) : chance(50) ? bound : -bound;
    if (chance(10))
        fragment.total = chance(40) ? bound + 1 : chance(40) ? -bound - 1 : chance(50) ? INT64_MIN : INT64_MAX;
    if (chance(5))
        fragment.kept = chance(50) ? fragment.kept + 1 : (uint32_t)extreme();
    return fragment;
}

void fragment_case(void) {
    struct slice table = accepted_list();
    bool built = chance(40);
    struct arrays a = built ? build_fitting(table) : other_arrays(table);
    int32_t order = is_head(a.base, a.check) ? order_in(a.check) : 3;
    if (built)
        see_brackets(a, text(table, below(12)));
    for (size_t left = 4; left > 0; left--) {
        see_as_run(a, text(table, below(8)));
        see_formula(a, own_fragment(order, text(table, 4)), own_fragment(order, text(table, 4)));
        struct answer scored = score_fragment(a, text(table, below(6)));
        see_formula(a, own_fragment(order, text(table, 4)), scored.fragment);
    }
}

/* The most words, scored and joined, each with one more. */
void fragment_limit_case(void) {
    struct slice table = accepted_list();
    struct arrays a = build_fitting(table);
    size_t most = BACKOFF_RUN_LIMIT;
    struct slice words = text(table, most + 1);
    struct answer whole = score_fragment(a, part_of(words, 0, most));
    struct answer one = score_fragment(a, part_of(words, most, most + 1));
    require(whole.number == 0 && one.number == 0, "the longest fragment");
    require(score_fragment(a, words).number == 14, "one word more gives 14");
    require(join(a, whole.fragment, one.fragment).number == 14, "one word more gives 14 to a join");
    struct backoff_fragment halves[2] = {score_fragment(a, part_of(words, 0, most / 2)).fragment,
                                         score_fragment(a, part_of(words, most / 2, most)).fragment};
    require(same_fragment(join(a, halves[0], halves[1]).fragment, whole.fragment), "two halves are the longest fragment");
}
