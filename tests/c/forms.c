/* The inline forms of the header over struct backoff_array: each answers and leaves what the plain call does, over the
 * sample's array and over one whose head is refused; and the array in its fewest slots is the one of a build into more. */
#include "test.h"

enum { ROWS = 9, ITEMS = 72, SLOTS = 64, LEAST = 20, WORDS = 5, SENTENCES = 9 };

static const uint32_t WORDS_SCORED[WORDS] = {4, 5, 9, 4, BACKOFF_END_WORD};
static const uint32_t ENDS[2] = {2, 5};

/* All that a call may write, and the answer of each call. */
struct lent {
    int32_t base[SLOTS];
    int32_t check[SLOTS];
    uint32_t work[ROWS];
    int32_t table[ITEMS];
    int32_t state[BACKOFF_STATE_LENGTH];
    int32_t points[WORDS];
    uint8_t lengths[WORDS];
    uint32_t listed[2 * SENTENCES];
    int64_t totals[SENTENCES];
};

static struct lent plain, formed;
static struct backoff_array array = {formed.base, formed.check, SLOTS};

static int same_slices(void) { return memcmp(&plain, &formed, sizeof plain) == 0; }

static int same_status(struct backoff_status a, struct backoff_status b) { return is(a, b.number, b.place); }

static int same_total(struct backoff_total a, struct backoff_total b) {
    return a.number == b.number && a.place == b.place && a.total == b.total;
}

static int same_found(struct backoff_found a, struct backoff_found b) {
    return a.number == b.number && a.place == b.place && a.found == b.found && a.p == b.p && a.b == b.b && a.left == b.left;
}

static int same_sheet(struct backoff_sheet a, struct backoff_sheet b) {
    return a.number == b.number && a.place == b.place && a.sentences == b.sentences && a.total == b.total &&
           a.words == b.words && a.unknown == b.unknown && memcmp(a.matched, b.matched, sizeof a.matched) == 0;
}

static int same_listing(struct backoff_listing a, struct backoff_listing b) {
    return a.number == b.number && a.place == b.place && a.sentences == b.sentences;
}

static int same_move(struct backoff_move a, struct backoff_move b) {
    return a.number == b.number && a.place == b.place && a.distance == b.distance && a.first == b.first &&
           a.second == b.second;
}

static int same_joined(struct backoff_joined a, struct backoff_joined b) {
    const struct backoff_fragment *one = &a.fragment, *two = &b.fragment;
    return a.number == b.number && a.place == b.place && one->total == two->total && one->count == two->count &&
           one->kept == two->kept && memcmp(one->first, two->first, sizeof one->first) == 0 &&
           memcmp(one->state, two->state, sizeof one->state) == 0;
}

static void expect_build(void) {
    struct backoff_status one =
        backoff_build(&SAMPLE[0][0], ITEMS, plain.base, SLOTS, plain.check, SLOTS, plain.work, ROWS);
    struct backoff_status two = backoff_array_build(&array, &SAMPLE[0][0], ITEMS, formed.work, ROWS);
    expect("build accepts", is(two, BACKOFF_ACCEPTED, 0));
    expect("build is the call", same_status(one, two) && same_slices());
}

/* The forms that read the array, where start answers with this number. */
static void expect_readers(uint32_t number) {
    struct backoff_fragment empty = {0};
    struct backoff_status started = backoff_array_start(&array, formed.state, BACKOFF_STATE_LENGTH);
    expect("start's number", started.number == number);
    expect("start", same_status(backoff_start(plain.base, SLOTS, plain.check, SLOTS, plain.state, BACKOFF_STATE_LENGTH),
                                started) &&
                        same_slices());
    expect("lookup", same_found(backoff_lookup(plain.base, SLOTS, plain.check, SLOTS, WORDS_SCORED, 2),
                                backoff_array_lookup(&array, WORDS_SCORED, 2)));
    expect("run", same_total(backoff_run(plain.base, SLOTS, plain.check, SLOTS, plain.state, BACKOFF_STATE_LENGTH,
                                         WORDS_SCORED, WORDS, plain.points, WORDS, plain.lengths, WORDS),
                             backoff_array_run(&array, formed.state, BACKOFF_STATE_LENGTH, WORDS_SCORED, WORDS,
                                               formed.points, WORDS, formed.lengths, WORDS)) &&
                      same_slices());
    expect("batch", same_sheet(backoff_batch(plain.base, SLOTS, plain.check, SLOTS, WORDS_SCORED, WORDS, ENDS, 2,
                                             plain.points, WORDS, plain.lengths, WORDS),
                               backoff_array_batch(&array, WORDS_SCORED, WORDS, ENDS, 2, formed.points, WORDS,
                                                   formed.lengths, WORDS)) &&
                        same_slices());
    struct backoff_listing listing =
        backoff_array_sentences(&array, 2, formed.listed, 2 * SENTENCES, formed.totals, SENTENCES);
    expect("sentences", same_listing(backoff_sentences(plain.base, SLOTS, plain.check, SLOTS, 2, plain.listed, 2 * SENTENCES,
                                                       plain.totals, SENTENCES),
                                     listing) &&
                            same_slices());
    struct backoff_move move = backoff_array_largest_move(&array, 1, formed.listed, 2 * SENTENCES, formed.totals, SENTENCES);
    expect("largest move", same_move(backoff_largest_move(plain.base, SLOTS, plain.check, SLOTS, 1, plain.listed,
                                                          2 * SENTENCES, plain.totals, SENTENCES),
                                     move) &&
                               same_slices());
    struct backoff_joined fragment = backoff_array_score_fragment(&array, WORDS_SCORED, WORDS);
    expect("fragment",
           same_joined(backoff_score_fragment(plain.base, SLOTS, plain.check, SLOTS, WORDS_SCORED, WORDS), fragment));
    expect("join", same_joined(backoff_join_fragments(plain.base, SLOTS, plain.check, SLOTS, empty, fragment.fragment),
                               backoff_array_join_fragments(&array, empty, fragment.fragment)));
    expect("unload", same_status(backoff_unload(plain.base, SLOTS, plain.check, SLOTS, plain.table, ITEMS, plain.work, ROWS),
                                 backoff_array_unload(&array, formed.table, ITEMS, formed.work, ROWS)) &&
                         same_slices());
}

/* One build into more slots, cut behind the last slot that is not free, is the build into the fewest. */
static void expect_fewest_slots(void) {
    struct backoff_array least = {plain.base, plain.check, LEAST};
    struct backoff_array cut = array;
    cut.slots = backoff_array_fewest_slots(&array);
    expect("the fewest slots", cut.slots == LEAST);
    expect("built into them", is(backoff_array_build(&least, &SAMPLE[0][0], ITEMS, plain.work, ROWS), BACKOFF_ACCEPTED, 0));
    expect("the same array", memcmp(least.base, cut.base, LEAST * sizeof *cut.base) == 0 &&
                                 memcmp(least.check, cut.check, LEAST * sizeof *cut.check) == 0);
    expect("the cut array unloads", is(backoff_array_unload(&cut, formed.table, ITEMS, formed.work, ROWS), 0, 0) &&
                                        memcmp(formed.table, SAMPLE, sizeof formed.table) == 0);
    least.slots = LEAST - 1;
    expect("one slot fewer", is(backoff_array_build(&least, &SAMPLE[0][0], ITEMS, plain.work, ROWS), BACKOFF_NO_ROOM, 0));
    expect("all slots free", backoff_array_fewest_slots(&least) == 0);
}

int main(void) {
    expect_build();
    expect_readers(BACKOFF_ACCEPTED);
    expect_fewest_slots();
    memset(&plain, 0, sizeof plain);
    memset(&formed, 0, sizeof formed);
    expect_readers(BACKOFF_ARRAY_HEAD);
    return counted();
}
