/* All small sentences and the largest move among them, over arrays that a build wrote and over others: totals beside start
 * and runs, and beside plain scoring. */
#include "fuzz.h"

struct listing {
    struct answer answer;
    struct slice words;
    struct slice totals;
};

static struct slice number_slice(uint32_t number) {
    struct slice slice = block(1, 4);
    words_of(slice)[0] = number;
    return slice;
}

static struct listing list_by(enum call call, struct arrays a, uint32_t k, size_t words, size_t totals) {
    struct slice slices[5] = {a.base, a.check, number_slice(k), rubbish(words, 4), rubbish(totals, 8)};
    struct answer answer = ask(call, false, slices);
    struct listing listing = {answer, slices[3], slices[4]};
    return listing;
}

static struct listing list_sentences(struct arrays a, uint32_t k, size_t words, size_t totals) {
    return list_by(SENTENCES, a, k, words, totals);
}

static size_t count_usable(struct arrays a) { return is_head(a.base, a.check) ? usable_words(a.base, a.check).count : 0; }

/* Sentence i of all, from 0, with its closing 3. */
static struct slice closed_sentence(struct slice words, uint32_t k, size_t i) {
    struct slice sentence = block(k + 1, 4);
    memcpy(sentence.items, words_of(words) + k * i, k * 4);
    words_of(sentence)[k] = BACKOFF_END_WORD;
    return sentence;
}

/* The total by start and a run; false where 12 refuses one of them. */
static bool total_by_run(struct arrays a, struct slice sentence, int64_t *total) {
    struct slice state = rubbish(BACKOFF_STATE_LENGTH, 4);
    if (start(a, &state).number != 0)
        return false;
    struct scored scored = run(a, state, sentence, sentence.count, sentence.count);
    *total = scored.answer.total;
    return scored.answer.number == 0;
}

/* Each total, of many sentences some, is that of start and a run; 12 exactly where one of the sentences is refused so. */
static void see_as_runs(struct arrays a, uint32_t k, struct listing listing) {
    struct slice words = sentences_by_rules(usable_words(a.base, a.check), k);
    size_t count = words.count / k;
    bool broken = listing.answer.number == 12, met = false;
    for (size_t i = 0; i < count && !met; i++) {
        int64_t total;
        if (!broken && count > 100 && below(count) >= 40)
            continue;
        met = !total_by_run(a, closed_sentence(words, k, i), &total);
        require(met || broken || totals_of(listing.totals)[i] == total, "a total as by a run");
    }
    require(met == broken, "12 exactly where a sentence meets it");
}

/* Of a list, each total is plain scoring's after <s>; of many sentences some are tried. */
static void see_as_plain(struct slice table, uint32_t k, struct listing listing) {
    size_t count = listing.answer.sentences;
    for (size_t i = 0; i < count; i++) {
        if (count > 20 && below(count) >= 10)
            continue;
        struct scored scored = plain(table, true, closed_sentence(listing.words, k, i), k + 1, k + 1);
        require(scored.answer.total == totals_of(listing.totals)[i], "a total as by plain scoring");
    }
}

/* The largest move lists what a listing lists, and is refused as that is; over a build it is within T-11's figure. */
static void see_largest_move(struct arrays a, uint32_t k, struct listing listing, bool built) {
    struct listing moved = list_by(MOVE, a, k, listing.words.count, listing.totals.count);
    require(moved.answer.number == listing.answer.number, "the largest move is refused as a listing");
    if (listing.answer.number == 11 || listing.answer.number == 15 || listing.answer.number == 22)
        return;
    size_t count = sentence_count(count_usable(a), k);
    require(same(part_of(moved.words, 0, k * count), part_of(listing.words, 0, k * count)) &&
                same(part_of(moved.totals, 0, count), part_of(listing.totals, 0, count)),
            "the listing of the largest move");
    int64_t order = order_in(a.check);
    require(!built || moved.answer.total <= order * (2 * order - 1) * BACKOFF_LARGEST_BACKOFF, "T-11's figure");
}

/* A number of words that is mostly allowed, and for which there are at most so many sentences. */
static uint32_t drawn_length(size_t usable, size_t most) {
    static const uint32_t odd[] = {0, 5, 6, 16, 257, 65537, 0x80000001, 0xFFFFFFFF};
    uint32_t k = 1 + (uint32_t)below(BACKOFF_SENTENCE_LIMIT);
    while (k > 1 && sentence_count(usable, k) > most)
        k--;
    return chance(90) ? k : odd[below(8)];
}

static size_t less(size_t count, size_t by) { return count < by ? 0 : count - by; }

/* Slices that are too short, and ones that are longer than the listing. */
static void see_lengths(struct arrays a, uint32_t k, size_t words, size_t totals) {
    list_sentences(a, k, less(words, below(3)), less(totals, below(2)));
    list_sentences(a, k, words + below(3), totals + below(3));
    list_sentences(a, k, below(4), below(4));
    list_by(MOVE, a, k, less(words, below(2)) + below(3), less(totals, below(2)) + below(3));
}

void sentence_case(void) {
    struct slice table = accepted_list();
    if (chance(20))
        table = with_words(table, 17 + below(4));
    if (chance(30))
        even_out(table);
    bool built = chance(40);
    struct arrays a = built ? build_fitting(table) : other_arrays(table);
    size_t usable = count_usable(a);
    uint32_t k = drawn_length(usable, 300);
    size_t totals = is_listing(k, usable) ? sentence_count(usable, k) : below(9);
    size_t words = is_listing(k, usable) ? k * totals : below(9);
    struct listing listing = list_sentences(a, k, words, totals);
    require(!built || !is_listing(k, usable) || listing.answer.number == 0, "a listing over a built array");
    if (listing.answer.number == 0 || listing.answer.number == 12)
        see_as_runs(a, k, listing);
    if (built && listing.answer.number == 0)
        see_as_plain(table, k, listing);
    see_largest_move(a, k, listing, built);
    see_lengths(a, k, words, totals);
}

/* The most sentences of the most words, and one usable word more. */
void sentence_limit_case(void) {
    uint32_t k = BACKOFF_SENTENCE_LIMIT;
    struct slice table = with_words(accepted_list(), BACKOFF_USABLE_LIMIT + 2);
    struct arrays a = build_fitting(table);
    size_t most = BACKOFF_LISTING_LIMIT;
    struct listing listing = list_sentences(a, k, k * most, most);
    require(listing.answer.sentences == most, "the longest listing is accepted");
    see_as_runs(a, k, listing);
    see_as_plain(table, k, listing);
    see_largest_move(a, k, listing, true);
    a = build_fitting(with_words(table, BACKOFF_USABLE_LIMIT + 3));
    for (k = 1; k <= BACKOFF_SENTENCE_LIMIT; k++)
        require(list_sentences(a, k, k * most, most).answer.number == 22, "one usable word more gives 22");
}
