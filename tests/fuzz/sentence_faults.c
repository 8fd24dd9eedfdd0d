/* Wrong libraries with faults in backoff_sentences, as faults.c has them for the other calls. */
#include "faults.h"

struct backoff_found __real_backoff_lookup(const int32_t *, size_t, const int32_t *, size_t, const uint32_t *, size_t);
struct backoff_status __real_backoff_start(const int32_t *, size_t, const int32_t *, size_t, int32_t *, size_t);
struct backoff_total __real_backoff_run(const int32_t *, size_t, const int32_t *, size_t, int32_t *, size_t,
                                        const uint32_t *, size_t, int32_t *, size_t, uint8_t *, size_t);
struct backoff_listing __real_backoff_sentences(const int32_t *, size_t, const int32_t *, size_t, uint32_t, uint32_t *,
                                                size_t, int64_t *, size_t);

enum { MOST = BACKOFF_USABLE_LIMIT + 3 };

static volatile int32_t sink;

/* What a call is lent. */
struct lent {
    const int32_t *base;
    const int32_t *check;
    size_t slots;
    uint32_t k;
    uint32_t *words;
    size_t words_len;
    int64_t *totals;
    size_t totals_len;
};

static bool is_root_child(const struct lent *lent, uint32_t word) {
    return word + 1 < lent->slots && lent->check[word + 1] == 0;
}

static bool is_found(const struct lent *lent, uint32_t word) {
    return __real_backoff_lookup(lent->base, lent->slots, lent->check, lent->slots, &word, 1).found == 1;
}

/* Whether a wrong library uses a word for which the root has a child. */
static bool is_used(const struct lent *lent, uint32_t word) {
    if (word == BACKOFF_UNKNOWN_WORD)
        return !has("sentences-leave-word-1-out");
    if (word == BACKOFF_START_WORD)
        return has("sentences-use-word-2");
    if (word == BACKOFF_END_WORD)
        return has("sentences-use-word-3");
    if (has("sentences-leave-broken-words-out"))
        return is_found(lent, word);
    return true;
}

/* The words that a wrong library uses; gives how many they are, MOST at most. */
static size_t used_words(const struct lent *lent, uint32_t *words) {
    size_t count = 0;
    for (uint32_t word = 1; word <= BACKOFF_WORD_LIMIT && count < MOST; word++)
        if (is_root_child(lent, word) && is_used(lent, word))
            words[count++] = word;
    return count;
}

/* The total of a sentence as a wrong library scores it; its number is 12 where that is refused. */
static struct backoff_total wrong_total(const struct lent *lent, const uint32_t *sentence) {
    uint32_t words[5] = {0};
    int32_t state[9] = {0}, points[5];
    uint8_t lengths[5];
    size_t count = lent->k + 1;
    struct backoff_total broken = {BACKOFF_BROKEN_NODE, 0, 0};
    memcpy(words, sentence, lent->k * sizeof *words);
    words[lent->k] = BACKOFF_END_WORD;
    if (has("sentences-leave-the-closing-3-out"))
        count--;
    bool begun = has("sentences-begin-without-start") ||
                 __real_backoff_start(lent->base, lent->slots, lent->check, lent->slots, state, 9).number == 0;
    return begun ? __real_backoff_run(lent->base, lent->slots, lent->check, lent->slots, state, 9, words, count, points, 5,
                                      lengths, 5)
                 : broken;
}

/* The place at which digit j of a sentence's number stands, the lowest digit being 0. */
static uint32_t place_of(const struct lent *lent, uint32_t j) {
    return has("sentences-let-the-last-word-weigh-most") ? j : lent->k - 1 - j;
}

/* The listing over these words as a wrong library makes it. */
static struct backoff_listing list_wrongly(const struct lent *lent, const uint32_t *used, size_t usable) {
    struct backoff_listing listing = {0, 0, 1}, broken = {BACKOFF_BROKEN_NODE, 0, 0}, no_room = {BACKOFF_SHORT_SLICE, 0, 0};
    for (uint32_t i = 0; i < lent->k; i++)
        listing.sentences *= (uint32_t)usable;
    if (lent->words_len < lent->k * (size_t)listing.sentences || lent->totals_len < listing.sentences)
        return no_room;
    for (uint32_t i = 0; i < listing.sentences; i++) {
        uint32_t rest = has("sentences-descend") ? listing.sentences - 1 - i : i;
        for (uint32_t j = 0; j < lent->k; j++, rest /= (uint32_t)usable)
            lent->words[lent->k * i + place_of(lent, j)] = used[rest % usable];
        struct backoff_total total = wrong_total(lent, lent->words + lent->k * i);
        if (total.number != 0) {
            memset(lent->words, 0, lent->k * (size_t)listing.sentences * sizeof *lent->words);
            memset(lent->totals, 0, listing.sentences * sizeof *lent->totals);
            return broken;
        }
        lent->totals[i] = total.total;
    }
    return listing;
}

/* The faults for which a listing is made anew. */
static struct backoff_listing made_anew(const struct lent *lent, struct backoff_listing listing) {
    uint32_t used[MOST];
    bool length = lent->k >= 1 && lent->k <= BACKOFF_SENTENCE_LIMIT;
    size_t usable = listing.number == BACKOFF_ARRAY_HEAD || !length ? 0 : used_words(lent, used);
    if (listing.number == 0 && usable > 0 && usable <= BACKOFF_USABLE_LIMIT)
        return list_wrongly(lent, used, usable);
    if (has("sentences-leave-broken-words-out") && listing.number == 12)
        return list_wrongly(lent, used, usable);
    if (has("sentences-drop-the-seventeenth-word") && listing.number == 22 && length)
        return list_wrongly(lent, used, BACKOFF_USABLE_LIMIT);
    return listing;
}

/* The faults that change an accepted listing. */
static void spoil_accepted(const struct lent *lent, struct backoff_listing *listing) {
    size_t count = listing->sentences, words = lent->k * count;
    if (has("sentences-clear-totals-past-the-listing"))
        memset(lent->totals + count, 0, (lent->totals_len - count) * sizeof *lent->totals);
    if (has("sentences-clear-words-past-the-listing"))
        memset(lent->words + words, 0, (lent->words_len - words) * sizeof *lent->words);
    if (has("sentences-give-one-total-to-all") && count > 1)
        lent->totals[count - 1] = lent->totals[0];
    if (has("sentences-leave-the-last-one-out") && count > 1)
        listing->sentences--;
    if (has("sentences-start-without-words") && count == 0) {
        int32_t state[9];
        listing->number = __real_backoff_start(lent->base, lent->slots, lent->check, lent->slots, state, 9).number;
    }
}

/* The faults of a refused listing. */
static void spoil_refused(const struct lent *lent, struct backoff_listing *listing) {
    if (has("sentences-check-15-before-22") && listing->number == 22 && lent->totals_len == 0)
        listing->number = 15;
    if (has("sentences-list-no-words") && listing->number == 22 && lent->k == 0)
        listing->number = 0, listing->sentences = 1;
    if (has("sentences-keep-a-word-after-12") && listing->number == 12)
        lent->words[0] = 1;
    if (has("sentences-keep-a-total-after-12") && listing->number == 12)
        lent->totals[0] = -1;
    if (has("sentences-clear-all-after-12") && listing->number == 12)
        memset(lent->totals, 0, lent->totals_len * sizeof *lent->totals);
    if (has("sentences-count-after-12") && listing->number == 12)
        listing->sentences = 1;
    if (has("sentences-name-a-sentence") && listing->number == 12)
        listing->place = 1;
    if (has("sentences-write-before-15") && listing->number == 15 && lent->words_len > 0)
        lent->words[0] ^= 1;
    if (has("sentences-write-before-22") && listing->number == 22 && lent->totals_len > 0)
        lent->totals[0] ^= 1;
}

struct backoff_listing __wrap_backoff_sentences(const int32_t *base, size_t base_len, const int32_t *check, size_t check_len,
                                                uint32_t k, uint32_t *words, size_t words_len, int64_t *totals,
                                                size_t totals_len) {
    struct lent lent = {base, check, base_len, k, words, words_len, totals, totals_len};
    struct backoff_listing listing =
        __real_backoff_sentences(base, base_len, check, check_len, k, words, words_len, totals, totals_len);
    if (has("sentences-read-past-the-array"))
        sink = *(const volatile int32_t *)(check + check_len);
    listing = made_anew(&lent, listing);
    if (listing.number == 0)
        spoil_accepted(&lent, &listing);
    else
        spoil_refused(&lent, &listing);
    return listing;
}
