/* Wrong libraries with faults in backoff_largest_move, as faults.c has them for the other calls. */
#include "faults.h"

struct backoff_listing __real_backoff_sentences(const int32_t *, size_t, const int32_t *, size_t, uint32_t, uint32_t *,
                                                size_t, int64_t *, size_t);
struct backoff_move __real_backoff_largest_move(const int32_t *, size_t, const int32_t *, size_t, uint32_t, uint32_t *,
                                                size_t, int64_t *, size_t);

/* All pairs of more sentences take too long. */
enum { MOST_SENTENCES = 1500 };

/* A listing as the call left it. */
struct listed {
    uint32_t k;
    const uint32_t *words;
    const int64_t *totals;
    uint32_t count;
};

/* Whether a wrong library counts two sentences, numbered from 0, as a pair. */
static bool is_pair(const struct listed *listed, uint32_t i, uint32_t j) {
    uint32_t places = 0, last = 0;
    for (uint32_t place = 0; place < listed->k; place++) {
        bool differs = listed->words[listed->k * i + place] != listed->words[listed->k * j + place];
        places += differs;
        last = differs ? place : last;
    }
    if (has("move-takes-pairs-that-differ-at-two-places"))
        return places == 1 || places == 2;
    if (has("move-looks-at-the-last-place-alone"))
        return places == 1 && last == listed->k - 1;
    if (has("move-looks-at-the-first-place-alone"))
        return places == 1 && last == 0;
    if (has("move-leaves-the-last-sentence-out") && j == listed->count - 1)
        return false;
    return places == 1;
}

static int64_t distance_of(const struct listed *listed, uint32_t i, uint32_t j) {
    int64_t apart = listed->totals[j] - listed->totals[i];
    if (has("move-loses-the-sign"))
        return apart;
    return apart < 0 ? -apart : apart;
}

/* Whether a wrong library takes a pair as far apart as the one that it has. */
static bool takes_equal(struct backoff_move move, uint32_t i) {
    if (has("move-names-the-last-pair-of-a-tie"))
        return true;
    return has("move-names-the-last-second-of-a-tie") && move.first == i + 1;
}

/* The largest move as a wrong library finds it. */
static struct backoff_move find_wrongly(const struct listed *listed) {
    struct backoff_move move = {0};
    for (uint32_t i = 0; i < listed->count; i++)
        for (uint32_t j = i + 1; j < listed->count; j++) {
            int64_t distance = distance_of(listed, i, j);
            if (!is_pair(listed, i, j))
                continue;
            if (move.first == 0 || distance > move.distance || (distance == move.distance && takes_equal(move, i)))
                move = (struct backoff_move){0, 0, distance, i + 1, j + 1};
        }
    return move;
}

/* The faults of the answer itself. */
static void spoil_accepted(const struct listed *listed, struct backoff_move *move) {
    uint32_t first = move->first;
    if (has("move-numbers-from-0") && first > 0)
        move->first--, move->second--;
    if (has("move-names-the-second-sentence-first"))
        move->first = move->second, move->second = first;
    if (has("move-names-no-pair-of-equal-totals") && move->distance == 0)
        move->first = move->second = 0;
    if (has("move-names-1-and-2-for-one-word") && listed->count == 1)
        move->first = 1, move->second = 2;
    if (has("move-names-1-and-2-for-no-word") && listed->count == 0)
        move->first = 1, move->second = 2;
}

/* The faults of a refused call. */
static void spoil_refused(struct backoff_move *move, uint32_t *words, size_t words_len, int64_t *totals) {
    if (has("move-names-a-pair-after-12") && move->number == 12)
        move->first = 1, move->second = 2;
    if (has("move-keeps-a-distance-after-22") && move->number == 22)
        move->distance = 1;
    if (has("move-keeps-a-total-after-12") && move->number == 12)
        totals[0] = -1;
    if (has("move-writes-before-15") && move->number == 15 && words_len > 0)
        words[0] ^= 1;
    if (has("move-checks-15-before-22") && move->number == 22 && words_len == 0)
        move->number = 15;
}

/* The call over copies of the slices, so that nothing is listed. */
static struct backoff_move find_unlisted(const int32_t *base, size_t base_len, const int32_t *check, size_t check_len,
                                         uint32_t k, size_t words_len, size_t totals_len) {
    uint32_t *words = malloc((words_len + 1) * sizeof *words);
    int64_t *totals = malloc((totals_len + 1) * sizeof *totals);
    struct backoff_move move =
        __real_backoff_largest_move(base, base_len, check, check_len, k, words, words_len, totals, totals_len);
    free(words);
    free(totals);
    return move;
}

struct backoff_move __wrap_backoff_largest_move(const int32_t *base, size_t base_len, const int32_t *check, size_t check_len,
                                                uint32_t k, uint32_t *words, size_t words_len, int64_t *totals,
                                                size_t totals_len) {
    if (has("move-lists-nothing"))
        return find_unlisted(base, base_len, check, check_len, k, words_len, totals_len);
    struct backoff_move move =
        __real_backoff_largest_move(base, base_len, check, check_len, k, words, words_len, totals, totals_len);
    if (move.number != 0) {
        spoil_refused(&move, words, words_len, totals);
        return move;
    }
    struct backoff_listing listing =
        __real_backoff_sentences(base, base_len, check, check_len, k, words, words_len, totals, totals_len);
    struct listed listed = {k, words, totals, listing.sentences};
    if (listed.count <= MOST_SENTENCES)
        move = find_wrongly(&listed);
    spoil_accepted(&listed, &move);
    return move;
}
