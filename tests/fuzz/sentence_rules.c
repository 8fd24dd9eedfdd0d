/* What document 02 says of all small sentences: which there are over an array, in which order, and how far one word moves
 * their totals. */
#include "fuzz.h"

/* "The listed words other than 2 and 3", ascending: those for which the root has a child, be it broken. */
struct slice usable_words(struct slice base, struct slice check) {
    struct slice words = block(BACKOFF_WORD_LIMIT, 4), word = block(1, 4);
    size_t count = 0;
    for (uint32_t next = 1; next <= BACKOFF_WORD_LIMIT && next < base.count; next++) {
        words_of(word)[0] = next;
        struct answer row = lookup_by_rules(base, check, word);
        bool has_child = row.found == 1 || row.number == BACKOFF_BROKEN_NODE;
        if (has_child && next != BACKOFF_START_WORD && next != BACKOFF_END_WORD)
            words_of(words)[count++] = next;
    }
    return part_of(words, 0, count);
}

/* Whether 22 lets the number of words in a sentence and of usable words pass. */
bool is_listing(uint32_t k, size_t usable) {
    return k >= 1 && k <= BACKOFF_SENTENCE_LIMIT && usable <= BACKOFF_USABLE_LIMIT;
}

/* The number of sentences of k words. */
size_t sentence_count(size_t usable, uint32_t k) {
    size_t count = 1;
    for (uint32_t i = 0; i < k; i++)
        count *= usable;
    return count;
}

/* "In ascending order, the first word weighing most, each once": each place goes on to its next word where the one after it
 * has been through all words. */
struct slice sentences_by_rules(struct slice usable, uint32_t k) {
    size_t count = sentence_count(usable.count, k), at[BACKOFF_SENTENCE_LIMIT] = {0};
    struct slice words = block(k * count, 4);
    for (size_t i = 0; i < count; i++) {
        for (uint32_t place = 0; place < k; place++)
            words_of(words)[k * i + place] = words_of(usable)[at[place]];
        for (uint32_t place = k; place > 0 && ++at[place - 1] == usable.count; place--)
            at[place - 1] = 0;
    }
    return words;
}

bool differ_at_one_place(const uint32_t *one, const uint32_t *two, uint32_t k) {
    uint32_t places = 0;
    for (uint32_t i = 0; i < k; i++)
        places += one[i] != two[i];
    return places == 1;
}

/* "The exact largest distance between totals of two sentences that differ at one place, and the pair that reaches it whose
 * first sentence, then second, is earliest": all pairs in this order. Where there is none, all stays 0. */
struct answer move_by_rules(struct slice words, struct slice totals, uint32_t k, size_t count) {
    struct answer move = {.number = BACKOFF_ACCEPTED};
    for (size_t i = 0; i < count; i++) {
        for (size_t j = i + 1; j < count; j++) {
            int64_t apart = totals_of(totals)[i] - totals_of(totals)[j], distance = apart < 0 ? -apart : apart;
            if (!differ_at_one_place(words_of(words) + k * i, words_of(words) + k * j, k))
                continue;
            if (move.first == 0 || distance > move.total)
                move = (struct answer){.total = distance, .first = (uint32_t)i + 1, .second = (uint32_t)j + 1};
        }
    }
    return move;
}
