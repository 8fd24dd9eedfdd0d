/* All small sentences from C. */
#include "test.h"

enum { SLOTS = 20, WORDS = 20, TOTALS = 11, SENTENCES = 9 };

static int32_t base[SLOTS];
static int32_t check[SLOTS];
static uint32_t words[WORDS];
static int64_t totals[TOTALS];

static struct backoff_listing list(uint32_t k, size_t words_len, size_t totals_len) {
    memset(words, 0x5A, sizeof words);
    memset(totals, 0x5A, sizeof totals);
    return backoff_sentences(base, SLOTS, check, SLOTS, k, words, words_len, totals, totals_len);
}

static int is_listing(struct backoff_listing listing, uint32_t number, uint32_t sentences) {
    return listing.number == number && listing.place == 0 && listing.sentences == sentences;
}

static int are_untouched(size_t first_word, size_t first_total) {
    for (size_t i = first_word; i < WORDS; i++)
        if (words[i] != 0x5A5A5A5A)
            return 0;
    for (size_t i = first_total; i < TOTALS; i++)
        if (totals[i] != 0x5A5A5A5A5A5A5A5A)
            return 0;
    return 1;
}

static int are_zeros(size_t words_len, size_t totals_len) {
    for (size_t i = 0; i < words_len; i++)
        if (words[i] != 0)
            return 0;
    for (size_t i = 0; i < totals_len; i++)
        if (totals[i] != 0)
            return 0;
    return 1;
}

int main(void) {
    static const uint32_t expected_words[2 * SENTENCES] = {1, 1, 1, 4, 1, 5, 4, 1, 4, 4, 4, 5, 5, 1, 5, 4, 5, 5};
    static const int64_t expected_totals[SENTENCES] = {-53000, -41000, -33500, -36500, -24500,
                                                       -6500,  -43000, -31000, -23500};
    uint32_t work[9];
    expect("no array gives 11", is_listing(list(2, WORDS, TOTALS), 11, 0) && are_untouched(0, 0));
    backoff_build(&SAMPLE[0][0], 72, base, SLOTS, check, SLOTS, work, 9);
    expect("nine sentences of two words", is_listing(list(2, WORDS, TOTALS), 0, SENTENCES));
    expect("their words", memcmp(words, expected_words, sizeof expected_words) == 0);
    expect("their totals", memcmp(totals, expected_totals, sizeof expected_totals) == 0);
    expect("nothing past the listing", are_untouched(2 * SENTENCES, SENTENCES));
    expect("three sentences of one word", is_listing(list(1, 3, 3), 0, 3) && words[0] == 1 && totals[1] == -16500);
    expect("just enough room", is_listing(list(2, 2 * SENTENCES, SENTENCES), 0, SENTENCES));
    expect("one word less gives 15", is_listing(list(2, 2 * SENTENCES - 1, SENTENCES), 15, 0) && are_untouched(0, 0));
    expect("one total less gives 15", is_listing(list(2, 2 * SENTENCES, SENTENCES - 1), 15, 0) && are_untouched(0, 0));
    expect("no words give 22", is_listing(list(0, 0, 0), BACKOFF_LISTING_SIZE, 0) && are_untouched(0, 0));
    expect("five words give 22 before 15", is_listing(list(5, 0, 0), 22, 0));
    expect("as many as there may be", is_listing(list(UINT32_MAX, WORDS, TOTALS), 22, 0) && are_untouched(0, 0));
    base[6] = 0;
    expect("a broken node gives 12", is_listing(list(2, WORDS, TOTALS), 12, 0));
    expect("and leaves zeros where the listing would stand",
           are_zeros(2 * SENTENCES, SENTENCES) && are_untouched(2 * SENTENCES, SENTENCES));
    expect("15 before 12", is_listing(list(2, WORDS, SENTENCES - 1), 15, 0));
    check[2] = check[5] = check[6] = INT32_MIN;
    expect("no usable word, no sentence", is_listing(list(4, 0, 0), 0, 0) && are_untouched(0, 0));
    return counted();
}
