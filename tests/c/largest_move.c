/* The largest move from C. */
#include "test.h"

enum { SLOTS = 20, WORDS = 20, TOTALS = 11, SENTENCES = 9 };

static int32_t base[SLOTS];
static int32_t check[SLOTS];
static uint32_t words[WORDS];
static int64_t totals[TOTALS];

static struct backoff_move find(uint32_t k, size_t words_len, size_t totals_len) {
    memset(words, 0x5A, sizeof words);
    memset(totals, 0x5A, sizeof totals);
    return backoff_largest_move(base, SLOTS, check, SLOTS, k, words, words_len, totals, totals_len);
}

static int is_move(struct backoff_move move, int64_t distance, uint32_t first, uint32_t second) {
    return move.number == 0 && move.place == 0 && move.distance == distance && move.first == first && move.second == second;
}

static int is_refused(struct backoff_move move, uint32_t number) {
    return move.number == number && move.place == 0 && move.distance == 0 && move.first == 0 && move.second == 0;
}

/* The slices hold what a listing leaves in them. */
static int as_listed(uint32_t k, size_t words_len, size_t totals_len) {
    uint32_t listed[WORDS];
    int64_t scored[TOTALS];
    memset(listed, 0x5A, sizeof listed);
    memset(scored, 0x5A, sizeof scored);
    backoff_sentences(base, SLOTS, check, SLOTS, k, listed, words_len, scored, totals_len);
    return memcmp(words, listed, sizeof words) == 0 && memcmp(totals, scored, sizeof totals) == 0;
}

int main(void) {
    uint32_t work[9];
    expect("no array gives 11", is_refused(find(2, WORDS, TOTALS), 11) && as_listed(2, WORDS, TOTALS));
    backoff_build(&SAMPLE[0][0], 72, base, SLOTS, check, SLOTS, work, 9);
    expect("of one word, 1 and 5", is_move(find(1, WORDS, TOTALS), 19500, 1, 3) && as_listed(1, WORDS, TOTALS));
    expect("of two words, 4 1 and 4 5", is_move(find(2, WORDS, TOTALS), 30000, 4, 6) && as_listed(2, WORDS, TOTALS));
    expect("the pair's totals", totals[6 - 1] - totals[4 - 1] == 30000);
    expect("just enough room", is_move(find(2, 2 * SENTENCES, SENTENCES), 30000, 4, 6));
    expect("less gives 15", is_refused(find(2, 2 * SENTENCES - 1, SENTENCES), 15) && as_listed(2, 0, 0));
    expect("another k gives 22", is_refused(find(5, 0, 0), BACKOFF_LISTING_SIZE) && is_refused(find(0, WORDS, TOTALS), 22));
    base[6] = 0;
    expect("a broken node gives 12", is_refused(find(2, WORDS, TOTALS), 12) && as_listed(2, WORDS, TOTALS));
    check[5] = check[6] = INT32_MIN;
    expect("one usable word, no pair", is_move(find(2, WORDS, TOTALS), 0, 0, 0) && as_listed(2, WORDS, TOTALS));
    check[2] = INT32_MIN;
    expect("no usable word, no pair", is_move(find(2, 0, 0), 0, 0, 0) && as_listed(2, 0, 0));
    return counted();
}
