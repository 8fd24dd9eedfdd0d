/* A batch from C. */
#include "test.h"

enum { SLOTS = 20 };

static int32_t base[SLOTS];
static int32_t check[SLOTS];
static int32_t points[6];
static uint8_t lengths[6];

/* The sentences of the totals program's sample: 4 5, then 5 4, then 9, then none. The sixth word belongs to no sentence. */
static const uint32_t WORDS[6] = {4, 5, 5, 4, 9, 4};
static const uint32_t ENDS[4] = {2, 4, 5, 5};

static struct backoff_sheet batch(const uint32_t *ends, size_t sentences, size_t room) {
    memset(points, 0x5A, sizeof points);
    memset(lengths, 0x5A, sizeof lengths);
    return backoff_batch(base, SLOTS, check, SLOTS, WORDS, 6, ends, sentences, points, room, lengths, 6);
}

static int is_refused(struct backoff_sheet sheet, uint32_t number, uint64_t place) {
    struct backoff_sheet zeros;
    memset(&zeros, 0, sizeof zeros);
    zeros.number = number;
    zeros.place = place;
    return sheet.number == number && sheet.place == place && sheet.sentences == 0 && sheet.total == 0 && sheet.words == 0 &&
           sheet.unknown == 0 && memcmp(sheet.matched, zeros.matched, sizeof zeros.matched) == 0;
}

static int are_untouched(size_t from) {
    for (size_t i = from; i < 6; i++)
        if (points[i] != 0x5A5A5A5A || lengths[i] != 0x5A)
            return 0;
    return 1;
}

int main(void) {
    static const int32_t expected_points[5] = {-4000, -1000, -12000, -7000, -23000};
    static const uint8_t expected_lengths[5] = {2, 3, 17, 17, 9};
    static const uint32_t matched[5] = {6, 2, 1, 0, 0};
    static const uint32_t falling[3] = {2, 4, 3};
    static const uint32_t past[2] = {6, 7};
    uint32_t work[9];
    expect("no array gives 11", is_refused(batch(ENDS, 4, 6), 11, 0) && are_untouched(0));
    backoff_build(&SAMPLE[0][0], 72, base, SLOTS, check, SLOTS, work, 9);
    struct backoff_sheet sheet = batch(ENDS, 4, 6);
    expect("the sheet is accepted", sheet.number == 0 && sheet.place == 0);
    expect("sentences, words and unknown words", sheet.sentences == 4 && sheet.words == 5 && sheet.unknown == 1);
    expect("the totals program's totals, added", sheet.total == -6500 - 31000 - 33000 - 13000);
    expect("the matched lengths", memcmp(sheet.matched, matched, sizeof matched) == 0);
    expect("points at the words' places", memcmp(points, expected_points, sizeof expected_points) == 0);
    expect("length bytes too", memcmp(lengths, expected_lengths, sizeof expected_lengths) == 0);
    expect("nothing past the last end", are_untouched(5));
    expect("no sentences", is_refused(batch(ENDS, 0, 0), 0, 0) && are_untouched(0));
    expect("an end below the one before gives 20", is_refused(batch(falling, 3, 0), BACKOFF_SENTENCE_ENDS, 3));
    expect("an end past the words gives 20", is_refused(batch(past, 2, 0), 20, 2) && are_untouched(0));
    expect("points up to the last end are enough", batch(ENDS, 4, 5).number == 0);
    expect("one less gives 15", is_refused(batch(ENDS, 4, 4), 15, 0) && are_untouched(0));
    base[2] = 0;
    expect("12 bears the sentence", is_refused(batch(ENDS, 4, 6), 12, 3));
    expect("and leaves zeros up to the last end", points[0] == 0 && lengths[4] == 0 && are_untouched(5));
    return counted();
}
