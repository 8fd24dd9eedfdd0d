/* Wrong libraries with faults in backoff_batch, as faults.c has them for the other calls. */
#include "faults.h"

struct backoff_status __real_backoff_start(const int32_t *, size_t, const int32_t *, size_t, int32_t *, size_t);
struct backoff_total __real_backoff_run(const int32_t *, size_t, const int32_t *, size_t, int32_t *, size_t,
                                        const uint32_t *, size_t, int32_t *, size_t, uint8_t *, size_t);
struct backoff_sheet __real_backoff_batch(const int32_t *, size_t, const int32_t *, size_t, const uint32_t *, size_t,
                                          const uint32_t *, size_t, int32_t *, size_t, uint8_t *, size_t);

static volatile uint32_t sink;

/* What a call is lent. */
struct lent {
    const int32_t *base;
    const int32_t *check;
    size_t slots;
    const uint32_t *words;
    size_t words_len;
    const uint32_t *ends;
    size_t ends_len;
    int32_t *points;
    size_t points_len;
    uint8_t *lengths;
    size_t lengths_len;
};

/* Points and length of the 3 that closes a sentence, scored from start's state or from nine zeros; the sentence's own points
 * are written to `points`. */
static struct backoff_total close_sentence(const struct lent *lent, bool begin, size_t from, size_t to, int32_t *points,
                                           uint8_t *length) {
    static const uint32_t end = BACKOFF_END_WORD;
    int32_t state[9] = {0}, closing;
    uint8_t *bytes = malloc(to - from + 1);
    struct backoff_total total = {BACKOFF_BROKEN_NODE, 0, 0};
    if (begin)
        __real_backoff_start(lent->base, lent->slots, lent->check, lent->slots, state, 9);
    if (bytes != NULL)
        total = __real_backoff_run(lent->base, lent->slots, lent->check, lent->slots, state, 9, lent->words + from,
                                   to - from, points, to - from, bytes, to - from);
    if (total.number == 0)
        total = __real_backoff_run(lent->base, lent->slots, lent->check, lent->slots, state, 9, &end, 1, &closing, 1, length,
                                   1);
    free(bytes);
    return total;
}

/* The faults that need the closing 3 of each sentence. */
static void spoil_sentences(const struct lent *lent, struct backoff_sheet *sheet) {
    size_t from = 0;
    for (size_t i = 0; sheet->number == 0 && i < lent->ends_len; i++) {
        size_t to = lent->ends[i];
        int32_t *points = malloc((to - from + 1) * sizeof *points);
        uint8_t length = 0;
        if (points == NULL)
            return;
        struct backoff_total closing =
            close_sentence(lent, !has("batch-begins-without-start"), from, to, points, &length);
        if (has("batch-begins-without-start") && closing.number == 0)
            memcpy(lent->points + from, points, (to - from) * sizeof *points);
        if (has("batch-leaves-the-closing-3s-out-of-the-lengths") && length != 0)
            sheet->matched[(length & 7) - 1]--;
        if (has("batch-leaves-the-closing-3s-out-of-the-total"))
            sheet->total -= closing.total;
        if (has("batch-counts-an-unknown-closing-3") && (length & BACKOFF_UNKNOWN_LENGTH) != 0)
            sheet->unknown++;
        free(points);
        from = to;
    }
}

/* The faults that change an accepted sheet or what it left. */
static void spoil_accepted(const struct lent *lent, struct backoff_sheet *sheet, size_t last) {
    if (has("batch-counts-the-closing-3s-as-words"))
        sheet->words += sheet->sentences;
    if (has("batch-counts-the-words-after-the-last-end"))
        sheet->words = (uint32_t)lent->words_len;
    if (has("batch-leaves-out-empty-sentences") && lent->ends_len > 1 && lent->ends[0] == 0)
        sheet->sentences--;
    if (has("batch-writes-past-the-last-end") && lent->points_len > last)
        lent->points[last] = 0;
    if (has("batch-writes-lengths-past-the-last-end") && lent->lengths_len > last)
        lent->lengths[last] = 2;
    if (has("batch-adds-up-wrong") && lent->ends_len > 2)
        sheet->total++;
    if (has("batch-reads-an-end-past-the-slice"))
        sink = *(const volatile uint32_t *)(lent->ends + lent->ends_len);
    spoil_sentences(lent, sheet);
}

/* The faults of a refused sheet. */
static void spoil_refused(const struct lent *lent, struct backoff_sheet *sheet, size_t last) {
    bool counts = lent->words_len <= BACKOFF_RUN_LIMIT && lent->ends_len <= BACKOFF_RUN_LIMIT;
    if (has("batch-checks-14-before-20") && sheet->number == 20 && !counts)
        sheet->number = 14, sheet->place = 0;
    if (has("batch-takes-falling-ends") && sheet->number == 20 && lent->ends[sheet->place - 1] <= lent->words_len)
        sheet->number = 0, sheet->place = 0;
    if (has("batch-names-the-end-before") && sheet->number == 20)
        sheet->place--;
    if (has("batch-names-the-next-sentence") && sheet->number == 12 && sheet->place < lent->ends_len)
        sheet->place++;
    if (has("batch-names-no-sentence") && sheet->number == 12)
        sheet->place = 0;
    if (has("batch-keeps-points-after-12") && sheet->number == 12 && last > 0)
        lent->points[last - 1] = -1;
    if (has("batch-keeps-a-length-after-12") && sheet->number == 12 && last > 0)
        lent->lengths[0] = 1;
    if (has("batch-clears-all-points-after-12") && sheet->number == 12)
        memset(lent->points, 0, lent->points_len * sizeof *lent->points);
    if (has("batch-leaves-a-sheet-after-12") && sheet->number == 12)
        sheet->sentences = (uint32_t)lent->ends_len;
    if (has("batch-writes-before-20") && sheet->number == 20 && lent->points_len > 0)
        lent->points[0] ^= 1;
    if (has("batch-writes-before-15") && sheet->number == 15 && lent->lengths_len > 0)
        lent->lengths[0] ^= 1;
}

struct backoff_sheet __wrap_backoff_batch(const int32_t *base, size_t base_len, const int32_t *check, size_t check_len,
                                          const uint32_t *words, size_t words_len, const uint32_t *ends, size_t ends_len,
                                          int32_t *points, size_t points_len, uint8_t *lengths, size_t lengths_len) {
    struct backoff_sheet sheet = __real_backoff_batch(base, base_len, check, check_len, words, words_len, ends, ends_len,
                                                      points, points_len, lengths, lengths_len);
    struct lent lent = {base,     check,  base_len,   words,   words_len,  ends,
                        ends_len, points, points_len, lengths, lengths_len};
    size_t last = sheet.number == 20 || ends_len == 0 ? 0 : ends[ends_len - 1];
    if (has("batch-wants-room-for-all-words") && sheet.number == 0 && points_len < words_len) {
        struct backoff_sheet refused = {.number = 15};
        return refused;
    }
    if (has("batch-starts-without-sentences") && sheet.number == 0 && ends_len == 0) {
        int32_t state[9];
        sheet.number = __real_backoff_start(base, base_len, check, check_len, state, 9).number;
    }
    if (sheet.number == 0)
        spoil_accepted(&lent, &sheet, last);
    else
        spoil_refused(&lent, &sheet, last);
    return sheet;
}
