/* Filling a pruned list from C: the sample without 4 5. */
#include "test.h"

enum { ITEMS = 80 };

static int32_t filled[ITEMS];

static struct backoff_rows fill(const int32_t *table, size_t items, size_t room) {
    memset(filled, 0x5A, sizeof filled);
    return backoff_fill(table, items, filled, room);
}

static int is_untouched(size_t from) {
    for (size_t i = from; i < ITEMS; i++)
        if (filled[i] != 0x5A5A5A5A)
            return 0;
    return 1;
}

static int is_refused(struct backoff_rows answer, uint32_t number, uint64_t place) {
    return answer.number == number && answer.place == place && answer.rows == 0 && is_untouched(0);
}

int main(void) {
    static const int32_t added[8] = {2, 4, 5, 0, 0, 0, -2000 - 9000, 0};
    int32_t pruned[8][8];
    memcpy(pruned, SAMPLE, 7 * sizeof SAMPLE[0]);
    memcpy(pruned[7], SAMPLE[8], sizeof SAMPLE[8]);
    expect("a complete list comes back", fill(&SAMPLE[0][0], 72, ITEMS).rows == 9 &&
                                             memcmp(filled, SAMPLE, sizeof SAMPLE) == 0 && is_untouched(72));
    expect("the check wants 4 5", is(backoff_check(&pruned[0][0], 64), BACKOFF_SHORTER_ROW, 8));
    struct backoff_rows answer = fill(&pruned[0][0], 64, ITEMS);
    expect("the pruned list is filled", answer.number == 0 && answer.rows == 9 && answer.place == 0);
    expect("by the points of its last word", memcmp(filled + 56, added, sizeof added) == 0);
    expect("and is accepted", is(backoff_check(filled, 72), 0, 0) && is_untouched(72));
    expect("72 numbers are enough", fill(&pruned[0][0], 64, 72).rows == 9);
    expect("71 give 15", is_refused(fill(&pruned[0][0], 64, 71), BACKOFF_SHORT_SLICE, 0));
    expect("63 numbers give 1", is_refused(fill(&pruned[0][0], 63, ITEMS), BACKOFF_TABLE_LENGTH, 0));
    pruned[3][7] = 9001;
    expect("a p above 0 gives 5 at the row that needs it",
           is_refused(fill(&pruned[0][0], 64, ITEMS), BACKOFF_ROW_PROBABILITY, 8));
    memcpy(pruned[6], SAMPLE[8], sizeof SAMPLE[8]);
    expect("the row without the last word stays needed", is_refused(fill(&pruned[0][0], 56, ITEMS), BACKOFF_SHORTER_ROW, 7));
    return counted();
}
