/* What document 02 says of filling a pruned list, in its own words. */
#include "fuzz.h"
#include <stdlib.h>

/* The points that the list gives the last of these words after the words before it; a 3 among them ends nothing. */
static int32_t points_of(struct slice table, const int32_t *words, int32_t count) {
    int32_t points = 0;
    struct found found = find_row(table, (const uint32_t *)words, (size_t)count);
    for (; !found.listed; found = find_row(table, (const uint32_t *)words, (size_t)count)) {
        points += find_row(table, (const uint32_t *)words, (size_t)count - 1).b;
        words++;
        count--;
    }
    return points + found.p;
}

static void put_row(int32_t *row, const int32_t *words, int32_t count, int32_t p) {
    memset(row, 0, BACKOFF_ROW_ITEMS * sizeof *row);
    row[0] = count;
    memcpy(row + 1, words, (size_t)count * sizeof *words);
    row[6] = p;
}

/* "Each absent row of two or more words that is some listed row without its first words": those of one row, behind the rows
 * that there are already; false where a p is out of range. */
static bool add_absent(struct slice table, const int32_t *row, struct slice all, size_t *rows) {
    for (int32_t first = 1; first + 2 <= row[0]; first++) {
        const int32_t *words = row + 1 + first;
        int32_t count = row[0] - first, p = points_of(table, words, count);
        struct slice known = {all.items, BACKOFF_ROW_ITEMS * *rows, 4};
        if (is_listed(table, words, count))
            continue;
        if (p > 0 || p < BACKOFF_LEAST_PROBABILITY)
            return false;
        if (!is_listed(known, words, count))
            put_row(ints(all) + BACKOFF_ROW_ITEMS * (*rows)++, words, count, p);
    }
    return true;
}

/* "A refusal writes nothing, else the row count is returned and the rest of the second table stays." */
struct answer filling_by_rules(struct slice table, struct slice filled) {
    struct answer answer = verdict_on(table, true);
    if (answer.number != BACKOFF_ACCEPTED)
        return answer;
    struct slice all = block(4 * table.count, 4);
    size_t rows = rows_in(table);
    memcpy(all.items, table.items, table.count * 4);
    for (size_t i = 0; i < rows_in(table); i++) {
        if (!add_absent(table, row_of(table, i), all, &rows)) {
            answer.number = BACKOFF_ROW_PROBABILITY;
            answer.place = i + 1;
            return answer;
        }
    }
    qsort(all.items, rows, BACKOFF_ROW_ITEMS * 4, compare_rows);
    if (rows > BACKOFF_ROW_LIMIT)
        answer.number = BACKOFF_TABLE_LENGTH;
    else if (filled.count < BACKOFF_ROW_ITEMS * rows)
        answer.number = BACKOFF_SHORT_SLICE;
    else
        memcpy(filled.items, all.items, BACKOFF_ROW_ITEMS * rows * 4);
    answer.total = answer.number == BACKOFF_ACCEPTED ? (int64_t)rows : 0;
    return answer;
}
