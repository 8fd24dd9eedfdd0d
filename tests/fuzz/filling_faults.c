/* Wrong libraries with faults in backoff_fill, as faults.c has them for the other calls. */
#include "faults.h"

struct backoff_status __real_backoff_check(const int32_t *, size_t);
struct backoff_rows __real_backoff_fill(const int32_t *, size_t, int32_t *, size_t);

static volatile int32_t sink;

static bool are_words(const int32_t *row, const int32_t *words, int32_t count) {
    return row[0] == count && memcmp(row + 1, words, (size_t)count * sizeof *words) == 0;
}

/* The row of these words, or none. */
static const int32_t *find(const int32_t *table, size_t rows, const int32_t *words, int32_t count) {
    for (size_t i = 0; i < rows; i++)
        if (are_words(table + 8 * i, words, count))
            return table + 8 * i;
    return NULL;
}

/* Some lent row that is these words with one more in front. */
static const int32_t *find_longer(const int32_t *table, size_t rows, const int32_t *words, int32_t count) {
    for (size_t i = 0; i < rows; i++)
        if (table[8 * i] == count + 1 && memcmp(table + 8 * i + 2, words, (size_t)count * sizeof *words) == 0)
            return table + 8 * i;
    return NULL;
}

/* The faults of an added row. */
static void spoil_row(const int32_t *table, size_t rows, int32_t order, int32_t *row) {
    const int32_t *longer = find_longer(table, rows, row + 1, row[0]);
    const int32_t *shorter = find(table, rows, row + 2, row[0] - 1);
    if (has("fill-takes-p-of-the-longer-row") && longer != NULL)
        row[6] = longer[6];
    if (has("fill-takes-p-of-the-shorter-row") && shorter != NULL)
        row[6] = shorter[6];
    if (has("fill-copies-b") && shorter != NULL && row[0] < order)
        row[7] = shorter[7];
    if (has("fill-adds-the-lowest-p"))
        row[6] = BACKOFF_LEAST_PROBABILITY;
}

/* The faults of an accepted filling. */
static void spoil_filled(const int32_t *table, size_t rows, int32_t *filled, size_t filled_len,
                         struct backoff_rows *answer) {
    int32_t order = table[8 * (rows - 1)];
    for (size_t i = 0; i < answer->rows && answer->rows < 2000; i++)
        if (find(table, rows, filled + 8 * i + 1, filled[8 * i]) == NULL)
            spoil_row(table, rows, order, filled + 8 * i);
    if (has("fill-adds-nothing")) {
        memcpy(filled, table, 8 * rows * sizeof *filled);
        answer->rows = (uint32_t)rows;
    }
    if (has("fill-counts-the-added-rows-alone"))
        answer->rows -= (uint32_t)rows;
    if (has("fill-writes-past-the-rows") && filled_len > 8 * answer->rows)
        filled[8 * answer->rows] = 0;
    if (has("fill-leaves-a-word-behind-a-row") && filled[0] == 1)
        filled[2] = 1;
    if (has("fill-writes-past-the-end"))
        *(volatile int32_t *)(filled + filled_len) = 0;
}

/* The faults of a refusal. */
static void spoil_refused(const int32_t *table, size_t rows, int32_t *filled, size_t filled_len,
                          struct backoff_rows *answer) {
    if (has("fill-names-the-next-row") && answer->number == 5 && answer->place < rows)
        answer->place++;
    if (has("fill-names-no-row-for-5") && answer->number == 5)
        answer->place = 0;
    if (has("fill-never-gives-8") && answer->number == 8)
        answer->number = 0, answer->place = 0;
    if (has("fill-writes-before-15") && answer->number == 15 && filled_len > 0)
        filled[0] = table[0] + 1;
    if (has("fill-writes-before-5") && answer->number == 5 && filled_len > 0)
        filled[0] ^= 1;
    if (has("fill-clears-after-a-refusal") && filled_len > 0)
        memset(filled, 0, filled_len * sizeof *filled);
    if (has("fill-counts-after-15") && answer->number == 15)
        answer->rows = (uint32_t)rows;
    if (has("fill-says-15-before-1") && answer->number == 1 && rows > 0 && filled_len < 8 * rows)
        answer->number = 15;
    if (has("fill-never-gives-5") && answer->number == 5 && filled_len >= 8 * rows) {
        memcpy(filled, table, 8 * rows * sizeof *filled);
        answer->number = 0, answer->place = 0, answer->rows = (uint32_t)rows;
    }
}

struct backoff_rows __wrap_backoff_fill(const int32_t *table, size_t table_len, int32_t *filled, size_t filled_len) {
    size_t rows = table_len / 8;
    struct backoff_status checked = __real_backoff_check(table, table_len);
    if (has("fill-wants-a-complete-list") && checked.number == 8) {
        struct backoff_rows refused = {.number = 8, .place = checked.place};
        return refused;
    }
    struct backoff_rows answer = __real_backoff_fill(table, table_len, filled, filled_len);
    if (answer.number == 0)
        spoil_filled(table, rows, filled, filled_len, &answer);
    else
        spoil_refused(table, rows, filled, filled_len, &answer);
    if (has("fill-reads-past-the-table"))
        sink = *(const volatile int32_t *)(table + table_len);
    return answer;
}
