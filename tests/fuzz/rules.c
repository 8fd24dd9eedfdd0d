/* What documents 01 and 02 say of a list, of an array's head and of a state, in their own words. */
#include "fuzz.h"

static bool in_range(int32_t number, int32_t least, int32_t most) { return least <= number && number <= most; }

size_t rows_in(struct slice table) { return table.count / BACKOFF_ROW_ITEMS; }

/* Rows are numbered from 0 here. */
const int32_t *row_of(struct slice table, size_t row) { return ints(table) + BACKOFF_ROW_ITEMS * row; }

/* How many rows have n words. */
size_t longest_in(struct slice table) {
    size_t rows = rows_in(table), longest = 0;
    while (longest < rows && row_of(table, rows - 1 - longest)[0] == row_of(table, rows - 1)[0])
        longest++;
    return longest;
}

/* "Rows ascend strictly by m, then by last word, then the word before it, and so on." */
int compare_rows(const void *a, const void *b) {
    const int32_t *first = (const int32_t *)a;
    const int32_t *second = (const int32_t *)b;
    if (first[0] != second[0])
        return first[0] < second[0] ? -1 : 1;
    for (int32_t i = first[0]; i > 0; i--)
        if (first[i] != second[i])
            return first[i] < second[i] ? -1 : 1;
    return 0;
}

static bool is_row(const int32_t *row, const int32_t *words, int32_t count) {
    return row[0] == count && memcmp(row + 1, words, (size_t)count * sizeof *words) == 0;
}

/* Whether the words are one of the rows before a row. */
static bool is_before(struct slice table, size_t row, const int32_t *words, int32_t count) {
    for (size_t i = 0; i < row; i++)
        if (is_row(row_of(table, i), words, count))
            return true;
    return false;
}

/* p and b of the row of these words, oldest first, and whether a row puts a further word in front of it, or goes on after
 * it. */
struct found find_row(struct slice table, const uint32_t *words, size_t count) {
    struct found found = {false, 0, 0, false, false};
    size_t bytes = count * sizeof *words;
    for (size_t i = 0; i < rows_in(table); i++) {
        const int32_t *row = row_of(table, i);
        if ((size_t)row[0] == count && memcmp(row + 1, words, bytes) == 0) {
            found.listed = true;
            found.p = row[6];
            found.b = row[7];
        }
        bool longer = (size_t)row[0] == count + 1;
        found.extended = found.extended || (longer && memcmp(row + 2, words, bytes) == 0);
        found.continued = found.continued || (longer && memcmp(row + 1, words, bytes) == 0);
    }
    return found;
}

/* "First every word without a one-word row is replaced by 1." */
static uint32_t replaced(struct slice table, uint32_t word) {
    return find_row(table, &word, 1).listed ? word : BACKOFF_UNKNOWN_WORD;
}

static size_t order_of(struct slice table) { return (size_t)row_of(table, rows_in(table) - 1)[0]; }

/* How many of the words before a word (numbered from 0) its history has, n - 1 at most, and whether a 2 stands before them:
 * where start was used and they are all that there are, or where the word before them is given as 3 (T-03). */
static size_t history_words(struct slice words, size_t word, bool after_start, size_t most, bool *begins) {
    size_t count = 0;
    while (count < most && count < word && words_of(words)[word - count - 1] != BACKOFF_END_WORD)
        count++;
    *begins = count < most && (count < word || after_start);
    return count;
}

/* The history of a word, replaced, oldest first; gives how many words it has. */
static size_t history_of(struct slice table, bool after_start, struct slice words, size_t word, uint32_t *history) {
    bool begins;
    size_t count = history_words(words, word, after_start, order_of(table) - 1, &begins);
    size_t at = 0;
    if (begins)
        history[at++] = replaced(table, BACKOFF_START_WORD);
    for (size_t i = word - count; i < word; i++)
        history[at++] = replaced(table, words_of(words)[i]);
    return at;
}

/* "If history and word together are listed, the points are that row's p. Otherwise they are b of the history (0 if it is
 * unlisted) plus the points of the word after the history without its oldest word." The length byte has the words of the row
 * whose p was used, 8 if the word is unknown, and 16 if some row puts a further word in front of that row. */
struct ruled score_by_rule(struct slice table, bool after_start, struct slice words, size_t word) {
    uint32_t row[BACKOFF_ORDER_LIMIT];
    struct ruled ruled = {0, 0};
    size_t count = history_of(table, after_start, words, word, row);
    row[count] = replaced(table, words_of(words)[word]);
    size_t oldest = 0;
    struct found found = find_row(table, row, count + 1);
    for (; !found.listed; found = find_row(table, row + oldest, count + 1 - oldest)) {
        ruled.points += find_row(table, row + oldest, count - oldest).b;
        oldest++;
    }
    ruled.points += found.p;
    ruled.byte = (uint8_t)(count + 1 - oldest + (row[count] == BACKOFF_UNKNOWN_WORD ? BACKOFF_UNKNOWN_LENGTH : 0) +
                           (found.extended ? BACKOFF_EXTENDED_LENGTH : 0));
    return ruled;
}

/* "The state after a history is its longest live suffix"; "a row is live if its b is not 0 or its f is 1". */
struct slice state_after(struct slice table, bool after_start, struct slice words) {
    uint32_t history[BACKOFF_ORDER_LIMIT];
    size_t count = history_of(table, after_start, words, words.count, history);
    struct slice state = block(BACKOFF_STATE_LENGTH, 4);
    memset(state.items, 0, BACKOFF_STATE_LENGTH * 4);
    for (size_t length = 1; length <= count; length++) {
        struct found row = find_row(table, history + count - length, length);
        if (row.listed && (row.b != 0 || row.continued))
            ints(state)[0] = (int32_t)length;
    }
    for (size_t length = 1; length <= (size_t)ints(state)[0]; length++) {
        ints(state)[length] = (int32_t)history[count - length];
        ints(state)[4 + length] = find_row(table, history + count - length, length).b;
    }
    return state;
}

static bool words_fit(const int32_t *row) {
    for (int32_t i = 1; i <= BACKOFF_ORDER_LIMIT; i++)
        if (i <= row[0] ? !in_range(row[i], 1, BACKOFF_WORD_LIMIT) : row[i] != 0)
            return false;
    return true;
}

bool is_listed(struct slice table, const int32_t *words, int32_t count) {
    return is_before(table, rows_in(table), words, count);
}

/* Whether the rows that a row needs are before it. Where filling follows, "8 is kept for an absent row without the last word
 * and for an absent one-word row". */
static bool has_shorter(struct slice table, size_t i, bool to_be_filled) {
    const int32_t *row = row_of(table, i);
    bool newest = to_be_filled ? is_before(table, i, row + row[0], 1) : is_before(table, i, row + 2, row[0] - 1);
    return newest && is_before(table, i, row + 1, row[0] - 1);
}

/* 3 to 8 on one row. */
static uint32_t row_fault(struct slice table, size_t i, bool to_be_filled) {
    const int32_t *row = row_of(table, i);
    int32_t order = row_of(table, rows_in(table) - 1)[0];
    if (!in_range(row[0], 1, BACKOFF_ORDER_LIMIT))
        return BACKOFF_ROW_LENGTH;
    if (!words_fit(row))
        return BACKOFF_ROW_WORDS;
    if (!in_range(row[6], BACKOFF_LEAST_PROBABILITY, 0))
        return BACKOFF_ROW_PROBABILITY;
    if (!in_range(row[7], BACKOFF_LEAST_BACKOFF, BACKOFF_LARGEST_BACKOFF) || (row[0] == order && row[7] != 0))
        return BACKOFF_ROW_BACKOFF;
    if (i > 0 && compare_rows(row - BACKOFF_ROW_ITEMS, row) >= 0)
        return BACKOFF_ROW_ORDER;
    if (row[0] > 1 && !has_shorter(table, i, to_be_filled))
        return BACKOFF_SHORTER_ROW;
    return BACKOFF_ACCEPTED;
}

/* "1, then row by row 3 to 8, then 9." */
struct answer verdict_on(struct slice table, bool to_be_filled) {
    struct answer verdict = {.number = BACKOFF_TABLE_LENGTH};
    size_t rows = rows_in(table);
    if (rows == 0 || table.count % BACKOFF_ROW_ITEMS != 0 || rows > BACKOFF_ROW_LIMIT)
        return verdict;
    for (size_t i = 0; i < rows; i++) {
        verdict.number = row_fault(table, i, to_be_filled);
        verdict.place = (uint32_t)i + 1;
        if (verdict.number != BACKOFF_ACCEPTED)
            return verdict;
    }
    static const int32_t marks[] = {BACKOFF_UNKNOWN_WORD, BACKOFF_START_WORD, BACKOFF_END_WORD};
    bool has_marks = is_listed(table, &marks[0], 1) && is_listed(table, &marks[1], 1) && is_listed(table, &marks[2], 1);
    verdict.number = has_marks ? BACKOFF_ACCEPTED : BACKOFF_RESERVED_WORD;
    verdict.place = 0;
    return verdict;
}

/* "CHECK[0] becomes n + 24." */
int32_t order_in(struct slice check) { return ints(check)[0] - HEAD; }

/* What 11 lets pass. */
bool is_head(struct slice base, struct slice check) {
    if (base.count != check.count || base.count < 2 || base.count > BACKOFF_SLOT_LIMIT)
        return false;
    return ints(base)[0] == 1 && in_range(ints(check)[0], HEAD + 1, HEAD + BACKOFF_ORDER_LIMIT) && ints(check)[1] == -1 &&
           in_range(ints(base)[1], 3, BACKOFF_ROW_LIMIT);
}

/* What 16 lets pass. */
static bool are_state(const int32_t *numbers, int32_t order) {
    if (!in_range(numbers[0], 0, order - 1))
        return false;
    for (int32_t i = 0; i < 4; i++) {
        int32_t word = numbers[1 + i];
        int32_t backoff = numbers[5 + i];
        bool fits = i < numbers[0] ? in_range(word, 1, BACKOFF_WORD_LIMIT) &&
                                         in_range(backoff, BACKOFF_LEAST_BACKOFF, BACKOFF_LARGEST_BACKOFF)
                                   : word == 0 && backoff == 0;
        if (!fits)
            return false;
    }
    return true;
}

bool is_state(struct slice state, int32_t order) { return are_state(ints(state), order); }

static uint32_t smaller(uint32_t a, uint32_t b) { return a < b ? a : b; }

/* What 21 lets pass: as many kept words as the smaller of n - 1 and the count, a state that 16 lets pass, and a total no
 * further from 0 than the count times n times the largest back-off. */
bool is_fragment(struct backoff_fragment fragment, int32_t order) {
    int64_t bound = (int64_t)fragment.count * order * BACKOFF_LARGEST_BACKOFF;
    return fragment.kept == smaller((uint32_t)order - 1, fragment.count) && are_state(fragment.state, order) &&
           fragment.total >= -bound && fragment.total <= bound;
}

bool same_fragment(struct backoff_fragment a, struct backoff_fragment b) {
    return a.total == b.total && a.count == b.count && a.kept == b.kept &&
           memcmp(a.first, b.first, sizeof a.first) == 0 && memcmp(a.state, b.state, sizeof a.state) == 0;
}
