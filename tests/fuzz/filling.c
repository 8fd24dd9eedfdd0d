/* Pruned lists, filled: the complete list is accepted, gives every word the points of the lent one, and lacks nothing. */
#include "fuzz.h"

/* Whether some kept row behind a row is that row followed by one more word. */
static bool is_continued(struct slice table, const bool *kept, size_t row) {
    const int32_t *words = row_of(table, row);
    for (size_t i = row + 1; i < rows_in(table); i++) {
        const int32_t *longer = row_of(table, i);
        if (kept[i] && longer[0] == words[0] + 1 && memcmp(longer + 1, words + 1, (size_t)words[0] * sizeof *words) == 0)
            return true;
    }
    return false;
}

/* From the longest rows down to those of two words, each that no kept row continues may go; the last row stays. */
struct slice pruned_list(void) {
    struct slice table = accepted_list();
    size_t rows = rows_in(table), count = 0, percent = below(80);
    bool *kept = (bool *)block(rows, sizeof(bool)).items;
    for (size_t i = rows; i > 0; i--)
        kept[i - 1] = i == rows || row_of(table, i - 1)[0] == 1 || is_continued(table, kept, i - 1) || !chance(percent);
    for (size_t i = 0; i < rows; i++)
        if (kept[i])
            memmove(ints(table) + BACKOFF_ROW_ITEMS * count++, row_of(table, i), BACKOFF_ROW_ITEMS * 4);
    return part_of(table, 0, BACKOFF_ROW_ITEMS * count);
}

static struct answer fill(struct slice table, size_t items, struct slice *filled) {
    struct slice slices[2] = {table, rubbish(items, 4)};
    struct answer answer = ask(FILL, false, slices);
    *filled = slices[1];
    return answer;
}

/* Points over the filled list are the rule's over the lent one. */
static void see_points(struct slice table, struct slice filled, bool after_start) {
    struct slice words = text(table, below(10));
    struct scored scored = plain(filled, after_start, words, words.count, words.count);
    require(scored.answer.number == 0, "the filled list is accepted");
    for (size_t i = 0; i < words.count; i++)
        require(ints(scored.points)[i] == score_by_rule(table, after_start, words, i).points, "the points of the lent list");
}

void filling_case(void) {
    struct slice table = chance(80) ? pruned_list() : accepted_list(), filled, again;
    if (chance(70))
        soften(table);
    if (chance(20))
        damage_list(&table);
    if (chance(2))
        table = rubbish(below(40), 4);
    struct answer answer = fill(table, 4 * table.count, &filled);
    if (answer.number != BACKOFF_ACCEPTED)
        return;
    size_t items = BACKOFF_ROW_ITEMS * (size_t)answer.total;
    require(fill(table, items - 1, &again).number == BACKOFF_SHORT_SLICE, "one number less gives 15");
    filled = part_of(filled, 0, items);
    require(ask(CHECK, false, &filled).number == BACKOFF_ACCEPTED, "a filled list is accepted");
    require(fill(filled, items, &again).number == BACKOFF_ACCEPTED && same(again, filled), "a complete list comes back");
    see_points(table, filled, true);
    see_points(table, filled, false);
}

/* Words 1 to 300, 1 w for each word w above 1, and so many 1 v w: each of these needs v w. */
static struct slice wide_list(size_t triples) {
    enum { WORDS = 300 };
    struct slice table = block(BACKOFF_ROW_ITEMS * (2 * WORDS - 1 + triples), 4);
    int32_t *row = ints(table);
    memset(table.items, 0, table.count * 4);
    for (int32_t w = 1; w <= WORDS; w++, row += BACKOFF_ROW_ITEMS) {
        row[0] = 1;
        row[1] = w;
    }
    for (int32_t w = 2; w <= WORDS; w++, row += BACKOFF_ROW_ITEMS) {
        row[0] = 2;
        row[1] = 1;
        row[2] = w;
    }
    for (size_t i = 0; i < triples; i++, row += BACKOFF_ROW_ITEMS) {
        row[0] = 3;
        row[1] = 1;
        row[2] = 2 + (int32_t)(i % (WORDS - 1));
        row[3] = 2 + (int32_t)(i / (WORDS - 1));
    }
    return table;
}

/* A list that is filled to the most rows, and one that would have two more. */
void filling_limit_case(void) {
    size_t most = BACKOFF_ROW_LIMIT, items = BACKOFF_ROW_ITEMS * most, triples = (most - 599) / 2;
    struct slice filled;
    struct answer answer = fill(wide_list(triples), items, &filled);
    require(answer.number == BACKOFF_ACCEPTED && answer.total == (int64_t)most, "filled to the most rows");
    require(fill(wide_list(triples), items - 1, &filled).number == BACKOFF_SHORT_SLICE, "one number less gives 15");
    require(fill(wide_list(triples + 1), items, &filled).number == BACKOFF_TABLE_LENGTH, "more rows give 1");
    require(fill(wide_list(triples + 1), 0, &filled).number == BACKOFF_TABLE_LENGTH, "before 15");
}
