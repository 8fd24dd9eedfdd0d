/* Each call is made in every placement. Its answer and what it leaves must be the same in all of them, and must be what
 * documents 01 and 02 say, as far as rules.c and array_rules.c tell it. */
#include "fuzz.h"
#include <stdio.h>

/* In one call of LOCKED the slices that are not to be written lie in pages that cannot be written. */
enum { NUMBERS = 23, SMALL_LIST = 8 * 300, SMALL_ARRAY = 4000, SMALL_TEXT = 1 << 16, SMALL_RUN = 100, SMALL_LISTING = 1500, LOCKED = 10 };

#define LIST_NUMBERS (1u << 1 | 0x3Fu << 3 | 1u << 9)

struct form {
    const char *name;
    size_t slices;
    bool written[MOST_SLICES];
    uint32_t numbers; /* bit k: the call may refuse by k, and does so in some case */
};

static const struct form FORMS[CALLS] = {
    {"backoff_check", 1, {false}, LIST_NUMBERS},
    {"backoff_build", 4, {false, true, true, true}, LIST_NUMBERS | 1u << 2 | 1u << 10},
    {"backoff_lookup", 3, {false}, 1u << 11 | 1u << 12 | 1u << 14},
    {"backoff_start", 3, {false, false, true}, 1u << 11 | 1u << 12 | 1u << 16},
    {"backoff_run", 6, {false, false, true, false, true, true}, 1u << 11 | 1u << 12 | 1u << 14 | 1u << 15 | 1u << 16},
    {"backoff_plain", 4, {false, false, true, true}, LIST_NUMBERS | 1u << 14 | 1u << 15},
    {"backoff_unload", 4, {false, false, true, true}, 1u << 11 | 1u << 12 | 1u << 15},
    {"backoff_arpa", 3, {false, true, true}, (LIST_NUMBERS & ~(1u << 3)) | 1u << 15 | 7u << 17},
    {"backoff_batch",
     6,
     {false, false, false, false, true, true},
     1u << 11 | 1u << 12 | 1u << 14 | 1u << 15 | 1u << 20},
    {"backoff_score_fragment", 3, {false}, 1u << 11 | 1u << 12 | 1u << 14},
    {"backoff_join_fragments", 4, {false}, 1u << 11 | 1u << 12 | 1u << 14 | 1u << 21},
    {"backoff_fill", 2, {false, true}, LIST_NUMBERS | 1u << 15},
    {"backoff_sentences", 5, {false, false, false, true, true}, 1u << 11 | 1u << 12 | 1u << 15 | 1u << 22},
    {"backoff_largest_move", 5, {false, false, false, true, true}, 1u << 11 | 1u << 12 | 1u << 15 | 1u << 22},
};

/* How often each call gave each number. */
static uint64_t met[CALLS][NUMBERS];

static struct answer of_status(struct backoff_status status) {
    struct answer answer = {.number = status.number, .place = status.place};
    return answer;
}

static struct answer of_found(struct backoff_found found) {
    struct answer answer = {.number = found.number,
                            .place = found.place,
                            .found = found.found,
                            .p = found.p,
                            .b = found.b,
                            .left = found.left};
    return answer;
}

static struct answer of_total(struct backoff_total total) {
    struct answer answer = {.number = total.number, .place = total.place, .total = total.total};
    return answer;
}

/* The rows count as the total. */
static struct answer of_rows(struct backoff_rows rows) {
    struct answer answer = {.number = rows.number, .place = rows.place, .total = rows.rows};
    return answer;
}

static struct answer of_sheet(struct backoff_sheet sheet) {
    struct answer answer = {.number = sheet.number,
                            .place = sheet.place,
                            .total = sheet.total,
                            .sentences = sheet.sentences,
                            .words = sheet.words,
                            .unknown = sheet.unknown};
    memcpy(answer.matched, sheet.matched, sizeof answer.matched);
    return answer;
}

static struct answer of_listing(struct backoff_listing listing) {
    struct answer answer = {.number = listing.number, .place = listing.place, .sentences = listing.sentences};
    return answer;
}

/* The distance counts as the total. */
static struct answer of_move(struct backoff_move move) {
    struct answer answer = {.number = move.number,
                            .place = move.place,
                            .total = move.distance,
                            .first = move.first,
                            .second = move.second};
    return answer;
}

static struct answer of_joined(struct backoff_joined joined) {
    struct answer answer = {.number = joined.number, .place = joined.place, .fragment = joined.fragment};
    return answer;
}

static struct answer perform(enum call call, bool flag, void *const *p, const struct slice *s) {
    switch (call) {
    case CHECK:
        return of_status(backoff_check(p[0], s[0].count));
    case BUILD:
        return of_status(backoff_build(p[0], s[0].count, p[1], s[1].count, p[2], s[2].count, p[3], s[3].count));
    case LOOKUP:
        return of_found(backoff_lookup(p[0], s[0].count, p[1], s[1].count, p[2], s[2].count));
    case START:
        return of_status(backoff_start(p[0], s[0].count, p[1], s[1].count, p[2], s[2].count));
    case RUN:
        return of_total(backoff_run(p[0], s[0].count, p[1], s[1].count, p[2], s[2].count, p[3], s[3].count, p[4], s[4].count,
                                    p[5], s[5].count));
    case PLAIN:
        return of_total(backoff_plain(p[0], s[0].count, flag, p[1], s[1].count, p[2], s[2].count, p[3], s[3].count));
    case ARPA:
        return of_rows(backoff_arpa(p[0], s[0].count, flag, p[1], s[1].count, p[2], s[2].count));
    case BATCH:
        return of_sheet(backoff_batch(p[0], s[0].count, p[1], s[1].count, p[2], s[2].count, p[3], s[3].count, p[4],
                                      s[4].count, p[5], s[5].count));
    case FILL:
        return of_rows(backoff_fill(p[0], s[0].count, p[1], s[1].count));
    case SENTENCES:
        return of_listing(backoff_sentences(p[0], s[0].count, p[1], s[1].count, words_of(s[2])[0], p[3], s[3].count, p[4],
                                            s[4].count));
    case MOVE:
        return of_move(backoff_largest_move(p[0], s[0].count, p[1], s[1].count, words_of(s[2])[0], p[3], s[3].count, p[4],
                                            s[4].count));
    case FRAGMENT:
        return of_joined(backoff_score_fragment(p[0], s[0].count, p[1], s[1].count, p[2], s[2].count));
    case JOIN:
        return of_joined(backoff_join_fragments(p[0], s[0].count, p[1], s[1].count, fragment_in(s[2]), fragment_in(s[3])));
    default:
        return of_status(backoff_unload(p[0], s[0].count, p[1], s[1].count, p[2], s[2].count, p[3], s[3].count));
    }
}

/* The call with its slices in one placement; the slices get what it left. */
static struct answer ask_at(enum placement placement, enum call call, bool flag, const struct slice *slices) {
    const struct form *form = &FORMS[call];
    void *lent[MOST_SLICES];
    bool locked = placement == AT_END && below(LOCKED) == 0;
    for (size_t i = 0; i < form->slices; i++)
        lent[i] = lend(i, placement, slices[i]);
    for (size_t i = 0; locked && i < form->slices; i++)
        if (!form->written[i])
            allow_writing(i, lent[i], false);
    struct answer answer = perform(call, flag, lent, slices);
    for (size_t i = 0; locked && i < form->slices; i++)
        allow_writing(i, lent[i], true);
    for (size_t i = 0; i < form->slices; i++)
        take_back(placement, slices[i], form->written[i], lent[i]);
    return answer;
}

/* ---- what must hold of a slice */

static bool is_item(struct slice slice, size_t i, int32_t number) {
    return slice.width == 1   ? bytes_of(slice)[i] == (uint8_t)number
           : slice.width == 8 ? totals_of(slice)[i] == number
                              : ints(slice)[i] == number;
}

static bool is_all(struct slice slice, size_t end, int32_t number) {
    for (size_t i = 0; i < end; i++)
        if (!is_item(slice, i, number))
            return false;
    return true;
}

static bool are_zeros(const uint32_t *items, size_t count) {
    for (size_t i = 0; i < count; i++)
        if (items[i] != 0)
            return false;
    return true;
}

static bool is_kept_from(struct slice before, struct slice after, size_t start) {
    size_t skipped = start * before.width;
    return memcmp(bytes_of(before) + skipped, bytes_of(after) + skipped, before.count * before.width - skipped) == 0;
}

/* ---- what must hold of each call */

static void see_verdict(struct slice table, struct answer answer) {
    if (table.count > SMALL_LIST && table.count <= BACKOFF_ROW_LIMIT * 8)
        return;
    struct answer verdict = verdict_on(table, false);
    require(answer.number == verdict.number && answer.place == verdict.place, "number and place of the list");
}

/* All that the rules say; of a large text, what they say of a refused one. */
static void see_arpa(bool to_be_filled, const struct slice *before, const struct slice *after, struct answer answer) {
    if (answer.number != BACKOFF_ACCEPTED)
        require(answer.total == 0 && is_all(after[1], after[1].count, 0) && is_all(after[2], after[2].count, 0),
                "no rows, and table and store 0, where refused");
    if (before[0].count > SMALL_TEXT)
        return;
    struct slice table = copy_of(before[1]), store = copy_of(before[2]);
    struct answer ruled = arpa_by_rules(before[0], to_be_filled, table, store);
    require(answer.number == ruled.number, "the number of an ARPA text");
    require(answer.place == ruled.place, "the place of an ARPA text");
    require(answer.total == ruled.total, "the rows of an ARPA text");
    require(same(after[1], table), "the table of an ARPA text");
    require(same(after[2], store), "the store of an ARPA text");
}

/* All that the rules say; of a long list, what they say of a refused one. */
static void see_filling(const struct slice *before, const struct slice *after, struct answer answer) {
    if (answer.number != BACKOFF_ACCEPTED)
        require(answer.total == 0 && same(before[1], after[1]), "nothing written where filling is refused");
    if (before[0].count > SMALL_LIST)
        return;
    struct slice filled = copy_of(before[1]);
    struct answer ruled = filling_by_rules(before[0], filled);
    require(answer.number == ruled.number && answer.place == ruled.place, "number and place of a filling");
    require(answer.total == ruled.total, "the rows of a filled list");
    require(same(after[1], filled), "the filled list");
}

static bool sizes_fit(struct slice base, struct slice check) {
    return base.count == check.count && base.count >= 2 && base.count <= BACKOFF_SLOT_LIMIT;
}

/* p, b, e and f of a row whose node is in a slot: in its marker, or p alone in its own BASE where it has n words. */
static void see_node(struct slice table, const int32_t *row, const struct slice *after, size_t slot) {
    const int32_t *base = ints(after[1]);
    const int32_t *check = ints(after[2]);
    require(slot < after[1].count && check[slot] >= 0, "the slot of a row");
    if (row[0] == order_in(after[2])) {
        require(base[slot] == row[6] - 1, "p in the slot of a longest row");
        return;
    }
    size_t marker = (size_t)base[slot];
    require(marker < after[1].count && check[marker] == row[6] - 1, "p in the marker of a row");
    struct found found = find_row(table, (const uint32_t *)row + 1, (size_t)row[0]);
    require(base[marker] == 4 * row[7] + (found.extended ? 2 : 0) + (found.continued ? 1 : 0),
            "b, e and f in the marker of a row");
}

/* The head, two slots for the root and for each row but one for those of n words, and the slot of each row. */
static void see_array(struct slice table, const struct slice *after) {
    const int32_t *base = ints(after[1]);
    const int32_t *check = ints(after[2]);
    size_t rows = rows_in(table), taken = 0;
    require(is_head(after[1], after[2]), "the head of a built array");
    require(base[1] == (int32_t)rows && order_in(after[2]) == row_of(table, rows - 1)[0], "rows and order in the head");
    for (size_t i = 0; i < after[1].count; i++) {
        taken += check[i] != INT32_MIN;
        require(check[i] != INT32_MIN || base[i] == 0, "a free slot");
    }
    require(taken == 2 * (rows + 1) - longest_in(table), "the number of slots taken");
    for (size_t i = 0; i < rows; i++)
        see_node(table, row_of(table, i), after, words_of(after[3])[i]);
}

/* The placing rule: 10 exactly where it uses a slot past the end, else every number as it has it. */
static void see_placing(const struct slice *before, const struct slice *after, struct answer answer) {
    struct arrays placed = place_by(before[0], first_fit);
    size_t used = placed.base.count;
    require((answer.number == 10) == (used > after[1].count), "10 exactly where the placing rule leaves the array");
    if (answer.number == 10)
        return;
    require(same(part_of(after[1], 0, used), placed.base), "BASE as the placing rule has it");
    require(same(part_of(after[2], 0, used), placed.check), "CHECK as the placing rule has it");
    require(same(part_of(after[3], 0, rows_in(before[0])), placed.work), "work as the placing rule has it");
}

static void see_build(const struct slice *before, const struct slice *after, struct answer answer) {
    size_t rows = rows_in(before[0]);
    bool length_fits = rows >= 1 && before[0].count % 8 == 0 && rows <= BACKOFF_ROW_LIMIT;
    bool fits = sizes_fit(before[1], before[2]) && before[3].count >= rows;
    require((answer.number == 1) == !length_fits, "1 exactly where the table's length does not fit");
    require((answer.number == 2) == (length_fits && !fits), "2 exactly where the lengths do not fit");
    if (answer.number >= 3 && answer.number <= 9)
        see_verdict(before[0], answer);
    if (answer.number >= 1 && answer.number <= 9) {
        require(same(before[1], after[1]) && same(before[2], after[2]) && same(before[3], after[3]),
                "untouched after 1 to 9");
        return;
    }
    require(is_kept_from(before[3], after[3], rows), "work past the rows");
    if (answer.number == 10) {
        require(is_all(after[1], after[1].count, 0) && is_all(after[2], after[2].count, INT32_MIN),
                "all slots free after 10");
        require(is_all(after[3], rows, 0), "work items of the rows 0 after 10");
    } else {
        see_array(before[0], after);
    }
    if (before[0].count <= SMALL_LIST)
        see_placing(before, after, answer);
}

static void see_lookup(const struct slice *s, struct answer answer) {
    bool head = is_head(s[0], s[1]);
    bool counts = s[2].count >= 1 && s[2].count <= BACKOFF_ORDER_LIMIT;
    require(answer.place == 0 && answer.found <= 1 && answer.left <= 1, "place and flags of a lookup");
    require((answer.number == 11) == !head, "11 exactly where the head is wrong");
    require((answer.number == 14) == (head && !counts), "14 exactly where the count is wrong");
    require(answer.found == 1 || (answer.p == 0 && answer.b == 0 && answer.left == 0), "zeros where nothing is found");
    require(answer.number == 0 || answer.found == 0, "nothing found where refused");
    require(answer.p <= 0 && answer.p >= BACKOFF_LEAST_PROBABILITY, "p in range");
    require(answer.b <= BACKOFF_LARGEST_BACKOFF && answer.b >= BACKOFF_LEAST_BACKOFF, "b in range");
    if (!head || !counts)
        return;
    struct answer ruled = lookup_by_rules(s[0], s[1], s[2]);
    require(answer.number == ruled.number && answer.found == ruled.found, "found or broken as the walk says");
    require(answer.p == ruled.p && answer.b == ruled.b && answer.left == ruled.left, "p, b and left as the walk says");
}

static void see_start(const struct slice *before, const struct slice *after, struct answer answer) {
    bool nine = before[2].count == BACKOFF_STATE_LENGTH;
    bool head = is_head(before[0], before[1]);
    require(answer.place == 0, "place of a start");
    require((answer.number == 16) == !nine, "16 exactly where the state is not nine numbers");
    require((answer.number == 11) == (nine && !head), "11 exactly where the head is wrong");
    if (answer.number == 16)
        require(same(before[2], after[2]), "state untouched after 16");
    else if (answer.number != 0)
        require(is_all(after[2], BACKOFF_STATE_LENGTH, 0), "nine zeros after 11 and 12");
    else
        require(is_state(after[2], order_in(before[1])) && ints(after[2])[0] <= 1, "the state after <s>");
    if (!nine || !head)
        return;
    int32_t state[BACKOFF_STATE_LENGTH];
    require(answer.number == start_by_rules(before[0], before[1], state), "start refused as its walk says");
    require(memcmp(after[2].items, state, sizeof state) == 0, "the state as the walk of <s> says");
}

/* What stands for scored words: a total that is the sum, points that five numbers in range can give, a matched length of 1
 * to n. */
static void see_scored(struct slice points, struct slice lengths, size_t words, int32_t order, int64_t total) {
    int64_t sum = 0;
    for (size_t i = 0; i < words; i++) {
        uint8_t matched = bytes_of(lengths)[i] & 7;
        sum += ints(points)[i];
        require(ints(points)[i] >= 5 * BACKOFF_LEAST_BACKOFF && ints(points)[i] <= 4 * BACKOFF_LARGEST_BACKOFF,
                "points in range");
        require(matched >= 1 && matched <= order && bytes_of(lengths)[i] < 32, "a length byte");
    }
    require(sum == total, "the total is the sum of the points");
}

/* What points and lengths are after a refused or accepted call. */
static void see_outputs(const struct slice *before, const struct slice *after, size_t words, int32_t order,
                        struct answer answer) {
    require(answer.number == 0 || answer.total == 0, "total 0 where refused");
    if (answer.number != 0 && answer.number != 12) {
        require(same(before[0], after[0]) && same(before[1], after[1]), "points and lengths untouched");
        return;
    }
    require(is_kept_from(before[0], after[0], words) && is_kept_from(before[1], after[1], words),
            "points and lengths past the words");
    if (answer.number == 12)
        require(is_all(after[0], words, 0) && is_all(after[1], words, 0), "points and lengths 0 after 12");
    else
        see_scored(after[0], after[1], words, order, answer.total);
}

static void see_run(const struct slice *before, const struct slice *after, struct answer answer) {
    size_t words = before[3].count;
    bool head = is_head(before[0], before[1]);
    bool nine = before[2].count == BACKOFF_STATE_LENGTH;
    int32_t order = head ? order_in(before[1]) : 0;
    bool state = nine && (!head || is_state(before[2], order));
    bool fits = before[4].count >= words && before[5].count >= words;
    require((answer.number == 16) == !state, "16 exactly where the state is wrong");
    require((answer.number == 11) == (nine && !head), "11 exactly where the head is wrong");
    require((answer.number == 14) == (head && state && words > BACKOFF_RUN_LIMIT),
            "14 exactly where there are too many words");
    require((answer.number == 15) == (head && state && words <= BACKOFF_RUN_LIMIT && !fits),
            "15 exactly where a slice is too short");
    require(answer.number == 12 ? answer.place >= 1 && answer.place <= words : answer.place == 0, "place of a run");
    if (answer.number != 0 || words == 0)
        require(same(before[2], after[2]), "the state given, of a refused and of an empty run");
    else
        require(is_state(after[2], order), "the next state");
    see_outputs(before + 4, after + 4, words, order, answer);
    if (!head || !state || !fits || words > SMALL_RUN)
        return;
    struct slice carried = copy_of(before[2]), points = copy_of(before[4]), lengths = copy_of(before[5]);
    struct answer ruled = run_by_rules(before[0], before[1], carried, before[3], points, lengths);
    require(answer.number == ruled.number && answer.place == ruled.place, "a run refused as the walks say");
    require(answer.total == ruled.total && same(after[4], points), "points and total as the walks say");
    require(same(after[5], lengths), "length bytes as the walks say");
    require(same(after[2], carried), "the state as the walks say");
}

/* Points and length bytes are the rule's; of a long text some words are tried. */
static void see_ruled(bool after_start, const struct slice *before, const struct slice *after) {
    for (size_t i = 0; i < before[1].count; i++) {
        if (before[1].count > 100 && below(1000) != 0)
            continue;
        struct ruled ruled = score_by_rule(before[0], after_start, before[1], i);
        require(ints(after[2])[i] == ruled.points, "the rule's points");
        require(bytes_of(after[3])[i] == ruled.byte, "the rule's length byte");
    }
}

static void see_plain(bool after_start, const struct slice *before, const struct slice *after, struct answer answer) {
    size_t words = before[1].count;
    bool listed = answer.number == 0 || answer.number == 14 || answer.number == 15;
    bool fits = before[2].count >= words && before[3].count >= words;
    struct answer verdict = {.number = listed ? 0 : answer.number, .place = answer.place};
    see_verdict(before[0], verdict);
    require((answer.number == 14) == (listed && words > BACKOFF_RUN_LIMIT), "14 exactly where there are too many words");
    require((answer.number == 15) == (listed && words <= BACKOFF_RUN_LIMIT && !fits),
            "15 exactly where a slice is too short");
    int32_t order = answer.number == 0 ? row_of(before[0], rows_in(before[0]) - 1)[0] : 0;
    see_outputs(before + 2, after + 2, words, order, answer);
    if (answer.number == 0)
        see_ruled(after_start, before, after);
}

/* The first sentence, from 1, whose end is below the one before or past the words; 0 where there is none. */
static size_t bad_end(struct slice words, struct slice ends) {
    for (size_t i = 0; i < ends.count; i++)
        if (words_of(ends)[i] > words.count || (i > 0 && words_of(ends)[i] < words_of(ends)[i - 1]))
            return i + 1;
    return 0;
}

/* The counts of an accepted sheet, as far as the lengths tell them: each closing 3 is one scored word more. */
static void see_sheet(struct slice lengths, size_t sentences, size_t last, struct answer answer) {
    uint32_t matched[BACKOFF_ORDER_LIMIT] = {0}, unknown = 0, sum = 0;
    for (size_t i = 0; i < last; i++) {
        uint8_t byte = bytes_of(lengths)[i];
        require((byte & 7) >= 1 && (byte & 7) <= BACKOFF_ORDER_LIMIT && byte < 32, "a length byte");
        matched[(byte & 7) - 1]++;
        unknown += (byte & BACKOFF_UNKNOWN_LENGTH) != 0;
    }
    for (size_t i = 0; i < BACKOFF_ORDER_LIMIT; i++) {
        require(answer.matched[i] >= matched[i], "each word counts in its matched length");
        sum += answer.matched[i];
    }
    require(answer.sentences == sentences && answer.words == last && answer.unknown == unknown, "the counts of a sheet");
    require(sum == last + sentences, "the matched lengths add up to words and sentences");
}

static bool is_zero_sheet(struct answer answer) {
    uint32_t sum = answer.sentences | answer.words | answer.unknown;
    for (size_t i = 0; i < BACKOFF_ORDER_LIMIT; i++)
        sum |= answer.matched[i];
    return sum == 0 && answer.total == 0;
}

static void see_batch(const struct slice *before, const struct slice *after, struct answer answer) {
    bool head = is_head(before[0], before[1]);
    size_t words = before[2].count, sentences = before[3].count, bad = bad_end(before[2], before[3]);
    size_t last = bad != 0 || sentences == 0 ? 0 : words_of(before[3])[sentences - 1];
    bool counts = words <= BACKOFF_RUN_LIMIT && sentences <= BACKOFF_RUN_LIMIT;
    bool fits = before[4].count >= last && before[5].count >= last;
    require((answer.number == 11) == !head, "11 exactly where the head is wrong");
    require((answer.number == 20) == (head && bad != 0), "20 exactly where an end is wrong");
    require((answer.number == 14) == (head && bad == 0 && !counts), "14 exactly where there are too many words or ends");
    require((answer.number == 15) == (head && bad == 0 && counts && !fits), "15 exactly where a slice is too short");
    require(answer.number != 20 || answer.place == bad, "the first end that is wrong");
    require(answer.number != 12 || (answer.place >= 1 && answer.place <= sentences), "place of a broken sentence");
    require(answer.number == 12 || answer.number == 20 || answer.place == 0, "place of a batch");
    require(answer.number == 0 || is_zero_sheet(answer), "a refused sheet is all zeros");
    if (answer.number != 0 && answer.number != 12) {
        require(same(before[4], after[4]) && same(before[5], after[5]), "points and lengths untouched");
        return;
    }
    require(is_kept_from(before[4], after[4], last) && is_kept_from(before[5], after[5], last),
            "points and lengths past the last end");
    if (answer.number == 12)
        require(is_all(after[4], last, 0) && is_all(after[5], last, 0), "points and lengths 0 after 12");
    else
        see_sheet(after[5], sentences, last, answer);
}

/* The number, and the words of the listing; its totals are compared in sentences.c. Gives the sentences of an accepted
 * call, 0 where it is refused. */
static size_t see_listing(const struct slice *before, const struct slice *after, struct answer answer) {
    bool head = is_head(before[0], before[1]);
    uint32_t k = words_of(before[2])[0];
    struct slice usable = head ? usable_words(before[0], before[1]) : block(0, 4);
    bool size = head && is_listing(k, usable.count);
    size_t count = size ? sentence_count(usable.count, k) : 0, words = size ? k * count : 0;
    bool fits = before[3].count >= words && before[4].count >= count;
    require((answer.number == 11) == !head, "11 exactly where the head is wrong");
    require((answer.number == 22) == (head && !size), "22 exactly where there are too many words, or k is wrong");
    require((answer.number == 15) == (size && !fits), "15 exactly where a slice is too short");
    require(answer.place == 0, "place of a listing");
    if (answer.number != 0 && answer.number != 12) {
        require(same(before[3], after[3]) && same(before[4], after[4]), "words and totals untouched");
        return 0;
    }
    require(is_kept_from(before[3], after[3], words) && is_kept_from(before[4], after[4], count),
            "words and totals past the listing");
    if (answer.number == 12)
        require(is_all(after[3], words, 0) && is_all(after[4], count, 0), "words and totals 0 after 12");
    else
        require(same(part_of(after[3], 0, words), sentences_by_rules(usable, k)), "the sentences in their order");
    return answer.number == 12 ? 0 : count;
}

static void see_sentences(const struct slice *before, const struct slice *after, struct answer answer) {
    require(answer.sentences == see_listing(before, after, answer), "the number of sentences");
}

/* The move by all pairs; of a long listing, that the pair is one. */
static void see_move(const struct slice *before, const struct slice *after, struct answer answer) {
    size_t count = see_listing(before, after, answer);
    uint32_t k = words_of(before[2])[0];
    const uint32_t *words = words_of(after[3]);
    if (count <= SMALL_LISTING) {
        struct answer ruled = move_by_rules(after[3], after[4], k, count);
        require(answer.total == ruled.total, "the largest distance, 0 where refused");
        require(answer.first == ruled.first && answer.second == ruled.second, "the earliest pair, zeros where refused");
        return;
    }
    require(answer.first >= 1 && answer.first < answer.second && answer.second <= count, "the numbers of a pair");
    require(differ_at_one_place(words + k * (answer.first - 1), words + k * (answer.second - 1), k), "a pair");
    int64_t apart = totals_of(after[4])[answer.first - 1] - totals_of(after[4])[answer.second - 1];
    require(answer.total == (apart < 0 ? -apart : apart), "the distance of the pair");
}

/* The empty fragment where refused; else one that passes 21, of these first words. */
static void see_first_words(struct backoff_fragment fragment, int32_t order, uint64_t count, const uint32_t *words,
                            size_t words_len) {
    require(fragment.count == count && fragment.kept <= words_len, "the count of a fragment");
    require(are_zeros(fragment.first + fragment.kept, 4 - fragment.kept), "unused first words");
    require(fragment.kept == (count < (uint64_t)order - 1 ? count : (uint64_t)order - 1), "the number of kept words");
    require(memcmp(fragment.first, words, fragment.kept * sizeof *words) == 0, "kept words as they were given");
    require(fragment.state[0] >= 0 && fragment.state[0] < order, "the state of a fragment");
}

static void see_fragment(const struct slice *s, struct answer answer) {
    struct backoff_fragment empty = {0};
    bool head = is_head(s[0], s[1]);
    size_t words = s[2].count;
    require((answer.number == 11) == !head, "11 exactly where the head is wrong");
    require((answer.number == 14) == (head && words > BACKOFF_RUN_LIMIT), "14 exactly where there are too many words");
    require(answer.number == 12 ? answer.place >= 1 && answer.place <= words : answer.place == 0, "place of a fragment");
    if (answer.number != 0) {
        require(same_fragment(answer.fragment, empty), "the empty fragment where refused");
        return;
    }
    require(is_fragment(answer.fragment, order_in(s[1])), "a fragment that 21 lets pass");
    see_first_words(answer.fragment, order_in(s[1]), words, words_of(s[2]), words);
}

static void see_join(const struct slice *s, struct answer answer) {
    struct backoff_fragment empty = {0}, one = fragment_in(s[2]), two = fragment_in(s[3]);
    bool head = is_head(s[0], s[1]);
    int32_t order = head ? order_in(s[1]) : 1;
    uint32_t bad = !head ? 0 : !is_fragment(one, order) ? 1 : !is_fragment(two, order) ? 2 : 0;
    uint64_t count = (uint64_t)one.count + two.count;
    require((answer.number == 11) == !head, "11 exactly where the head is wrong");
    require((answer.number == 21) == (bad != 0), "21 exactly where a fragment is wrong");
    require(bad == 0 || answer.place == bad, "the first fragment that is wrong");
    require((answer.number == 14) == (head && bad == 0 && count > BACKOFF_RUN_LIMIT),
            "14 exactly where there are too many words");
    require(answer.number == 21 || answer.place == 0, "place of a join");
    if (answer.number != 0) {
        require(same_fragment(answer.fragment, empty), "the empty fragment where refused");
        return;
    }
    uint32_t words[8];
    memcpy(words, one.first, one.kept * sizeof *words);
    memcpy(words + one.kept, two.first, two.kept * sizeof *words);
    see_first_words(answer.fragment, order, count, words, one.kept + two.kept);
}

static void see_unload(const struct slice *before, const struct slice *after, struct answer answer) {
    bool head = is_head(before[0], before[1]);
    size_t rows = head ? (size_t)ints(before[0])[1] : 0;
    bool fits = before[2].count >= 8 * rows && before[3].count >= rows;
    require(answer.place == 0, "place of an unload");
    require((answer.number == 11) == !head, "11 exactly where the head is wrong");
    require((answer.number == 15) == (head && !fits), "15 exactly where a slice is too short");
    if (answer.number == 11 || answer.number == 15) {
        require(same(before[2], after[2]) && same(before[3], after[3]), "untouched after 11 and 15");
        return;
    }
    require(is_kept_from(before[2], after[2], 8 * rows) && is_kept_from(before[3], after[3], rows),
            "table and work past the rows");
    if (answer.number == 12)
        require(is_all(after[2], 8 * rows, 0) && is_all(after[3], rows, 0), "rows and slots 0 after 12");
    if (8 * rows > SMALL_LIST || before[0].count > SMALL_ARRAY)
        return;
    struct slice table = copy_of(before[2]), work = copy_of(before[3]);
    require(answer.number == unload_by_rules(before[0], before[1], table, work), "12 exactly where the walks find no list");
    require(same(after[2], table), "the rows as the walks find them");
    require(same(after[3], work), "the slots as the walks find them");
}

static void see(enum call call, bool flag, const struct slice *before, const struct slice *after,
                struct answer answer) {
    require(answer.number == 0 || (answer.number < NUMBERS && (FORMS[call].numbers >> answer.number & 1)),
            "one of the call's numbers");
    require(answer.number != 0 || answer.place == 0, "place 0 where accepted");
    switch (call) {
    case CHECK:
        see_verdict(before[0], answer);
        break;
    case BUILD:
        see_build(before, after, answer);
        break;
    case LOOKUP:
        see_lookup(before, answer);
        break;
    case START:
        see_start(before, after, answer);
        break;
    case RUN:
        see_run(before, after, answer);
        break;
    case PLAIN:
        see_plain(flag, before, after, answer);
        break;
    case ARPA:
        see_arpa(flag, before, after, answer);
        break;
    case BATCH:
        see_batch(before, after, answer);
        break;
    case FRAGMENT:
        see_fragment(before, answer);
        break;
    case JOIN:
        see_join(before, answer);
        break;
    case FILL:
        see_filling(before, after, answer);
        break;
    case SENTENCES:
        see_sentences(before, after, answer);
        break;
    case MOVE:
        see_move(before, after, answer);
        break;
    default:
        see_unload(before, after, answer);
    }
}

static bool same_answer(struct answer a, struct answer b) {
    return a.number == b.number && a.place == b.place && a.found == b.found && a.p == b.p && a.b == b.b &&
           a.left == b.left && a.total == b.total && a.sentences == b.sentences && a.words == b.words &&
           a.unknown == b.unknown && memcmp(a.matched, b.matched, sizeof a.matched) == 0 && a.first == b.first &&
           a.second == b.second && same_fragment(a.fragment, b.fragment);
}

/* The call that is made, or was made last. */
const char *call_name = "";

struct answer ask(enum call call, bool flag, struct slice *slices) {
    const struct form *form = &FORMS[call];
    struct slice before[MOST_SLICES];
    struct answer answer = {.number = 0};
    call_name = form->name;
    memcpy(before, slices, form->slices * sizeof *slices);
    for (int placement = AT_END; placement < PLACEMENTS; placement++) {
        struct slice left[MOST_SLICES];
        for (size_t i = 0; i < form->slices; i++)
            left[i] = form->written[i] ? copy_of(before[i]) : before[i];
        struct answer given = ask_at((enum placement)placement, call, flag, left);
        require(placement == AT_END || same_answer(given, answer), "the same answer in every placement");
        for (size_t i = 0; i < form->slices; i++)
            require(placement == AT_END || same(left[i], slices[i]), "the same slices in every placement");
        answer = given;
        memcpy(slices, left, form->slices * sizeof *slices);
    }
    see(call, flag, before, slices, answer);
    met[call][answer.number]++;
    return answer;
}

/* Prints how often the call gave each of its numbers; true where it gave all of them, 0 too. */
bool report_calls(enum call call) {
    bool all = true;
    printf("%s gave", FORMS[call].name);
    for (uint32_t number = 0; number < NUMBERS; number++) {
        if (number != 0 && !(FORMS[call].numbers >> number & 1))
            continue;
        printf(" %u: %llu%s", (unsigned)number, (unsigned long long)met[call][number],
               met[call][number] == 0 ? " (failed)" : "");
        all = all && met[call][number] != 0;
    }
    printf("\n");
    return all;
}
