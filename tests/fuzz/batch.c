/* Batches, over arrays that a build wrote and over others, beside start and runs, plain scoring and their own parts. */
#include "fuzz.h"
#include <stdlib.h>

struct sheet {
    struct answer answer;
    struct slice points;
    struct slice lengths;
};

static struct sheet batch(struct arrays a, struct slice words, struct slice ends, size_t points, size_t lengths) {
    struct slice slices[6] = {a.base, a.check, words, ends, rubbish(points, 4), rubbish(lengths, 1)};
    struct answer answer = ask(BATCH, false, slices);
    struct sheet sheet = {answer, slices[4], slices[5]};
    return sheet;
}

static int compare_ends(const void *a, const void *b) {
    uint32_t first = *(const uint32_t *)a, second = *(const uint32_t *)b;
    return first < second ? -1 : first > second;
}

/* Ascending ends; the last of them is often that of all words. */
static struct slice drawn_ends(size_t words, size_t sentences) {
    struct slice ends = block(sentences, 4);
    for (size_t i = 0; i < sentences; i++)
        words_of(ends)[i] = (uint32_t)below(words + 1);
    qsort(ends.items, sentences, 4, compare_ends);
    if (sentences > 0 && chance(70))
        words_of(ends)[sentences - 1] = (uint32_t)words;
    return ends;
}

static size_t last_end(struct slice ends) { return ends.count == 0 ? 0 : words_of(ends)[ends.count - 1]; }

static size_t start_of(struct slice ends, size_t sentence) { return sentence == 0 ? 0 : words_of(ends)[sentence - 1]; }

static struct slice closed(struct slice words) {
    struct slice longer = block(words.count + 1, 4);
    memcpy(longer.items, words.items, words.count * 4);
    words_of(longer)[words.count] = BACKOFF_END_WORD;
    return longer;
}

/* Each sentence by start and a run over it and its closing 3; where one of them is refused, so is the sheet, at that
 * sentence. */
static void see_as_runs(struct arrays a, struct slice words, struct slice ends, struct sheet sheet) {
    uint32_t matched[BACKOFF_ORDER_LIMIT] = {0};
    int64_t total = 0;
    for (size_t i = 0; i < ends.count; i++) {
        size_t from = start_of(ends, i), count = words_of(ends)[i] - from;
        struct slice sentence = closed(part_of(words, from, from + count)), state = rubbish(BACKOFF_STATE_LENGTH, 4);
        struct answer begun = start(a, &state);
        struct scored scored = {.answer = begun};
        if (begun.number == 0)
            scored = run(a, state, sentence, count + 1, count + 1);
        if (scored.answer.number != 0) {
            require(sheet.answer.number == 12 && sheet.answer.place == i + 1, "the first sentence that 12 meets");
            return;
        }
        require(sheet.answer.number == 0 || sheet.answer.place > i + 1, "12 at a sentence that meets it");
        if (sheet.answer.number == 0) {
            require(memcmp(ints(sheet.points) + from, scored.points.items, count * 4) == 0, "points as by a run");
            require(memcmp(bytes_of(sheet.lengths) + from, scored.lengths.items, count) == 0, "length bytes as by a run");
        }
        for (size_t j = 0; j <= count; j++)
            matched[(bytes_of(scored.lengths)[j] & 7) - 1]++;
        total += scored.answer.total;
    }
    require(sheet.answer.number == 0 && sheet.answer.total == total, "the total as by runs");
    require(memcmp(matched, sheet.answer.matched, sizeof matched) == 0, "the matched lengths as by runs");
}

/* The first sentences and the others are sheets of their own. */
static void see_parts(struct arrays a, struct slice words, struct slice ends, struct sheet sheet) {
    size_t cut = below(ends.count + 1), from = start_of(ends, cut), last = last_end(ends);
    struct slice others = part_of(ends, cut, ends.count);
    for (size_t i = 0; i < others.count; i++)
        words_of(others)[i] -= (uint32_t)from;
    struct sheet first = batch(a, part_of(words, 0, from), part_of(ends, 0, cut), from, from);
    struct sheet rest = batch(a, part_of(words, from, words.count), others, last - from, last - from);
    require(first.answer.number == 0 && rest.answer.number == 0, "the parts of a sheet");
    require(first.answer.total + rest.answer.total == sheet.answer.total &&
                first.answer.sentences + rest.answer.sentences == sheet.answer.sentences &&
                first.answer.words + rest.answer.words == sheet.answer.words &&
                first.answer.unknown + rest.answer.unknown == sheet.answer.unknown,
            "parts add up");
    for (size_t i = 0; i < BACKOFF_ORDER_LIMIT; i++)
        require(first.answer.matched[i] + rest.answer.matched[i] == sheet.answer.matched[i], "parts add up");
    require(same(first.points, part_of(sheet.points, 0, from)) && same(rest.points, part_of(sheet.points, from, last)),
            "points of the parts");
}

/* Each sentence with its 3 by plain scoring. */
static void see_as_plain(struct slice table, struct slice words, struct slice ends, struct sheet sheet) {
    int64_t total = 0;
    for (size_t i = 0; i < ends.count; i++) {
        size_t from = start_of(ends, i), count = words_of(ends)[i] - from;
        struct scored scored = plain(table, true, closed(part_of(words, from, from + count)), count + 1, count + 1);
        require(memcmp(ints(sheet.points) + from, scored.points.items, count * 4) == 0, "points as by plain scoring");
        total += scored.answer.total;
    }
    require(sheet.answer.total == total, "the total as by plain scoring");
}

/* Lengths and ends out of order, which the checks of every batch judge. */
static void see_refusals(struct arrays a, struct slice words, struct slice ends) {
    struct slice bad = copy_of(ends);
    size_t last = last_end(ends);
    if (bad.count > 0 && chance(70))
        words_of(bad)[below(bad.count)] = chance(50) ? (uint32_t)below(words.count + 3) : (uint32_t)extreme();
    batch(a, words, bad, last, last);
    batch(a, words, ends, last - (last > 0 ? below(2) : 0), last - (last > 0 ? below(2) : 0));
    batch(a, words, bad, below(4), below(4));
}

void batch_case(void) {
    struct slice table = accepted_list(), words = text(table, below(14)), ends = drawn_ends(words.count, below(5));
    bool built = chance(50);
    struct arrays a = built ? build_fitting(table) : other_arrays(table);
    size_t last = last_end(ends);
    struct sheet sheet = batch(a, words, ends, last + below(3), last + below(3));
    require(!built || sheet.answer.number == 0, "a batch over a built array");
    if (sheet.answer.number == 0 || sheet.answer.number == 12)
        see_as_runs(a, words, ends, sheet);
    if (sheet.answer.number == 0)
        see_parts(a, words, ends, sheet);
    if (built)
        see_as_plain(table, words, ends, sheet);
    see_refusals(a, words, ends);
}

/* The most words and the most ends, each with one more; more ends than that are looked at before they are counted. */
void batch_limit_case(void) {
    struct slice table = accepted_list();
    struct arrays a = build_fitting(table);
    size_t most = BACKOFF_RUN_LIMIT;
    struct slice words = text(table, most + 1), ends = drawn_ends(most, most + 1);
    require(batch(a, part_of(words, 0, most), part_of(ends, 0, most), most, most).answer.number == 0,
            "the longest sheet is accepted");
    require(batch(a, words, part_of(ends, 0, 1), most, most).answer.number == 14, "one word more gives 14");
    require(batch(a, part_of(words, 0, most), ends, most, most).answer.number == 14, "one end more gives 14");
    words_of(ends)[most] = (uint32_t)most + 2;
    require(batch(a, words, ends, 0, 0).answer.place == most + 1, "every end is looked at before 14");
}
