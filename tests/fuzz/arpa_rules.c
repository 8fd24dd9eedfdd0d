/* What requests T-02 and T-08 of document 02 say of an ARPA text, in their own words. The text is read byte by byte, and the words are
 * looked for in the store itself. */
#include "fuzz.h"

enum { FORM = BACKOFF_ARPA_LINE, UNLISTED = BACKOFF_ARPA_WORD, WRONG_COUNT = BACKOFF_ARPA_COUNT };

/* What is left of a line. */
struct line {
    const uint8_t *at;
    const uint8_t *end;
};

/* What has been read: lengths announced with their counts, the section (0 before the first, one above the lengths after the
 * end line), its lines, all rows, and the largest word above 3. */
struct reading {
    struct slice table;
    struct slice store;
    bool begun;
    size_t lengths;
    int64_t counts[BACKOFF_ORDER_LIMIT];
    size_t section;
    int64_t lines;
    size_t rows;
    size_t last_word;
};

/* ---- the parts of a line: each is taken where it stands next */

static bool take(struct line *line, const char *bytes) {
    size_t length = strlen(bytes);
    if ((size_t)(line->end - line->at) < length || memcmp(line->at, bytes, length) != 0)
        return false;
    line->at += length;
    return true;
}

static bool is_whole(const struct line *line) { return line->at == line->end; }

/* As many digits as there are, but no more than `most`; gives back how many. */
static size_t take_digits(struct line *line, size_t most, int64_t *value) {
    size_t taken = 0;
    *value = 0;
    while (taken < most && !is_whole(line) && *line->at >= '0' && *line->at <= '9') {
        *value = 10 * *value + (*line->at++ - '0');
        taken++;
    }
    return taken;
}

/* "An optional minus, one to three digits and optionally a point with one to seven digits, rounded to the nearest point, a
 * half away from zero." "ARPA logs round to six decimals." */
static bool take_log(struct line *line, int32_t *points) {
    bool negative = take(line, "-");
    int64_t whole, decimals = 0;
    if (take_digits(line, 3, &whole) == 0)
        return false;
    if (take(line, ".")) {
        size_t taken = take_digits(line, 7, &decimals);
        if (taken == 0)
            return false;
        for (; taken < 7; taken++)
            decimals *= 10;
    }
    int64_t size = 1000000 * whole + decimals / 10 + (decimals % 10 >= 5 ? 1 : 0);
    *points = (int32_t)(negative ? -size : size);
    return true;
}

/* "1 to 63 bytes each, all above the space." */
static bool take_text(struct line *line, struct line *text) {
    text->at = line->at;
    while (!is_whole(line) && *line->at > ' ')
        line->at++;
    text->end = line->at;
    return text->end > text->at && text->end - text->at <= BACKOFF_TEXT_LIMIT;
}

/* "A tab parts the fields, one space the words. A missing back-off is 0." */
static bool take_row(struct line line, size_t m, int32_t *row, struct line *texts) {
    memset(row, 0, BACKOFF_ROW_ITEMS * sizeof *row);
    row[0] = (int32_t)m;
    if (!take_log(&line, &row[6]))
        return false;
    for (size_t i = 0; i < m; i++)
        if (!take(&line, i == 0 ? "\t" : " ") || !take_text(&line, &texts[i]))
            return false;
    return is_whole(&line) || (take(&line, "\t") && take_log(&line, &row[7]) && is_whole(&line));
}

static bool is_line(struct line line, const char *bytes) { return take(&line, bytes) && is_whole(&line); }

static bool is_heading(struct line line, size_t m) {
    char bytes[] = "\\0-grams:";
    bytes[1] = (char)('0' + m);
    return is_line(line, bytes);
}

/* "One space on either side of = may be absent, counts have one to nine digits." */
static bool take_count(struct line line, size_t m, int64_t *count) {
    char bytes[] = "ngram 0";
    bytes[6] = (char)('0' + m);
    if (!take(&line, bytes))
        return false;
    take(&line, " ");
    if (!take(&line, "="))
        return false;
    take(&line, " ");
    return take_digits(&line, 9, count) > 0 && is_whole(&line);
}

/* ---- words */

static bool is_text(struct line text, const uint8_t *record) {
    size_t length = (size_t)(text.end - text.at);
    return record[0] == length && memcmp(record + 1, text.at, length) == 0;
}

/* The number of a text that the store has, else 0. */
static size_t find_word(const struct reading *reading, struct line text) {
    for (size_t word = 1; word <= reading->last_word && BACKOFF_RECORD_BYTES * (word + 1) <= reading->store.count; word++)
        if (is_text(text, bytes_of(reading->store) + BACKOFF_RECORD_BYTES * word))
            return word;
    return 0;
}

/* "<unk>, <s> and </s> become 1, 2, 3; the others count up from 4." */
static size_t new_word(struct reading *reading, struct line text) {
    if (is_line(text, "<unk>"))
        return BACKOFF_UNKNOWN_WORD;
    if (is_line(text, "<s>"))
        return BACKOFF_START_WORD;
    return is_line(text, "</s>") ? BACKOFF_END_WORD : ++reading->last_word;
}

/* False where the store has no room for the record. */
static bool put_text(struct reading *reading, size_t word, struct line text) {
    if (BACKOFF_RECORD_BYTES * (word + 1) > reading->store.count)
        return false;
    uint8_t *record = bytes_of(reading->store) + BACKOFF_RECORD_BYTES * word;
    record[0] = (uint8_t)(text.end - text.at);
    memcpy(record + 1, text.at, record[0]);
    return true;
}

/* ---- lines; each gives the number of a refusal, or 0 */

/* "17 before 18 .. 15 .. comes after that line's 17 and 18." */
static uint32_t read_row(struct reading *reading, struct line line) {
    int32_t row[BACKOFF_ROW_ITEMS];
    struct line texts[BACKOFF_ORDER_LIMIT];
    size_t m = reading->section;
    if (!take_row(line, m, row, texts))
        return FORM;
    for (size_t i = 0; i < m; i++)
        row[1 + i] = (int32_t)find_word(reading, texts[i]);
    bool fits = true;
    if (m == 1 && row[1] == 0) {
        size_t word = new_word(reading, texts[0]);
        row[1] = (int32_t)word;
        fits = put_text(reading, word, texts[0]);
    }
    for (size_t i = 0; i < m; i++)
        if (row[1 + i] == 0)
            return UNLISTED;
    reading->lines++;
    reading->rows++;
    if (!fits || BACKOFF_ROW_ITEMS * reading->rows > reading->table.count)
        return BACKOFF_SHORT_SLICE;
    memcpy(ints(reading->table) + BACKOFF_ROW_ITEMS * (reading->rows - 1), row, sizeof row);
    return BACKOFF_ACCEPTED;
}

/* "One to five lengths are announced, from 1 upwards." */
static uint32_t read_count(struct reading *reading, struct line line) {
    if (reading->lengths > 0 && is_heading(line, 1)) {
        reading->section = 1;
        return BACKOFF_ACCEPTED;
    }
    if (reading->lengths == BACKOFF_ORDER_LIMIT || !take_count(line, reading->lengths + 1, &reading->counts[reading->lengths]))
        return FORM;
    reading->lengths++;
    return BACKOFF_ACCEPTED;
}

/* "19 for a section whose line count is not the one announced." */
static uint32_t read_section_line(struct reading *reading, struct line line) {
    bool last = reading->section == reading->lengths;
    if (!(last ? is_line(line, "\\end\\") : is_heading(line, reading->section + 1)))
        return read_row(reading, line);
    if (reading->lines != reading->counts[reading->section - 1])
        return WRONG_COUNT;
    reading->section++;
    reading->lines = 0;
    return BACKOFF_ACCEPTED;
}

static uint32_t read_line(struct reading *reading, struct line line) {
    if (is_whole(&line))
        return BACKOFF_ACCEPTED;
    if (!reading->begun) {
        reading->begun = is_line(line, "\\data\\");
        return reading->begun ? BACKOFF_ACCEPTED : FORM;
    }
    if (reading->section == 0)
        return read_count(reading, line);
    return reading->section > reading->lengths ? FORM : read_section_line(reading, line);
}

/* All lines, then the end: "17 for a line not in this form or missing at the file's end". */
static uint32_t read_lines(struct reading *reading, struct slice text, uint64_t *place) {
    struct line line = {bytes_of(text), bytes_of(text)};
    const uint8_t *end = bytes_of(text) + text.count;
    *place = 0;
    while (line.at < end) {
        (*place)++;
        while (line.end < end && *line.end != '\n')
            line.end++;
        uint32_t number = line.end == end ? FORM : read_line(reading, line);
        if (number != BACKOFF_ACCEPTED)
            return number;
        line.at = ++line.end;
    }
    (*place)++;
    return reading->begun && reading->section > reading->lengths ? BACKOFF_ACCEPTED : FORM;
}

/* ---- the whole */

/* "The result is the same rows in list order, those of equal words as they came": each row goes in front of the larger ones. */
static void put_in_order(struct slice table, size_t rows) {
    for (size_t i = 1; i < rows; i++) {
        int32_t row[BACKOFF_ROW_ITEMS];
        memcpy(row, row_of(table, i), sizeof row);
        size_t place = i;
        while (place > 0 && compare_rows(row_of(table, place - 1), row) > 0)
            place--;
        int32_t *hole = ints(table) + BACKOFF_ROW_ITEMS * place;
        memmove(hole + BACKOFF_ROW_ITEMS, hole, (i - place) * sizeof row);
        memcpy(hole, row, sizeof row);
    }
}

static void clear(struct slice slice) {
    if (slice.count > 0)
        memset(slice.items, 0, slice.count * slice.width);
}

/* Fills table and store, and gives the answer. */
struct answer arpa_by_rules(struct slice text, bool to_be_filled, struct slice table, struct slice store) {
    struct reading reading = {.table = table, .store = store, .last_word = BACKOFF_END_WORD};
    struct answer answer = {.number = BACKOFF_ACCEPTED};
    clear(table);
    clear(store);
    answer.number = read_lines(&reading, text, &answer.place);
    if (answer.number == BACKOFF_ACCEPTED) {
        struct slice rows = {table.items, BACKOFF_ROW_ITEMS * reading.rows, sizeof(int32_t)};
        put_in_order(rows, reading.rows);
        answer = verdict_on(rows, to_be_filled);
    }
    if (answer.number == BACKOFF_ACCEPTED) {
        answer.total = (int64_t)reading.rows;
        return answer;
    }
    clear(table);
    clear(store);
    return answer;
}
