/* ARPA texts: printed from lists in any spelling, changed, and read. */
#include "fuzz.h"
#include <stdio.h>

enum { ROOM_FOR_TEXT = 1 << 20, MOST_LINES = 1 << 12, LOG_UNIT = 10 };

/* The text that is being written. */
static uint8_t written[ROOM_FOR_TEXT];
static size_t length;

static void put_byte(uint8_t byte) {
    if (length < ROOM_FOR_TEXT)
        written[length++] = byte;
}

static void put(const char *bytes) {
    while (*bytes != '\0')
        put_byte((uint8_t)*bytes++);
}

static struct slice text_written(void) {
    struct slice text = block(length, 1);
    memcpy(text.items, written, length);
    return text;
}

/* In some texts there is now and then something that the form does not have. */
static bool misspelled;

static const char *odd(const char *bytes) { return misspelled && below(300) == 0 ? bytes : ""; }

/* ---- the parts of a text */

/* Digits of a number with zeros in front. */
static void put_number(uint64_t number, int digits) {
    char bytes[32];
    snprintf(bytes, sizeof bytes, "%0*llu", digits, (unsigned long long)number);
    put(bytes);
}

/* A logarithm that is rounded to these points, in any of its spellings; those at a half away from zero are frequent. */
static void put_log(int32_t points) {
    uint64_t size = (uint64_t)(points < 0 ? -(int64_t)points : points) * LOG_UNIT;
    uint64_t units = chance(30) ? size : chance(40) && size > 0 ? size - 5 : chance(50) ? size + 4 : size + below(5);
    uint64_t whole = units / 10000000, decimals = units % 10000000;
    int digits = 7;
    put(odd("+"));
    put(points < 0 || (points == 0 && chance(30)) ? "-" : "");
    put(odd("000"));
    put_number(whole, whole < 100 ? 1 + (int)below(3) : 1);
    put(odd("."));
    while (digits > 0 && decimals % 10 == 0 && chance(80)) {
        decimals /= 10;
        digits--;
    }
    if (digits == 0)
        return;
    put(".");
    put_number(decimals, digits);
    put(odd("0000000"));
    put(odd("e0"));
}

/* How the texts of a case look. */
enum looks { SHORT, END_ALIKE, BEGIN_ALIKE, ANY_BYTE, LOOKS };

/* The text of a word; words of one case have different ones. */
static void put_text(int32_t word, enum looks looks) {
    static const char *const marks[] = {"<unk>", "<s>", "</s>"};
    if (word >= 1 && word <= 3) {
        put(marks[word - 1]);
        return;
    }
    if (looks == ANY_BYTE && word >= 4 && word < 200) {
        put_byte((uint8_t)(52 + word));
        return;
    }
    for (int i = 0; looks == BEGIN_ALIKE && i < BACKOFF_TEXT_LIMIT - 11; i++)
        put_byte('x');
    put_number((uint32_t)word, looks == BEGIN_ALIKE ? 11 : 1);
    for (int i = 0; looks == END_ALIKE && i < 50; i++)
        put_byte(i == 0 ? 'w' : 0xFE);
}

static void put_blanks(void) {
    while (chance(10))
        put("\n");
}

static void put_row(const int32_t *row, enum looks looks) {
    put_log(row[6]);
    put(odd(" "));
    for (int32_t i = 1; i <= row[0]; i++) {
        put(i == 1 ? "\t" : " ");
        put(odd(i == 1 ? "\t" : " "));
        put_text(row[i], looks);
        put(odd("0123456789012345678901234567890123456789012345678901234567890123"));
    }
    if (row[7] != 0 || chance(40)) {
        put("\t");
        put_log(row[7]);
    }
    put(odd("\t"));
    put(odd("\r"));
    put(odd(" "));
    put("\n");
    put_blanks();
}

static void put_count(size_t m, size_t count) {
    put("ngram ");
    put_number(m, 1);
    put(chance(50) ? " =" : "=");
    put(chance(50) ? " " : "");
    put(odd(" "));
    put(odd("0000000000"));
    put_number(count, 1 + (int)below(5));
    put(odd(" "));
    put("\n");
    put_blanks();
}

static void put_heading(size_t m) {
    put("\\");
    put_number(m, 1);
    put("-grams:");
    put(odd(" "));
    put("\n");
    put_blanks();
}

/* ---- texts */

/* The rows of a section in any order; now and then one comes twice, with another p, which may be out of range. */
static size_t put_section(struct slice table, int32_t m, enum looks looks) {
    static size_t order[MOST_LINES];
    size_t count = 0, doubled = 0;
    for (size_t i = 0; i < rows_in(table) && count < MOST_LINES; i++)
        if (row_of(table, i)[0] == m)
            order[count++] = i;
    for (size_t i = 1; i < count; i++) {
        size_t other = chance(70) ? below(i + 1) : i, first = order[i];
        order[i] = order[other];
        order[other] = first;
    }
    for (size_t i = 0; i < count; i++) {
        int32_t row[BACKOFF_ROW_ITEMS];
        memcpy(row, row_of(table, order[i]), sizeof row);
        put_row(row, looks);
        if (below(150) == 0) {
            row[6] = chance(50) ? 1000000 : -(int32_t)below(99000000);
            put_row(row, looks);
            doubled++;
        }
    }
    return count + doubled;
}

/* A list as a text; rows of no length from 1 to 5 are left out. The sections are written first, since their lines are
 * counted. */
static struct slice printed(struct slice table) {
    enum looks looks = (enum looks)below(LOOKS);
    misspelled = chance(40);
    size_t lengths = 1, counts[BACKOFF_ORDER_LIMIT + 1];
    for (size_t i = 0; i < rows_in(table); i++) {
        size_t m = (size_t)row_of(table, i)[0];
        lengths = m <= BACKOFF_ORDER_LIMIT && m > lengths ? m : lengths;
    }
    length = 0;
    for (size_t m = 1; m <= lengths; m++) {
        put_heading(m);
        counts[m] = put_section(table, (int32_t)m, looks);
        counts[m] += chance(2) ? 1 : 0;
    }
    put("\\end\\\n");
    put_blanks();
    struct slice sections = text_written();
    length = 0;
    put_blanks();
    put("\\data\\\n");
    for (size_t m = 1; m <= lengths; m++)
        put_count(m, counts[m]);
    for (size_t i = 0; i < sections.count; i++)
        put_byte(bytes_of(sections)[i]);
    return text_written();
}

/* One change of the text: a byte, a part that is left out, a part that comes again elsewhere, an end. */
static struct slice changed(struct slice text) {
    static const char bytes[] = "\t\t  \n\n\r-.=0123456789\\:<>/sunkgra\x1F!\x7F\xFF";
    size_t at = below(text.count + 1), end = at + below(text.count + 1 - at), from = below(text.count + 1);
    size_t part = chance(70) ? below(4) : below(80), size = part < text.count - from ? part : text.count - from;
    const uint8_t *old = bytes_of(text);
    length = 0;
    for (size_t i = 0; i < at; i++)
        put_byte(old[i]);
    switch (below(4)) {
    case 0:
        put_byte((uint8_t)bytes[below(sizeof bytes - 1)]);
        end = at + (chance(50) && at < text.count ? 1 : 0);
        break;
    case 1:
        end = chance(90) && at < text.count ? at + 1 : end;
        break;
    case 2:
        for (size_t i = 0; i < size; i++)
            put_byte(old[from + i]);
        end = at;
        break;
    default:
        end = chance(30) ? text.count : at;
    }
    for (size_t i = end; i < text.count; i++)
        put_byte(old[i]);
    return text_written();
}

/* Two faults of form in one line of a longer row: a word without a line, and a back-off that is none. */
static struct slice unlisted_and_broken(struct slice text) {
    size_t at = 0;
    for (size_t i = 0; i + 1 < text.count; i++)
        if (bytes_of(text)[i] == ' ' && bytes_of(text)[i + 1] != '=' && i > 0 && bytes_of(text)[i - 1] != '=' && chance(20))
            at = i + 1;
    length = 0;
    for (size_t i = 0; i < text.count; i++) {
        if (i == at && at > 0)
            put("no-");
        put_byte(bytes_of(text)[i]);
        if (i >= at && at > 0 && i + 1 < text.count && bytes_of(text)[i + 1] == '\n') {
            put(chance(50) ? "\t" : "");
            at = 0;
        }
    }
    return text_written();
}

/* ---- cases */

/* A length that is often enough, else what is just needed, or one less, or any. */
static size_t about(size_t needed) {
    switch (below(24)) {
    case 0:
        return needed;
    case 1:
        return needed == 0 ? 0 : needed - 1;
    case 2:
        return below(needed + 1);
    case 3:
        return below(9);
    default:
        return needed + below(200);
    }
}

static struct answer read_told(bool to_be_filled, struct slice text, size_t items, size_t bytes, struct slice *table) {
    struct slice slices[3] = {text, rubbish(items, 4), rubbish(bytes, 1)};
    struct answer answer = ask(ARPA, to_be_filled, slices);
    *table = slices[1];
    return answer;
}

static struct answer read_text(struct slice text, size_t items, size_t bytes, struct slice *table) {
    return read_told(false, text, items, bytes, table);
}

static size_t words_in(struct slice table) {
    size_t words = 0;
    for (size_t i = 0; i < rows_in(table); i++)
        words += row_of(table, i)[0] == 1;
    return words < 3 ? 3 : words;
}

/* What is accepted is an accepted list, or one that may be filled. */
void arpa_case(void) {
    bool to_be_filled = chance(50);
    struct slice table = chance(70) ? accepted_list() : pruned_list(), read;
    size_t items = table.count, bytes = BACKOFF_RECORD_BYTES * (words_in(table) + 1);
    if (chance(40))
        damage_list(&table);
    struct slice text = printed(table);
    if (chance(10))
        text = unlisted_and_broken(text);
    for (size_t left = chance(50) ? 0 : 1 + below(2); left > 0; left--)
        text = changed(text);
    if (chance(2))
        text = rubbish(below(300), 1);
    struct answer answer = read_told(to_be_filled, text, about(items), about(bytes), &read);
    if (answer.number != BACKOFF_ACCEPTED)
        return;
    struct slice rows = part_of(read, 0, BACKOFF_ROW_ITEMS * (size_t)answer.total);
    struct slice filling[2] = {rows, rubbish(4 * rows.count, 4)};
    uint32_t checked = ask(CHECK, false, &rows).number, filled = ask(FILL, false, filling).number;
    require(checked == BACKOFF_ACCEPTED || to_be_filled, "an accepted text has an accepted list");
    require(filled == BACKOFF_ACCEPTED || filled == BACKOFF_ROW_PROBABILITY, "an accepted text has a list to fill");
}

/* One-word rows, those of the marks where they are asked for. */
static struct slice long_text(bool marks, size_t others) {
    misspelled = false;
    length = 0;
    put("\\data\\\n");
    put_count(1, others + (marks ? 3 : 0));
    put("\\1-grams:\n");
    put(marks ? "-1\t<unk>\n-1\t<s>\n-1\t</s>\n" : "");
    for (size_t i = 0; i < others; i++) {
        put("0\tw");
        put_number(i, 1);
        put("\n");
    }
    put("\\end\\\n");
    return text_written();
}

/* The most rows, one row more, and the largest word with one more. */
void arpa_limit_case(void) {
    size_t most = BACKOFF_ROW_LIMIT, items = BACKOFF_ROW_ITEMS * (most + 1), bytes = BACKOFF_RECORD_BYTES * (most + 2);
    struct slice table;
    struct answer answer = read_text(long_text(true, most - 3), items, bytes, &table);
    require(answer.number == BACKOFF_ACCEPTED && answer.total == (int64_t)most, "a text of the most rows is accepted");
    require(verdict_on(part_of(table, 0, BACKOFF_ROW_ITEMS * 100), false).number == BACKOFF_ACCEPTED, "its first rows");
    require(ints(table)[BACKOFF_ROW_ITEMS * (most - 1) + 1] == BACKOFF_WORD_LIMIT, "its last word");
    answer = read_text(long_text(true, most - 2), items, bytes, &table);
    require(answer.number == BACKOFF_TABLE_LENGTH && answer.place == 0, "a text of one row more gives 1");
    answer = read_text(long_text(false, most - 2), items, bytes, &table);
    require(answer.number == BACKOFF_ROW_WORDS && answer.place == most - 2, "a text of one word more gives 4");
    answer = read_text(long_text(true, most - 3), BACKOFF_ROW_ITEMS * most - 1, bytes, &table);
    require(answer.number == BACKOFF_SHORT_SLICE, "a table that is one number too short gives 15");
    answer = read_text(long_text(true, most - 3), items, BACKOFF_RECORD_BYTES * (most + 1) - 1, &table);
    require(answer.number == BACKOFF_SHORT_SLICE, "a store that is one byte too short gives 15");
}
