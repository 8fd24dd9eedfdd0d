/* Wrong libraries that read ARPA texts, which the fuzzer must catch: some change what the real call left, some have it read
 * another text. */
#include "faults.h"

struct backoff_rows __real_backoff_arpa(const uint8_t *, size_t, bool, int32_t *, size_t, uint8_t *, size_t);

enum { ROOM_FOR_TEXT = 1 << 21 };

static volatile uint8_t sink;

/* The text that is read instead. */
static uint8_t other[ROOM_FOR_TEXT];
static size_t length;

static void put(const uint8_t *from, const uint8_t *to) {
    while (from < to && length < ROOM_FOR_TEXT)
        other[length++] = *from++;
}

static void put_string(const char *bytes) { put((const uint8_t *)bytes, (const uint8_t *)bytes + strlen(bytes)); }

/* Behind the line that begins here; a text without an LF at its end has no such line. */
static const uint8_t *behind_line(const uint8_t *at, const uint8_t *end) {
    while (at < end && *at != '\n')
        at++;
    return at < end ? at + 1 : at;
}

static size_t tabs_in(const uint8_t *at, const uint8_t *end) {
    size_t tabs = 0;
    for (; at < end; at++)
        tabs += *at == '\t';
    return tabs;
}

static bool is_digit(uint8_t byte) { return byte >= '0' && byte <= '9'; }

/* ---- other texts */

/* A 5 in the seventh decimal becomes a 4. */
static void halve_toward_zero(const uint8_t *text, const uint8_t *end) {
    put(text, end);
    for (size_t i = 0; i + 7 < length; i++) {
        size_t digits = 0;
        while (digits < 7 && other[i] == '.' && is_digit(other[i + 1 + digits]))
            digits++;
        if (digits == 7 && other[i + 7] == '5')
            other[i + 7] = '4';
    }
}

/* The rows of each section but the first, whose order numbers the words, in the opposite order. */
static void reverse_sections(const uint8_t *text, const uint8_t *end) {
    size_t headings = 0;
    while (text < end) {
        const uint8_t *from = text, *to = text;
        while (headings > 2 && to < end && tabs_in(to, behind_line(to, end)) > 0)
            to = behind_line(to, end);
        for (const uint8_t *at = to; at > from;) {
            const uint8_t *begin = at - 1;
            while (begin > from && begin[-1] != '\n')
                begin--;
            put(begin, at);
            at = begin;
        }
        headings += to < end && *to == '\\';
        text = behind_line(to, end);
        put(to, text);
    }
}

/* A row without a back-off gets that of the row before it: the last tab of that row and what follows. */
static void keep_backoffs(const uint8_t *text, const uint8_t *end) {
    const uint8_t *kept = NULL, *kept_end = NULL;
    for (const uint8_t *next; text < end; text = next) {
        next = behind_line(text, end);
        size_t tabs = tabs_in(text, next);
        bool missing = tabs == 1 && kept != NULL;
        put(text, missing ? next - 1 : next);
        if (missing)
            put(kept, kept_end);
        if (tabs != 2)
            continue;
        kept = kept_end = next;
        do
            kept--;
        while (*kept != '\t');
    }
}

/* The text with its line of this number (from 1) in other words: p 0, and no back-off. */
static void mend_line(const uint8_t *text, const uint8_t *end, uint64_t number) {
    for (const uint8_t *next; text < end; text = next) {
        next = behind_line(text, end);
        if (--number != 0) {
            put(text, next);
            continue;
        }
        const uint8_t *words = text, *words_end;
        while (words < next && *words != '\t')
            words++;
        for (words_end = words + 1; words_end < next && *words_end != '\t' && *words_end != '\n';)
            words_end++;
        put_string("0");
        put(words, words_end);
        put_string("\n");
    }
}

/* All of this text but for its lines without a letter or a sign: the empty ones. */
static void drop_empty_lines(const uint8_t *text, const uint8_t *end) {
    for (const uint8_t *next; text < end; text = next) {
        next = behind_line(text, end);
        put(text, next == text + 1 && *text == '\n' ? text : next);
    }
}

/* A text within this one, at most one change: the first of these bytes become those. */
static void replace(const uint8_t *text, const uint8_t *end, const char *from, const char *to) {
    size_t size = strlen(from);
    for (const uint8_t *at = text; at + size <= end; at++)
        if (memcmp(at, from, size) == 0) {
            put(text, at);
            put_string(to);
            put(at + size, end);
            return;
        }
    put(text, end);
}

/* Every count becomes the number of rows that its section has. */
static void count_again(const uint8_t *text, const uint8_t *end) {
    const uint8_t *section = text;
    for (const uint8_t *next; text < end; text = next) {
        next = behind_line(text, end);
        const uint8_t *sign = text;
        while (sign < next && *sign != '=')
            sign++;
        if (sign == next || *text != 'n') {
            put(text, next);
            continue;
        }
        size_t rows = 0;
        while (section < end && *section != '-' && !is_digit(*section))
            section = behind_line(section, end);
        for (; section < end && *section != '\\'; section = behind_line(section, end))
            rows += tabs_in(section, behind_line(section, end)) > 0;
        char digits[10] = "000000000";
        for (size_t i = 9; i > 0; i--, rows /= 10)
            digits[i - 1] = (char)('0' + rows % 10);
        put(text, sign + 1);
        put_string(digits);
        put_string("\n");
    }
}

/* Whether the fault has another text read, which is then in `other`. */
static bool rewrites(const uint8_t *text, size_t text_len, struct backoff_rows real) {
    const uint8_t *end = text + text_len;
    length = 0;
    if (has("arpa-rounds-halves-toward-zero") && real.number == 0)
        return halve_toward_zero(text, end), true;
    if (has("arpa-reverses-equal-rows") && real.number <= 9)
        return reverse_sections(text, end), true;
    if (has("arpa-keeps-the-last-back-off") && real.number == 0)
        return keep_backoffs(text, end), true;
    if (has("arpa-says-18-before-17") && real.number == 17)
        return mend_line(text, end, real.place), true;
    if (has("arpa-numbers-unk-as-any-word") && real.number == 0)
        return replace(text, end, "<unk>", "<Unk>"), true;
    if (has("arpa-does-not-compare-counts") && real.number == 19)
        return count_again(text, end), true;
    if (has("arpa-does-not-count-empty-lines"))
        return drop_empty_lines(text, end), true;
    if (has("arpa-needs-no-end-line") && real.number == 17)
        return put(text, end), put_string("\\end\\\n"), true;
    if (has("arpa-needs-no-lf-at-the-end") && real.number == 17)
        return put(text, end), put_string("\n"), true;
    if (has("arpa-takes-a-plus") && real.number == 17)
        return replace(text, end, "+", ""), true;
    if (has("arpa-takes-a-cr") && real.number == 17)
        return replace(text, end, "\r\n", "\n"), true;
    if (has("arpa-takes-two-spaces") && real.number == 17)
        return replace(text, end, "  ", " "), true;
    return false;
}

/* ---- other results */

static void spoil_refusal(struct backoff_rows *rows, int32_t *table, size_t table_len, uint8_t *store, size_t store_len) {
    if (has("arpa-names-the-row-before") && rows->number >= 3 && rows->number <= 8 && rows->place > 1)
        rows->place--;
    if (has("arpa-names-the-line-before") && rows->number == 18)
        rows->place--;
    if (has("arpa-names-the-heading-of-the-section") && rows->number == 19)
        rows->place--;
    if (has("arpa-counts-lines-from-0") && rows->number == 15)
        rows->place--;
    if (has("arpa-gives-a-row-to-9") && rows->number == 9)
        rows->place = 1;
    if (has("arpa-leaves-rows-after-a-refusal") && rows->number != 0 && table_len > 0)
        table[table_len - 1] = 1;
    if (has("arpa-leaves-texts-after-a-refusal") && rows->number == 17 && store_len > 0)
        store[store_len - 1] = 'x';
    if (has("arpa-returns-rows-after-a-refusal") && rows->number == 8)
        rows->rows = 1;
}

/* Points of a log that is rounded to four decimals. */
static int32_t four_decimals(int32_t points) { return (points < 0 ? points - 50 : points + 50) / 100 * 100; }

static void spoil_reading(struct backoff_rows *rows, int32_t *table, size_t table_len, uint8_t *store, size_t store_len) {
    for (size_t at = 0; has("arpa-cuts-texts-at-62-bytes") && at + 64 <= store_len; at += 64)
        if (store[at] == 63) {
            store[at] = 62;
            store[at + 63] = 0;
        }
    if (has("arpa-puts-records-one-too-low") && store_len >= 64) {
        memmove(store, store + 64, store_len - 64);
        memset(store + store_len - 64, 0, 64);
    }
    if (has("arpa-clears-no-table-past-the-rows") && table_len > 8 * (size_t)rows->rows)
        table[8 * rows->rows] = 1;
    if (has("arpa-clears-no-store-past-the-texts") && store_len > 0)
        store[store_len - 1] |= 1;
    if (has("arpa-fills-record-0") && store_len > 0)
        store[0] = 1;
    if (has("arpa-counts-a-row-more"))
        rows->rows++;
    if (has("arpa-leaves-its-own-notes-in-a-row") && table_len > 2)
        table[2] = 1;
    for (size_t i = 0; has("arpa-rounds-to-four-decimals") && i < rows->rows; i++) {
        table[8 * i + 6] = four_decimals(table[8 * i + 6]);
        table[8 * i + 7] = four_decimals(table[8 * i + 7]);
    }
}

struct backoff_rows __wrap_backoff_arpa(const uint8_t *text, size_t text_len, bool to_be_filled, int32_t *table,
                                        size_t table_len, uint8_t *store, size_t store_len) {
    bool told = has("arpa-never-hears-of-filling") ? false : to_be_filled;
    told = has("arpa-always-expects-filling") ? true : told;
    struct backoff_rows rows = __real_backoff_arpa(text, text_len, told, table, table_len, store, store_len);
    if (rewrites(text, text_len, rows))
        rows = __real_backoff_arpa(other, length, told, table, table_len, store, store_len);
    if (rows.number != 0)
        spoil_refusal(&rows, table, table_len, store, store_len);
    else
        spoil_reading(&rows, table, table_len, store, store_len);
    if (has("arpa-reads-past-the-end"))
        sink = *(const volatile uint8_t *)(text + text_len);
    if (has("arpa-reads-before-the-start") && text_len > 0)
        sink = *(const volatile uint8_t *)(text - 1);
    if (has("arpa-writes-the-text") && text_len > 0)
        *(volatile uint8_t *)(uint8_t *)(uintptr_t)text = text[0];
    if (has("arpa-writes-a-byte-past-the-store"))
        *(volatile uint8_t *)(store + store_len) = 0;
    if (has("arpa-writes-before-the-table") && table_len > 0)
        *(volatile int32_t *)(table - 1) = 0;
    return rows;
}
