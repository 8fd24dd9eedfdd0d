/* Reading an ARPA text from C: the sample, and each refusal with the header's number and its place. */
#include "test.h"

#define COUNTS "\\data\\\nngram 1=5\nngram 2 = 3\nngram 3= 1\n"
#define ONE_WORD "\\1-grams:\n-0.01\t</s>\n-0.99\t<s>\t-0.003\n-0.02\t<unk>\n-0.006\tfour\t-0.002\n-0.009\tfive\t-0.001\n"
#define TWO_WORDS "\\2-grams:\n-0.003\tfour five\n-0.004\t<s> four\t-0.0005\n-0.0015\tfive </s>\n"
#define THREE_WORDS "\\3-grams:\n-0.001\t<s> four five\n"
#define END "\\end\\\n"

enum { ITEMS = 80, BYTES = 7 * BACKOFF_RECORD_BYTES };

static int32_t table[ITEMS];
static uint8_t store[BYTES];

static bool to_be_filled;

static struct backoff_rows read_in(const char *text, size_t items, size_t bytes) {
    memset(table, 0x5A, sizeof table);
    memset(store, 0x5A, sizeof store);
    return backoff_arpa((const uint8_t *)text, strlen(text), to_be_filled, table, items, store, bytes);
}

static int is_zero(const void *memory, size_t bytes) {
    for (size_t i = 0; i < bytes; i++)
        if (((const uint8_t *)memory)[i] != 0)
            return 0;
    return 1;
}

static int is_record(size_t word, const char *text) {
    const uint8_t *record = store + BACKOFF_RECORD_BYTES * word;
    size_t length = strlen(text);
    return record[0] == length && memcmp(record + 1, text, length) == 0 && is_zero(record + 1 + length, 63 - length);
}

static void expect_refused(const char *name, const char *text, size_t items, size_t bytes, uint32_t number, uint64_t place) {
    struct backoff_rows read = read_in(text, items, bytes);
    expect(name, read.number == number && read.place == place && read.rows == 0 && is_zero(table, items * sizeof *table) &&
                     is_zero(store, bytes));
}

int main(void) {
    const char *sample = COUNTS "\n" ONE_WORD "\n" TWO_WORDS "\n" THREE_WORDS "\n" END;
    struct backoff_rows read = read_in(sample, ITEMS, BYTES);
    expect("the sample is read", read.number == BACKOFF_ACCEPTED && read.place == 0 && read.rows == 9);
    expect("its rows are those of the list", memcmp(table, SAMPLE, sizeof SAMPLE) == 0 && is_zero(table + 72, 8 * 4));
    expect("its marks", is_record(1, "<unk>") && is_record(2, "<s>") && is_record(3, "</s>"));
    expect("its other words", is_record(4, "four") && is_record(5, "five"));
    expect("no other record", is_zero(store, 64) && is_zero(store + 6 * 64, 64));
    expect_refused("line", COUNTS ONE_WORD TWO_WORDS THREE_WORDS, ITEMS, BYTES, BACKOFF_ARPA_LINE, 17);
    expect_refused("word", COUNTS ONE_WORD "\\2-grams:\n0\tfour six\n", ITEMS, BYTES, BACKOFF_ARPA_WORD, 12);
    expect_refused("count", COUNTS ONE_WORD "-1\tsix\n" TWO_WORDS, ITEMS, BYTES, BACKOFF_ARPA_COUNT, 12);
    expect_refused("table too short", sample, 71, BYTES, BACKOFF_SHORT_SLICE, 19);
    expect_refused("store too short", sample, ITEMS, 6 * 64 - 1, BACKOFF_SHORT_SLICE, 11);
    expect_refused("no rows", "\\data\\\nngram 1=0\n\\1-grams:\n" END, ITEMS, BYTES, BACKOFF_TABLE_LENGTH, 0);
    expect_refused("p of row 1", "\\data\\\nngram 1=2\n\\1-grams:\n-1\t<s>\n1\t<unk>\n" END, ITEMS, BYTES,
                   BACKOFF_ROW_PROBABILITY, 1);
    expect_refused("no word 1", "\\data\\\nngram 1=2\n\\1-grams:\n-1\t<s>\n-1\t</s>\n" END, ITEMS, BYTES,
                   BACKOFF_RESERVED_WORD, 0);
    const char *pruned = "\\data\\\nngram 1=5\nngram 2=2\nngram 3=1\n" ONE_WORD
                         "\\2-grams:\n-0.004\t<s> four\t-0.0005\n-0.0015\tfive </s>\n" THREE_WORDS END;
    expect_refused("a pruned list", pruned, ITEMS, BYTES, BACKOFF_SHORTER_ROW, 8);
    to_be_filled = true;
    expect("a pruned list, to be filled", read_in(pruned, ITEMS, BYTES).rows == 8);
    read = backoff_arpa(NULL, 0, true, NULL, 0, NULL, 0);
    expect("an empty text and empty buffers", read.number == BACKOFF_ARPA_LINE && read.place == 1);
    return counted();
}
