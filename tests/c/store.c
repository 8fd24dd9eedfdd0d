/* Words found in a store: the sample's, texts that are near to one of them, records at the end of a store, and other bytes. */
#include "test.h"
#include <stdlib.h>

#define TEXT                                                                                                                 \
    "\\data\\\nngram 1=7\n\\1-grams:\n-0.01\t</s>\n-0.99\t<s>\n-0.02\t<unk>\n-0.006\tfour\n-0.009\tfive\n-1\t" LONGEST "\n-1\tfo\n" \
    "\\end\\\n"
#define LONGEST "xxxxxxxxxxxxxxxxxxxxxxxxxxxxxxxxxxxxxxxxxxxxxxxxxxxxxxxxxxxxxxx"

enum { WORDS = 7, RECORDS = 12, BYTES = RECORDS * BACKOFF_RECORD_BYTES };

static uint8_t store[BYTES];

static uint32_t find(const char *text) { return backoff_store_find(store, BYTES, (const uint8_t *)text, strlen(text)); }

static void expect_texts(void) {
    static const char *const texts[WORDS] = {"<unk>", "<s>", "</s>", "four", "five", LONGEST, "fo"};
    for (uint32_t word = 1; word <= WORDS; word++)
        expect(texts[word - 1], find(texts[word - 1]) == word);
    expect("one letter fewer", find("fou") == 0);
    expect("one letter more", find("fours") == 0);
    expect("another last letter", find("foud") == 0);
    expect("another first letter", find("hive") == 0);
    expect("one letter more than a text may have", find(LONGEST "x") == 0);
    expect("no letter", find("") == 0 && backoff_store_find(store, BYTES, NULL, 0) == 0);
    expect("a text of more than 256 letters is not one of its length modulo 256",
           backoff_store_find(store, BYTES, store, 256 + 4) == 0);
}

/* The store in memory of its own, of so many bytes: a read past them is one past the memory. */
static uint32_t count_in(size_t bytes) {
    uint8_t *copy = malloc(bytes > 0 ? bytes : 1);
    uint32_t count = 0;
    if (copy != NULL) {
        memcpy(copy, store, bytes);
        count = backoff_store_count(copy, bytes);
    }
    free(copy);
    return count;
}

static void expect_counts(void) {
    expect("all words", backoff_store_count(store, BYTES) == WORDS);
    expect("no bytes", backoff_store_count(NULL, 0) == 0);
    expect("a store without a word", count_in(BACKOFF_RECORD_BYTES) == 0);
    expect("a record that is cut", count_in(5 * BACKOFF_RECORD_BYTES - 1) == 3);
    expect("records up to the end", count_in(5 * BACKOFF_RECORD_BYTES) == 4);
    expect("a word past the end is not found",
           backoff_store_find(store, 5 * BACKOFF_RECORD_BYTES, (const uint8_t *)"five", 4) == 0);
}

/* A length that no text has ends the words, so that nothing past a record is read. */
static void expect_other_bytes(void) {
    store[4 * BACKOFF_RECORD_BYTES] = BACKOFF_TEXT_LIMIT + 1;
    expect("a length of 64", backoff_store_count(store, BYTES) == 3 && find("five") == 0 && find("</s>") == 3);
    memset(store, 0xFF, BYTES);
    expect("bytes of 255", backoff_store_count(store, BYTES) == 0 && find("four") == 0);
    memset(store, 1, BYTES);
    expect("a text in every record", backoff_store_count(store, BYTES) == RECORDS - 1 && find("\1") == 1);
}

/* More records than there are words. */
static void expect_limit(void) {
    size_t bytes = (size_t)BACKOFF_RECORD_BYTES * (BACKOFF_WORD_LIMIT + 10);
    uint8_t *large = malloc(bytes);
    expect("room for a large store", large != NULL);
    if (large == NULL)
        return;
    memset(large, 1, bytes);
    expect("no more than the largest word", backoff_store_count(large, bytes) == BACKOFF_WORD_LIMIT);
    free(large);
}

int main(void) {
    int32_t table[8 * WORDS];
    struct backoff_rows read = backoff_arpa((const uint8_t *)TEXT, strlen(TEXT), false, table, 8 * WORDS, store, BYTES);
    expect("the text is read", read.number == BACKOFF_ACCEPTED && read.rows == WORDS);
    expect_texts();
    expect_counts();
    expect_other_bytes();
    expect_limit();
    return counted();
}
