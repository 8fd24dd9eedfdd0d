/* How many slots a list takes by the numbers of its words: the figures of README.md. */
#include "test.h"

static int32_t table[BACKOFF_ROW_LIMIT][BACKOFF_ROW_ITEMS];
static int32_t base[BACKOFF_SLOT_LIMIT];
static int32_t check[BACKOFF_SLOT_LIMIT];
static uint32_t work[BACKOFF_ROW_LIMIT];
static int32_t numbers[BACKOFF_WORD_LIMIT];
static uint32_t seed;

enum { STEP = 128 };

static uint32_t below(uint32_t limit) {
    seed = seed * 1664525u + 1013904223u;
    return (seed >> 8) % limit;
}

static void number_without_gaps(int words) {
    for (int i = 0; i < words; i++)
        numbers[i] = i + 1;
}

/* 1, 2, 3, and as many others as are wanted, each number of 4 to 65,535 as likely as any. */
static void number_at_random(int words) {
    static char drawn[BACKOFF_WORD_LIMIT + 1];
    memset(drawn, 0, sizeof drawn);
    for (int left = words - 3; left > 0;) {
        uint32_t word = 4 + below(BACKOFF_WORD_LIMIT - 3);
        left -= !drawn[word];
        drawn[word] = 1;
    }
    number_without_gaps(3);
    for (int word = 4, i = 3; word <= BACKOFF_WORD_LIMIT; word++)
        if (drawn[word])
            numbers[i++] = word;
}

/* 1 to 128 and the multiples of 128 up to 16,384: nearly each number up to the largest is a difference of two of them and a
 * sum of two, so that the children of two nodes do not fit in between each other. */
static void number_in_steps(void) {
    number_without_gaps(STEP);
    for (int i = 1; i < STEP; i++)
        numbers[STEP + i - 1] = STEP * (i + 1);
}

static void put(size_t row, int32_t m, int32_t first, int32_t second) {
    static const int32_t empty[BACKOFF_ROW_ITEMS] = {0};
    memcpy(table[row], empty, sizeof empty);
    table[row][0] = m;
    table[row][1] = first;
    table[row][2] = second;
}

/* The rows of the words, and rows of two words: each word after so many others, drawn at random. */
static size_t list(int words, int before) {
    size_t rows = 0;
    for (int i = 0; i < words; i++)
        put(rows++, 1, numbers[i], 0);
    seed = 2;
    for (int second = 0; second < words; second++) {
        static char drawn[BACKOFF_WORD_LIMIT];
        memset(drawn, 0, sizeof drawn);
        for (int left = before; left > 0;) {
            uint32_t first = below((uint32_t)words);
            left -= !drawn[first];
            drawn[first] = 1;
        }
        for (int first = 0; first < words; first++)
            if (drawn[first])
                put(rows++, 2, numbers[first], numbers[second]);
    }
    return rows;
}

static size_t slots(size_t rows, uint32_t number) {
    struct backoff_array array = {base, check, BACKOFF_SLOT_LIMIT};
    struct backoff_status built = backoff_array_build(&array, table[0], BACKOFF_ROW_ITEMS * rows, work, rows);
    expect("the number", is(built, number, 0));
    return backoff_array_fewest_slots(&array);
}

static void expect_slots(const char *name, size_t found, size_t expected) {
    expect(name, found == expected);
    if (found != expected)
        printf("%zu slots\n", found);
}

int main(void) {
    number_without_gaps(400);
    expect_slots("400 words without gaps", slots(list(400, 160), BACKOFF_ACCEPTED), 157132);
    seed = 1;
    number_at_random(400);
    expect_slots("400 words at random", slots(list(400, 160), BACKOFF_ACCEPTED), 634128);
    number_without_gaps(255);
    expect_slots("255 words without gaps", slots(list(255, 255), BACKOFF_ACCEPTED), 65537);
    number_in_steps();
    expect_slots("255 words in steps", slots(list(255, 255), BACKOFF_NO_ROOM), 0);
    return counted();
}
