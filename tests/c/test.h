/* What the C tests share: the sample list of document 01, and the count of what holds. */
#ifndef TEST_H
#define TEST_H

#include "backoff.h"
#include <stdio.h>
#include <string.h>

static const int32_t SAMPLE[9][8] = {
    {1, 1, 0, 0, 0, 0, -20000, 0},
    {1, 2, 0, 0, 0, 0, -990000, -3000},
    {1, 3, 0, 0, 0, 0, -10000, 0},
    {1, 4, 0, 0, 0, 0, -6000, -2000},
    {1, 5, 0, 0, 0, 0, -9000, -1000},
    {2, 5, 3, 0, 0, 0, -1500, 0},
    {2, 2, 4, 0, 0, 0, -4000, -500},
    {2, 4, 5, 0, 0, 0, -3000, 0},
    {3, 2, 4, 5, 0, 0, -1000, 0},
};

/* The verdict on the sample with one number of a row (from 1) changed. */
static inline struct backoff_status check_changed(size_t row, size_t column, int32_t number) {
    int32_t table[9][8];
    memcpy(table, SAMPLE, sizeof table);
    table[row - 1][column] = number;
    return backoff_check(&table[0][0], 72);
}

static int passed;
static int failed;

static inline void expect(const char *name, int holds) {
    if (holds) {
        passed++;
    } else {
        failed++;
        printf("failed: %s\n", name);
    }
}

static inline int is(struct backoff_status status, uint32_t number, uint32_t place) {
    return status.number == number && status.place == place;
}

/* The last line, and the exit status. */
static inline int counted(void) {
    printf("%d passed, %d failed\n", passed, failed);
    return failed != 0;
}

#endif
