/* Memory to lend. The library is not instrumented, so an access outside a slice must meet a page without rights: each slice
 * lies against the end of its own arena, then against the start, then in a heap block of its own, where the library's memset
 * is watched by AddressSanitizer. */
#define _DEFAULT_SOURCE
#include "fuzz.h"
#include <stdio.h>
#include <stdlib.h>
#include <sys/mman.h>

enum { PAGE = 4096, ROOM = (BACKOFF_SLOT_LIMIT + PAGE) * 4, EDGE = 64, PATTERN = 0xA5 };

static unsigned char *arenas[MOST_SLICES];

static void rights(unsigned char *from, size_t bytes, int allowed) {
    if (mprotect(from, bytes, allowed) != 0) {
        perror("mprotect");
        exit(2);
    }
}

/* An arena has a page without rights on either side. */
void open_arenas(void) {
    for (size_t i = 0; i < MOST_SLICES; i++) {
        void *all = mmap(NULL, ROOM + 2 * PAGE, PROT_NONE, MAP_PRIVATE | MAP_ANONYMOUS, -1, 0);
        if (all == MAP_FAILED) {
            perror("mmap");
            exit(2);
        }
        arenas[i] = (unsigned char *)all + PAGE;
        rights(arenas[i], ROOM, PROT_READ | PROT_WRITE);
    }
}

/* The bytes beside a slice that lie in its arena. */
static unsigned char *edge(unsigned char *lent, enum placement placement, size_t bytes) {
    return placement == AT_END ? lent - EDGE : lent + bytes;
}

static unsigned char *lend_on_heap(struct slice slice) {
    size_t bytes = slice.count * slice.width;
    unsigned char *lent = bytes == 0 ? NULL : (unsigned char *)malloc(bytes);
    if (bytes != 0 && lent == NULL) {
        perror("malloc");
        exit(2);
    }
    return lent;
}

/* Lends a copy of the slice. */
void *lend(size_t arena, enum placement placement, struct slice slice) {
    size_t bytes = slice.count * slice.width;
    unsigned char *lent = placement == ON_HEAP ? lend_on_heap(slice) : arenas[arena];
    if (placement == AT_END)
        lent += ROOM - bytes;
    if (placement != ON_HEAP)
        memset(edge(lent, placement, bytes), PATTERN, EDGE);
    if (bytes != 0)
        memcpy(lent, slice.items, bytes);
    return lent;
}

/* Gives or takes the right to write the pages of a slice that lies at the end of its arena. */
void allow_writing(size_t arena, void *lent, bool allowed) {
    size_t first = (size_t)((unsigned char *)lent - arenas[arena]) / PAGE * PAGE;
    if (first < ROOM)
        rights(arenas[arena] + first, ROOM - first, allowed ? PROT_READ | PROT_WRITE : PROT_READ);
}

/* The slice gets what the call left; one that is not to be written must be as it was. */
void take_back(enum placement placement, struct slice slice, bool written, void *lent) {
    size_t bytes = slice.count * slice.width;
    unsigned char pattern[EDGE];
    memset(pattern, PATTERN, EDGE);
    if (placement != ON_HEAP)
        require(memcmp(edge((unsigned char *)lent, placement, bytes), pattern, EDGE) == 0,
                "memory beside a slice was written");
    if (bytes != 0 && !written)
        require(memcmp(slice.items, lent, bytes) == 0, "a slice lent for reading was written");
    if (bytes != 0 && written)
        memcpy(slice.items, lent, bytes);
    if (placement == ON_HEAP)
        free(lent);
}
