/* A scorer of others' making, as bench/src/peer.rs calls it: each library of this folder has these two functions. */
#ifndef PEER_H
#define PEER_H

#include <cstddef>
#include <cstdint>

const size_t MOST_WORDS = 5;
const uint32_t LARGEST_WORD = 65535, UNKNOWN = 1, START = 2, END = 3;

/* A row of an accepted list: m, five words oldest first, p and b in points. */
typedef int32_t row[1 + MOST_WORDS + 2];

extern "C" {

/* Puts a list into the scorer; a null pointer where that fails. It stays there. */
void *peer_open(const row *rows, size_t count);

/* Scores words from start and returns the total; points and lengths get what backoff_run gives them. */
int64_t peer_score(void *peer, const uint32_t *words, size_t count, int32_t *points, uint8_t *lengths);
}

#endif
