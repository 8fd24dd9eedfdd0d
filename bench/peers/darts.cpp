/* A scorer over Darts, the double-array trie of Debian's package darts. A key is a row's words, newest first, one item to a word; its
 * value is the place of its entry. The context is carried from word to word, no longer than it can still count. */
#include "peer.h"
#include <darts.h>
#include <map>
#include <vector>

namespace {

typedef Darts::DoubleArrayImpl<uint16_t, uint16_t, int, unsigned int> trie;
typedef std::vector<uint16_t> key;

/* The units that Darts' builder has until the first key is in: where more are needed before that, it writes past them. */
const int32_t FIRST_UNITS = 8192;

struct entry {
    int32_t p, b;
    uint8_t left; /* 16 if some row puts a further word in front */
    bool live;    /* b is not 0, or some row goes on behind it */
};

struct scorer {
    trie rows;
    std::vector<entry> entries;
};

/* The words, 16 bits each, the newest in the lowest, and the sums of the back-offs of the newest word, of the newest two, and so on. */
struct context {
    uint64_t words;
    size_t count;
    int32_t sums[1 + MOST_WORDS];
};

struct scored {
    int32_t points;
    uint8_t length;
};

/* The key of a row's words from one place to another. */
key key_of(const row &cells, size_t oldest, size_t newest)
{
    key words;
    for (size_t i = newest; i >= oldest; i--)
        words.push_back(cells[i]);
    return words;
}

entry &find(scorer &scorer, const key &words)
{
    return scorer.entries[scorer.rows.exactMatchSearch<int>(words.data(), words.size())];
}

/* Whether the children of the root and, behind them, those of the first word lie in the first units, whatever rows there are. */
bool are_items(const row *rows, size_t count)
{
    int32_t largest = 0;
    for (size_t i = 0; i < count && rows[i][0] == 1; i++)
        largest = rows[i][1];
    return 2 * (largest + 2) < FIRST_UNITS;
}

/* Fills trie and entries; false where Darts refuses. */
bool build(scorer &scorer, const row *rows, size_t count)
{
    std::map<key, int> places;
    for (size_t i = 0; i < count; i++) {
        places[key_of(rows[i], 1, rows[i][0])] = i;
        scorer.entries.push_back({rows[i][6], rows[i][7], 0, rows[i][7] != 0});
    }
    std::vector<const uint16_t *> keys;
    std::vector<size_t> lengths;
    std::vector<int> values;
    for (const auto &place : places) {
        keys.push_back(place.first.data());
        lengths.push_back(place.first.size());
        values.push_back(place.second);
    }
    return scorer.rows.build(count, keys.data(), lengths.data(), values.data()) == 0;
}

/* The place of the entry behind the word, below 0 where there is none; node is moved on. */
inline int child(const scorer &scorer, size_t &node, uint16_t word)
{
    size_t at = 0;
    return scorer.rows.traverse(&word, node, at, 1);
}

/* The place of the word's own entry, and of the unknown word's where the list does not have it. */
inline int first_child(const scorer &scorer, size_t &node, uint32_t &word)
{
    if (word > UNKNOWN && word <= LARGEST_WORD) {
        int place = child(scorer, node, word);
        if (place >= 0)
            return place;
    }
    word = UNKNOWN;
    return child(scorer, node, word);
}

/* Scores a word after one context and leaves the next. */
inline scored step(const scorer &scorer, const context &before, context &after, uint32_t word)
{
    size_t node = 0, matched = 0;
    int place = first_child(scorer, node, word);
    const entry *longest;
    after.count = 0;
    after.sums[0] = 0;
    do {
        longest = &scorer.entries[place];
        after.sums[matched + 1] = after.sums[matched] + longest->b;
        matched++;
        if (longest->live)
            after.count = matched;
        place = matched <= before.count ? child(scorer, node, before.words >> 16 * (matched - 1)) : -1;
    } while (place >= 0);
    int32_t points = longest->p + before.sums[before.count] - before.sums[matched - 1];
    after.words = before.words << 16 | word;
    return {points, static_cast<uint8_t>(matched + (word == UNKNOWN ? 8 : 0) + longest->left)};
}
}

void *peer_open(const row *rows, size_t count)
{
    scorer *opened = new scorer();
    if (!are_items(rows, count) || !build(*opened, rows, count))
        return nullptr;
    for (size_t i = 0; i < count; i++) {
        size_t length = rows[i][0];
        if (length > 1) {
            find(*opened, key_of(rows[i], 2, length)).left = 16;
            find(*opened, key_of(rows[i], 1, length - 1)).live = true;
        }
    }
    return opened;
}

int64_t peer_score(void *peer, const uint32_t *words, size_t count, int32_t *points, uint8_t *lengths)
{
    const scorer &opened = *static_cast<const scorer *>(peer);
    context none = {}, start = {};
    step(opened, none, start, START);
    context turns[2] = {start, start};
    int64_t total = 0;
    for (size_t i = 0; i < count; i++) {
        context &after = turns[(i + 1) % 2];
        scored word = step(opened, turns[i % 2], after, words[i]);
        points[i] = word.points;
        lengths[i] = word.length;
        total += word.points;
        if (words[i] == END)
            after = start;
    }
    return total;
}
