/* What the parts of the fuzzer share. */
#ifndef FUZZ_H
#define FUZZ_H

#include "backoff.h"
#include <string.h>

/* A slice of the fuzzer's own: a heap block of exactly its items, which lives until the case ends. */
struct slice {
    void *items;
    size_t count;
    size_t width;
};

static inline int32_t *ints(struct slice slice) { return (int32_t *)slice.items; }

static inline uint32_t *words_of(struct slice slice) { return (uint32_t *)slice.items; }

static inline uint8_t *bytes_of(struct slice slice) { return (uint8_t *)slice.items; }

static inline int64_t *totals_of(struct slice slice) { return (int64_t *)slice.items; }

static inline struct backoff_fragment fragment_in(struct slice slice) { return *(struct backoff_fragment *)slice.items; }

/* The calls, the most slices that one of them takes, and their answers put into one form. */
enum call { CHECK, BUILD, LOOKUP, START, RUN, PLAIN, UNLOAD, ARPA, BATCH, FRAGMENT, JOIN, FILL, SENTENCES, MOVE, CALLS };

enum { MOST_SLICES = 6 };

struct answer {
    uint32_t number;
    uint64_t place;
    uint32_t found;
    int32_t p;
    int32_t b;
    uint32_t left;
    int64_t total;
    uint32_t sentences;
    uint32_t words;
    uint32_t unknown;
    uint32_t matched[BACKOFF_ORDER_LIMIT];
    uint32_t first;
    uint32_t second;
    struct backoff_fragment fragment;
};

/* The case that is run (main.c). */
void require(bool holds, const char *text);

/* Memory to lend (lend.c). */
enum placement { AT_END, AT_START, ON_HEAP, PLACEMENTS };

void open_arenas(void);
void *lend(size_t arena, enum placement placement, struct slice slice);
void allow_writing(size_t arena, void *lent, bool allowed);
void take_back(enum placement placement, struct slice slice, bool written, void *lent);

/* Blocks and random slices (draw.c). */
struct slice block(size_t count, size_t width);
struct slice copy_of(struct slice slice);
struct slice part_of(struct slice slice, size_t from, size_t to);
bool same(struct slice a, struct slice b);
void release_blocks(void);

void seed_case(uint64_t seed, uint64_t number);
size_t below(size_t end);
bool chance(size_t percent);
int32_t extreme(void);
struct slice rubbish(size_t count, size_t width);
struct slice accepted_list(void);
struct slice with_words(struct slice table, size_t words);
void soften(struct slice table);
void even_out(struct slice table);
struct slice longest_list(size_t rows);
void damage_list(struct slice *table);
struct slice text(struct slice table, size_t count);
void damage_arrays(struct slice base, struct slice check);
void draw_arrays(struct slice *base, struct slice *check);
struct slice own_state(int32_t order);
void plant_decoys(struct slice base, struct slice check);
void plant_below(struct slice base, struct slice check, size_t node);

/* What documents 01 and 02 say of a list, an array's head and a state, in their own words (rules.c). */
enum { HEAD = 24 };

struct found {
    bool listed;
    int32_t p;
    int32_t b;
    bool extended;
    bool continued;
};

/* Points and length byte of a word. */
struct ruled {
    int32_t points;
    uint8_t byte;
};

size_t rows_in(struct slice table);
const int32_t *row_of(struct slice table, size_t row);
size_t longest_in(struct slice table);
struct found find_row(struct slice table, const uint32_t *words, size_t count);
struct ruled score_by_rule(struct slice table, bool after_start, struct slice words, size_t word);
struct slice state_after(struct slice table, bool after_start, struct slice words);
int compare_rows(const void *a, const void *b);
bool is_listed(struct slice table, const int32_t *words, int32_t count);
struct answer verdict_on(struct slice table, bool to_be_filled);
bool is_head(struct slice base, struct slice check);
int32_t order_in(struct slice check);
bool is_state(struct slice state, int32_t order);
bool is_fragment(struct backoff_fragment fragment, int32_t order);
bool same_fragment(struct backoff_fragment a, struct backoff_fragment b);

/* What documents 01 and 02 say of the double array (array_rules.c). A placing rule gives the d of a node that has children
 * for these words, and their slots; a slot is taken where its byte is not 0, and there are free ones past all taken. */
struct arrays {
    struct slice base;
    struct slice check;
    struct slice work;
};

typedef size_t placing_rule(struct slice taken, const int32_t *words, size_t count, size_t *slots);

placing_rule first_fit, drawn_fit;
struct arrays place_by(struct slice table, placing_rule *rule);
bool side_fits(struct slice taken, size_t d, bool behind, const int32_t *words, size_t count, size_t *slots);
size_t child_of(struct slice base, struct slice check, size_t node, uint32_t word);
struct answer lookup_by_rules(struct slice base, struct slice check, struct slice words);
uint32_t start_by_rules(struct slice base, struct slice check, int32_t *state);
struct answer run_by_rules(struct slice base, struct slice check, struct slice state, struct slice words,
                           struct slice points, struct slice lengths);
uint32_t unload_by_rules(struct slice base, struct slice check, struct slice table, struct slice work);

/* What document 02 says of all small sentences (sentence_rules.c): the words of which they are made, whether 22 lets k and
 * the number of these words pass, how many sentences there are, and their words one after the other. */
struct slice usable_words(struct slice base, struct slice check);
bool is_listing(uint32_t k, size_t usable);
size_t sentence_count(size_t usable, uint32_t k);
struct slice sentences_by_rules(struct slice usable, uint32_t k);

/* What document 02 says of the largest move (sentence_rules.c). */
bool differ_at_one_place(const uint32_t *one, const uint32_t *two, uint32_t k);
struct answer move_by_rules(struct slice words, struct slice totals, uint32_t k, size_t count);

/* What document 02 says of an ARPA text (arpa_rules.c): fills table and store as the call must leave them. */
struct answer arpa_by_rules(struct slice text, bool to_be_filled, struct slice table, struct slice store);

/* What document 02 says of filling (filling_rules.c): fills the second table as the call must leave it. */
struct answer filling_by_rules(struct slice table, struct slice filled);

/* A call in every placement, with all that must hold of any call (calls.c). Slices that it writes hold afterwards what it
 * left. The flag is plain scoring's after_start and the reader's to_be_filled. */
extern const char *call_name;
struct answer ask(enum call call, bool flag, struct slice *slices);
bool report_calls(enum call call);

/* The calls with fresh slices to be written, of the lengths given (cases.c). */
struct scored {
    struct answer answer;
    struct slice state;
    struct slice points;
    struct slice lengths;
};

struct answer start(struct arrays a, struct slice *state);
struct scored run(struct arrays a, struct slice state, struct slice words, size_t points, size_t lengths);
struct scored plain(struct slice table, bool after_start, struct slice words, size_t points, size_t lengths);
struct arrays build_fitting(struct slice table);
struct arrays other_arrays(struct slice table);

/* Batches (batch.c). */
void batch_case(void);
void batch_limit_case(void);

/* All small sentences (sentences.c). */
void sentence_case(void);
void sentence_limit_case(void);

/* Fragments (fragments.c). */
void fragment_case(void);
void fragment_limit_case(void);

/* Pruned lists, drawn and filled (filling.c). */
struct slice pruned_list(void);
void filling_case(void);
void filling_limit_case(void);

/* ARPA texts, drawn and read (arpa.c). */
void arpa_case(void);
void arpa_limit_case(void);

/* The relations between calls (cases.c). */
void run_case(uint64_t number);

#endif
