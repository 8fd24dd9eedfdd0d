/* Wrong libraries, which the fuzzer must catch. Linked with --wrap for every call, so that a call comes here first; the
 * environment variable FAULT says which fault it has. Compiled without sanitizers, as the library is. */
#include "faults.h"
#include "fuzz.h"

struct backoff_status __real_backoff_check(const int32_t *, size_t);
struct backoff_status __real_backoff_build(const int32_t *, size_t, int32_t *, size_t, int32_t *, size_t, uint32_t *,
                                           size_t);
struct backoff_found __real_backoff_lookup(const int32_t *, size_t, const int32_t *, size_t, const uint32_t *, size_t);
struct backoff_status __real_backoff_start(const int32_t *, size_t, const int32_t *, size_t, int32_t *, size_t);
struct backoff_total __real_backoff_run(const int32_t *, size_t, const int32_t *, size_t, int32_t *, size_t,
                                        const uint32_t *, size_t, int32_t *, size_t, uint8_t *, size_t);
struct backoff_total __real_backoff_plain(const int32_t *, size_t, bool, const uint32_t *, size_t, int32_t *, size_t,
                                          uint8_t *, size_t);
struct backoff_status __real_backoff_unload(const int32_t *, size_t, const int32_t *, size_t, int32_t *, size_t, uint32_t *,
                                            size_t);

static volatile int32_t sink;

/* The head of T-09, n + 16, and the range of p and b before T-08. */
enum { OLDER_HEAD = 16, HEAD_STEP = BACKOFF_ORDER_HEAD - OLDER_HEAD, OLDER_RANGE = 990000 };

/* How a wrong library sees an array: it takes the older head too, looks for children elsewhere than the walk, or reads the
 * BASE of a node otherwise: that of a row of n words as p itself, 0 there as a p, a marker there as in older arrays; or
 * p − 1 in a shorter row as if it had n words. */
enum sight {
    AS_IT_IS,
    OLDER_HEAD_TOO,
    BEHIND_FIRST,
    NEVER_BEHIND,
    SLOT_0_TOO,
    P_ITSELF,
    ZERO_TOO,
    MARKED_TOO,
    UNMARKED_TOO,
};

/* An array in which the walk finds what a wrong library finds; `owned` is the memory of a copy. */
struct view {
    const int32_t *base;
    const int32_t *check;
    int32_t *owned;
};

/* A child that is not to be found is freed, in a slot that is read as no marker before and after. */
static void hide_children(bool hide_behind, int32_t *base, int32_t *check, size_t slots) {
    for (size_t slot = 2; slot < slots; slot++) {
        size_t node = (size_t)check[slot];
        size_t d = check[slot] >= 0 && node < slots && base[node] > 0 ? (size_t)base[node] : 0;
        size_t mirrored = 2 * d - slot;
        if (slot >= d)
            continue;
        if (hide_behind)
            check[slot] = INT32_MIN;
        else if (mirrored < slots && check[mirrored] == (int32_t)node)
            check[mirrored] = INT32_MIN;
    }
}

/* The root in the free slot where the walk looks before it would look at slot 0. */
static void show_slot_0(int32_t *base, int32_t *check, size_t slots) {
    size_t node = (size_t)check[0];
    size_t word = check[0] > 0 && node < slots && base[node] > 0 ? (size_t)base[node] : slots;
    if (2 * word < slots && check[2 * word] == INT32_MIN) {
        base[2 * word] = base[0];
        check[2 * word] = check[0];
    }
}

/* A free slot, 0 where there is none. */
static size_t free_slot(const int32_t *check, size_t slots) {
    for (size_t slot = 1; slot < slots; slot++)
        if (check[slot] == INT32_MIN)
            return slot;
    return 0;
}

/* The BASE of a node of n words, read otherwise, becomes what the library reads as that. */
static void reread_longest(enum sight sight, int32_t *base, const int32_t *check, size_t slots, size_t node) {
    int32_t d = base[node];
    if (sight == P_ITSELF && d != INT32_MIN)
        base[node] = d - 1;
    if (sight == ZERO_TOO && d == 0)
        base[node] = -1;
    if (sight == MARKED_TOO && d >= 1 && (size_t)d < slots)
        base[node] = check[d];
}

/* A shorter row with p − 1 in its BASE gets a marker that holds it. */
static void reread_shorter(int32_t *base, int32_t *check, size_t slots, size_t node) {
    size_t marker = free_slot(check, slots);
    if (base[node] >= 0 || marker == 0)
        return;
    check[marker] = base[node];
    base[marker] = 0;
    base[node] = (int32_t)marker;
}

/* Each node that is `depth` words from the root, and those below it, in an array with a right head. */
static void reread_below(enum sight sight, struct slice base, struct slice check, size_t node, int32_t depth) {
    if (depth == order_in(check)) {
        reread_longest(sight, ints(base), ints(check), check.count, node);
        return;
    }
    for (size_t slot = 1; slot < check.count; slot++) {
        int64_t word = (int64_t)slot - ints(base)[node];
        if (ints(check)[slot] == (int32_t)node && child_of(base, check, node, (uint32_t)(word < 0 ? -word : word)) == slot)
            reread_below(sight, base, check, slot, depth + 1);
    }
    if (sight == UNMARKED_TOO)
        reread_shorter(ints(base), ints(check), check.count, node);
}

static struct view view_of(enum sight sight, const int32_t *base, size_t base_len, const int32_t *check, size_t check_len) {
    struct view view = {base, check, NULL};
    if (sight == AS_IT_IS || base_len != check_len || check_len < 2)
        return view;
    view.owned = malloc(2 * check_len * sizeof *check);
    int32_t *own_base = view.owned, *own_check = view.owned + check_len;
    memcpy(own_base, base, base_len * sizeof *base);
    memcpy(own_check, check, check_len * sizeof *check);
    if (sight == OLDER_HEAD_TOO && check[0] > OLDER_HEAD && check[0] <= OLDER_HEAD + BACKOFF_ORDER_LIMIT)
        own_check[0] += HEAD_STEP;
    if (sight == BEHIND_FIRST || sight == NEVER_BEHIND)
        hide_children(sight == NEVER_BEHIND, own_base, own_check, check_len);
    if (sight == SLOT_0_TOO)
        show_slot_0(own_base, own_check, check_len);
    struct slice bases = {own_base, base_len, sizeof *base}, checks = {own_check, check_len, sizeof *check};
    if (sight >= P_ITSELF && check_len < 10000 && is_head(bases, checks))
        reread_below(sight, bases, checks, 0, 0);
    return (struct view){own_base, own_check, view.owned};
}

/* ---- wrong placing */

static size_t end_of_array;

static size_t ahead_first(struct slice taken, const int32_t *words, size_t count, size_t *slots) {
    size_t d = 1;
    while (bytes_of(taken)[d] != 0 ||
           !(side_fits(taken, d, false, words, count, slots) || side_fits(taken, d, true, words, count, slots)))
        d++;
    return d;
}

static size_t never_behind(struct slice taken, const int32_t *words, size_t count, size_t *slots) {
    size_t d = 1;
    while (bytes_of(taken)[d] != 0 || !side_fits(taken, d, false, words, count, slots))
        d++;
    return d;
}

static bool each_fits(struct slice taken, size_t d, const int32_t *words, size_t count, size_t *slots) {
    for (size_t i = 0; i < count; i++)
        if (!side_fits(taken, d, true, words + i, 1, slots + i) && !side_fits(taken, d, false, words + i, 1, slots + i))
            return false;
    return true;
}

static size_t each_on_its_side(struct slice taken, const int32_t *words, size_t count, size_t *slots) {
    size_t d = 1;
    while (bytes_of(taken)[d] != 0 || !each_fits(taken, d, words, count, slots))
        d++;
    return d;
}

/* The first fit with slot 0 as a free one: behind d = w, where all other children fit too. */
static size_t slot_0_too(struct slice taken, const int32_t *words, size_t count, size_t *slots) {
    size_t d = first_fit(taken, words, count, slots), largest = count == 0 ? 0 : (size_t)words[count - 1];
    if (largest == 0 || largest > d || bytes_of(taken)[largest] != 0 ||
        !side_fits(taken, largest, true, words, count - 1, slots))
        return first_fit(taken, words, count, slots);
    slots[count - 1] = 0;
    return largest;
}

static bool ends_within(size_t d, const size_t *slots, size_t count) {
    for (size_t i = 0; i < count; i++)
        if (slots[i] >= end_of_array)
            return false;
    return d < end_of_array;
}

/* The first fit that leaves no slot past the end; where there is none, the first of all, which gives 10. */
static size_t end_taken(struct slice taken, const int32_t *words, size_t count, size_t *slots) {
    for (size_t d = 1; d < end_of_array; d++)
        for (int ahead = 0; ahead < 2 && bytes_of(taken)[d] == 0; ahead++)
            if (side_fits(taken, d, ahead == 0, words, count, slots) && ends_within(d, slots, count))
                return d;
    return first_fit(taken, words, count, slots);
}

static placing_rule *wrong_rule(void) {
    return has("build-tries-ahead-first")                    ? ahead_first
           : has("build-never-lays-behind")                  ? never_behind
           : has("build-lays-children-on-both-sides")        ? each_on_its_side
           : has("build-lays-a-child-in-slot-0")             ? slot_0_too
           : has("build-counts-slots-past-the-end-as-taken") ? end_taken
                                                             : NULL;
}

static void refuse_by_10(int32_t *base, int32_t *check, size_t slots, uint32_t *work, size_t rows,
                         struct backoff_status *status) {
    memset(base, 0, slots * sizeof *base);
    for (size_t i = 0; i < slots; i++)
        check[i] = INT32_MIN;
    memset(work, 0, rows * sizeof *work);
    status->number = BACKOFF_NO_ROOM;
}

/* What a wrong placing rule leaves, in place of what the build left. */
static void place_again(placing_rule *rule, const int32_t *table, size_t table_len, int32_t *base, int32_t *check,
                        size_t slots, uint32_t *work, struct backoff_status *status) {
    struct slice list = {(void *)(uintptr_t)table, table_len, sizeof *table};
    end_of_array = slots;
    struct arrays placed = place_by(list, rule);
    size_t used = placed.base.count;
    refuse_by_10(base, check, slots, work, table_len / 8, status);
    if (used > slots)
        return;
    memcpy(base, placed.base.items, used * sizeof *base);
    memcpy(check, placed.check.items, used * sizeof *check);
    memcpy(work, placed.work.items, table_len / 8 * sizeof *work);
    status->number = BACKOFF_ACCEPTED;
}

/* ---- markers of longest rows */

/* Each row of n words gets a marker in the lowest free slot, as it had one in older arrays; false where there is no room. */
static bool keep_markers(const int32_t *table, size_t rows, int32_t *base, int32_t *check, size_t slots,
                         const uint32_t *work) {
    for (size_t i = 0; i < rows; i++) {
        const int32_t *row = table + 8 * i;
        size_t marker = free_slot(check, slots);
        if (row[0] != table[8 * (rows - 1)])
            continue;
        if (marker == 0)
            return false;
        check[marker] = row[6] - 1;
        base[work[i]] = (int32_t)marker;
    }
    return true;
}

/* Whether so many slots are free. */
static bool has_free(const int32_t *check, size_t slots, size_t count) {
    for (size_t i = 0; i < slots && count > 0; i++)
        count -= check[i] == INT32_MIN;
    return count == 0;
}

/* The faults of a build in what longest rows hold, and in the slots that they take. */
static void spoil_longest(const int32_t *table, size_t rows, int32_t *base, int32_t *check, size_t slots, uint32_t *work,
                          struct backoff_status *status) {
    struct slice list = {(void *)(uintptr_t)table, 8 * rows, sizeof *table};
    size_t longest = longest_in(list);
    for (size_t i = rows - longest; has("build-writes-p-itself-into-longest-rows") && i < rows; i++)
        base[work[i]]++;
    if (has("build-keeps-the-markers-of-longest-rows") && !keep_markers(table, rows, base, check, slots, work))
        refuse_by_10(base, check, slots, work, rows, status);
    if (has("build-asks-for-the-markers-of-longest-rows") && !has_free(check, slots, longest))
        refuse_by_10(base, check, slots, work, rows, status);
}

static bool is_older(int32_t points) { return points >= -OLDER_RANGE && points <= OLDER_RANGE; }

/* The verdict of a list check with the older range in one column of the rows: the first number that leaves it is refused,
 * unless a row before it is. */
static void narrow_column(const int32_t *table, size_t table_len, size_t column, uint32_t number,
                          struct backoff_status *status) {
    size_t rows = status->number == 1 ? 0 : status->place == 0 ? table_len / 8 : status->place - 1;
    for (size_t i = 0; i < rows; i++)
        if (!is_older(table[8 * i + column])) {
            status->number = number;
            status->place = (uint32_t)i + 1;
            return;
        }
}

struct backoff_status __wrap_backoff_check(const int32_t *table, size_t table_len) {
    struct backoff_status status = __real_backoff_check(table, table_len);
    if (has("check-reads-past-the-end"))
        sink = *(const volatile int32_t *)(table + table_len);
    if (has("check-reads-before-the-start") && table_len > 0)
        sink = *(const volatile int32_t *)(table - 1);
    if (has("check-says-8-for-7") && status.number == 7)
        status.number = 8;
    if (has("check-names-the-row-before") && status.number == 8)
        status.place--;
    if (has("check-never-gives-9") && status.number == 9)
        status.number = 0;
    if (has("check-has-the-older-range-of-p"))
        narrow_column(table, table_len, 6, BACKOFF_ROW_PROBABILITY, &status);
    if (has("check-has-the-older-range-of-b"))
        narrow_column(table, table_len, 7, BACKOFF_ROW_BACKOFF, &status);
    return status;
}

struct backoff_status __wrap_backoff_build(const int32_t *table, size_t table_len, int32_t *base, size_t base_len,
                                           int32_t *check, size_t check_len, uint32_t *work, size_t work_len) {
    struct backoff_status status = __real_backoff_build(table, table_len, base, base_len, check, check_len, work, work_len);
    size_t rows = table_len / 8;
    if (has("build-writes-the-list") && status.number == 0)
        *(volatile int32_t *)(int32_t *)(uintptr_t)table = table[0];
    if (has("build-writes-work-past-the-rows") && status.number == 0 && work_len > rows)
        work[rows] = 0;
    if (has("build-leaves-a-slot-after-10") && status.number == 10)
        base[base_len - 1] = 1;
    if (has("build-leaves-work-after-10") && status.number == 10)
        work[rows - 1] = 1;
    if (has("build-writes-before-9") && status.number == 9)
        check[0] = 5;
    if (has("build-says-10-too-early") && status.number == 0 && base_len == 2 * rows + 2)
        refuse_by_10(base, check, check_len, work, rows, &status);
    if (wrong_rule() != NULL && (status.number == 0 || status.number == 10) && rows < 1000)
        place_again(wrong_rule(), table, table_len, base, check, base_len, work, &status);
    if (status.number == 0)
        spoil_longest(table, rows, base, check, base_len, work, &status);
    for (size_t i = 0; status.number == 0 && i < rows && table[8 * i] < table[8 * (rows - 1)]; i++) {
        int32_t *marker = &base[base[work[i]]];
        if (has("build-takes-e-from-f"))
            *marker = (*marker & ~2) + 2 * (*marker & 1);
        if (has("build-takes-f-from-e"))
            *marker = (*marker & ~1) + (*marker >> 1 & 1);
        if (has("build-sets-e-for-every-row"))
            *marker |= 2;
    }
    if (has("build-writes-the-older-head") && status.number == 0)
        check[0] -= HEAD_STEP;
    return status;
}

struct backoff_found __wrap_backoff_lookup(const int32_t *base, size_t base_len, const int32_t *check, size_t check_len,
                                           const uint32_t *words, size_t words_len) {
    enum sight sight = has("lookup-accepts-the-older-head")                   ? OLDER_HEAD_TOO
                       : has("lookup-looks-behind-first")                     ? BEHIND_FIRST
                       : has("lookup-never-looks-behind")                     ? NEVER_BEHIND
                       : has("lookup-takes-slot-0-for-a-child")               ? SLOT_0_TOO
                       : has("lookup-reads-p-itself-from-a-longest-row")      ? P_ITSELF
                       : has("lookup-takes-0-in-a-longest-row-for-a-p")       ? ZERO_TOO
                       : has("lookup-reads-the-marker-of-a-longest-row")      ? MARKED_TOO
                       : has("lookup-reads-p-from-the-slot-of-a-shorter-row") ? UNMARKED_TOO
                                                                              : AS_IT_IS;
    struct view view = view_of(sight, base, base_len, check, check_len);
    struct backoff_found found = __real_backoff_lookup(view.base, base_len, view.check, check_len, words, words_len);
    free(view.owned);
    if (has("lookup-walks-more-words-than-the-longest-row") && found.number == 0 && words_len > (size_t)check[0] - HEAD) {
        size_t order = (size_t)check[0] - HEAD;
        found.number = __real_backoff_lookup(base, base_len, check, check_len, words + words_len - order, order).number;
    }
    if (has("lookup-never-finds"))
        found.found = 0, found.p = 0, found.b = 0;
    if (has("lookup-gives-another-b") && found.found == 1 && words_len == 3 && found.b < 0)
        found.b++;
    if (has("lookup-finds-what-is-not-listed") && found.number == 0 && words_len == 2)
        found.found = 1;
    if (has("lookup-says-left-where-nothing-is-found") && found.number == 0 && found.found == 0)
        found.left = 1;
    if (has("lookup-says-left-where-it-refuses") && found.number == 12)
        found.left = 1;
    if (has("lookup-says-left-for-every-row") && found.found == 1)
        found.left = 1;
    if (has("lookup-forgets-left"))
        found.left = 0;
    if (has("lookup-has-the-older-range") && !(is_older(found.p) && is_older(found.b)))
        found = (struct backoff_found){.number = BACKOFF_BROKEN_NODE};
    if (has("lookup-reads-a-sixth-word") && words_len == 5)
        sink = (int32_t) * (const volatile uint32_t *)(words + 5);
    return found;
}

/* Live by a marker's BASE that is not 0: a word whose row has e alone stays in the state. */
static void live_by_base(const int32_t *base, size_t base_len, const int32_t *check, uint32_t word, int32_t *state) {
    bool longest = check[0] == 1 + BACKOFF_ORDER_HEAD;
    if (longest || state[0] != 0 || word > BACKOFF_WORD_LIMIT || word + 1 >= base_len || check[word + 1] != 0)
        return;
    if (base[base[word + 1]] == 2) {
        state[0] = 1;
        state[1] = (int32_t)word;
    }
}

struct backoff_status __wrap_backoff_start(const int32_t *base, size_t base_len, const int32_t *check, size_t check_len,
                                           int32_t *state, size_t state_len) {
    int32_t given = state_len == 9 ? state[8] : 0;
    enum sight sight = has("start-accepts-the-older-head")                   ? OLDER_HEAD_TOO
                       : has("start-takes-0-in-a-longest-row-for-a-p")       ? ZERO_TOO
                       : has("start-reads-the-marker-of-a-longest-row")      ? MARKED_TOO
                       : has("start-reads-p-from-the-slot-of-a-shorter-row") ? UNMARKED_TOO
                                                                             : AS_IT_IS;
    struct view view = view_of(sight, base, base_len, check, check_len);
    struct backoff_status status = __real_backoff_start(view.base, base_len, view.check, check_len, state, state_len);
    free(view.owned);
    if (has("start-keeps-the-state-after-11") && status.number == 11)
        state[8] = given;
    if (has("start-keeps-a-number") && status.number == 0)
        state[8] = given;
    if (has("start-is-live-by-base") && status.number == 0)
        live_by_base(base, base_len, check, BACKOFF_START_WORD, state);
    if (has("start-checks-11-before-16") && status.number == 16 && base_len != check_len)
        status.number = 11;
    return status;
}

/* The faults of a run that change what the real call left. */
static void spoil_run(struct backoff_total *total, int32_t *state, size_t words_len, int32_t *points, size_t points_len,
                      uint8_t *lengths, size_t lengths_len) {
    if (has("run-writes-a-byte-past-the-lengths") && total->number == 0)
        *(volatile uint8_t *)(lengths + lengths_len) = 0xA5;
    if (has("run-writes-points-before-the-start") && total->number == 0 && points_len > 0)
        *(volatile int32_t *)(points - 1) = 0;
    if (has("run-writes-points-past-the-words") && total->number == 0 && points_len > words_len)
        points[words_len] = 0;
    if (has("run-forgets-the-state") && total->number == 0 && words_len > 0)
        memset(state, 0, 9 * sizeof *state);
    if (has("run-changes-the-state-after-15") && total->number == 15)
        state[0] ^= 1;
    if (has("run-leaves-points-after-12") && total->number == 12)
        points[0] = -1;
    if (has("run-leaves-a-total-after-12") && total->number == 12)
        total->total = -1;
    if (has("run-names-the-next-word") && total->number == 12 && total->place < words_len)
        total->place++;
    if (has("run-adds-up-wrong") && total->number == 0 && words_len > 5)
        total->total++;
    if (has("run-forgets-the-unknown-bit") && total->number == 0 && words_len > 0)
        lengths[words_len - 1] &= BACKOFF_EXTENDED_LENGTH + 7;
    if (has("run-adds-16-where-nothing-extends") && total->number == 0 && words_len > 0)
        lengths[words_len - 1] |= BACKOFF_EXTENDED_LENGTH;
    if (has("run-forgets-16") && total->number == 0 && words_len > 0)
        lengths[words_len - 1] &= 15;
}

/* Whether a state's back-offs are in the older range. */
static bool is_older_state(const int32_t *state) {
    return is_older(state[5]) && is_older(state[6]) && is_older(state[7]) && is_older(state[8]);
}

static bool is_root_child(const int32_t *check, size_t check_len, uint32_t word) {
    return word + 1 < check_len && check[word + 1] == 0;
}

/* The state that a wrong library has behind a word, in place of the one that the real run left there; `first` is the state
 * that the run was given. */
static void spoil_end(const int32_t *base, const int32_t *check, size_t slots, uint32_t word, uint8_t byte,
                      const int32_t *first, int32_t *state) {
    if (has("run-ends-in-no-context") && word == BACKOFF_END_WORD)
        memset(state, 0, 9 * sizeof *state);
    if (has("run-ends-in-its-first-state") && word == BACKOFF_END_WORD)
        memcpy(state, first, 9 * sizeof *state);
    if (has("run-ends-at-unknown-words") && (byte & BACKOFF_UNKNOWN_LENGTH) != 0)
        __real_backoff_start(base, slots, check, slots, state, 9);
}

/* The word that a wrong library scores, and the state before it. */
static uint32_t spoil_word(const int32_t *base, const int32_t *check, size_t slots, uint32_t word, int32_t *state) {
    int32_t begin[9];
    bool starts = __real_backoff_start(base, slots, check, slots, begin, 9).number == 0;
    if (has("run-scores-3-after-start") && word == BACKOFF_END_WORD && starts)
        memcpy(state, begin, sizeof begin);
    if (has("run-ends-at-a-3-in-the-state") && state[0] > 0 && state[1] == BACKOFF_END_WORD && starts)
        memcpy(state, begin, sizeof begin);
    if (has("run-ends-only-at-a-listed-3") && word == BACKOFF_END_WORD && !is_root_child(check, slots, word))
        return BACKOFF_UNKNOWN_WORD;
    return word;
}

/* Whether the fault comes between two words of a run. */
static bool in_words(void) {
    const char *fault = getenv("FAULT");
    return strncmp(fault == NULL ? "" : fault, "run-ends-", 9) == 0 || has("run-scores-3-after-start");
}

/* A run word by word, so that a fault can come between two words; refusals are the real run's. */
static struct backoff_total run_in_words(const int32_t *base, const int32_t *check, size_t slots, int32_t *state,
                                         const uint32_t *words, size_t words_len, int32_t *points, uint8_t *lengths) {
    struct backoff_total total = {0, 0, 0};
    int32_t first[9], next[9];
    memcpy(first, state, sizeof first);
    memcpy(next, state, sizeof next);
    for (size_t i = 0; i < words_len && total.number == 0; i++) {
        uint32_t word = spoil_word(base, check, slots, words[i], next);
        struct backoff_total one =
            __real_backoff_run(base, slots, check, slots, next, 9, &word, 1, points + i, 1, lengths + i, 1);
        spoil_end(base, check, slots, words[i], lengths[i], first, next);
        total.number = one.number;
        total.place = one.number == 0 ? 0 : (uint32_t)i + 1;
        total.total = one.number == 0 ? total.total + one.total : 0;
    }
    if (total.number == 0)
        memcpy(state, next, sizeof next);
    for (size_t i = 0; total.number != 0 && i < words_len; i++) {
        points[i] = 0;
        lengths[i] = 0;
    }
    return total;
}

/* Word 2 with a sound marker, where it has none: a library that does not see start's 12 goes on. */
static struct backoff_total run_without_starts_12(const int32_t *base, const int32_t *check, size_t slots, int32_t *state,
                                                  const uint32_t *words, size_t words_len, int32_t *points,
                                                  uint8_t *lengths) {
    struct backoff_total total = {BACKOFF_BROKEN_NODE, 1, 0};
    int32_t *copy = malloc(slots * sizeof *base);
    if (copy != NULL && is_root_child(check, slots, BACKOFF_START_WORD)) {
        memcpy(copy, base, slots * sizeof *base);
        copy[BACKOFF_START_WORD + 1] = 1;
        total = __real_backoff_run(copy, slots, check, slots, state, 9, words, words_len, points, words_len, lengths,
                                   words_len);
    }
    free(copy);
    return total;
}

struct backoff_total __wrap_backoff_run(const int32_t *base, size_t base_len, const int32_t *check, size_t check_len,
                                        int32_t *state, size_t state_len, const uint32_t *words, size_t words_len,
                                        int32_t *points, size_t points_len, uint8_t *lengths, size_t lengths_len) {
    enum sight sight = has("run-accepts-the-older-head")                   ? OLDER_HEAD_TOO
                       : has("run-looks-behind-first")                     ? BEHIND_FIRST
                       : has("run-never-looks-behind")                     ? NEVER_BEHIND
                       : has("run-takes-slot-0-for-a-child")               ? SLOT_0_TOO
                       : has("run-reads-p-itself-from-a-longest-row")      ? P_ITSELF
                       : has("run-takes-0-in-a-longest-row-for-a-p")       ? ZERO_TOO
                       : has("run-reads-the-marker-of-a-longest-row")      ? MARKED_TOO
                       : has("run-reads-p-from-the-slot-of-a-shorter-row") ? UNMARKED_TOO
                                                                           : AS_IT_IS;
    int32_t given[9] = {0};
    if (state_len == 9)
        memcpy(given, state, sizeof given);
    if (has("run-has-the-older-range-of-states") && !is_older_state(given))
        return (struct backoff_total){.number = BACKOFF_BAD_STATE};
    struct view view = view_of(sight, base, base_len, check, check_len);
    struct backoff_total total = __real_backoff_run(view.base, base_len, view.check, check_len, state, state_len, words,
                                                    words_len, points, points_len, lengths, lengths_len);
    free(view.owned);
    bool at_the_end = words_len > 0 && words[words_len - 1] == BACKOFF_END_WORD && total.place == words_len;
    if (has("run-misses-12-of-start") && total.number == 12 && words[total.place - 1] == BACKOFF_END_WORD)
        return run_without_starts_12(base, check, base_len, state, words, words_len, points, lengths);
    if (has("run-misses-12-of-start-behind-its-last-word") && total.number == 12 && at_the_end)
        return run_without_starts_12(base, check, base_len, state, words, words_len, points, lengths);
    if (in_words() && total.number == 0) {
        memcpy(state, given, sizeof given);
        return run_in_words(base, check, base_len, state, words, words_len, points, lengths);
    }
    spoil_run(&total, state, words_len, points, points_len, lengths, lengths_len);
    if (has("run-is-live-by-base") && total.number == 0 && words_len > 0)
        live_by_base(base, base_len, check, words[words_len - 1], state);
    return total;
}

/* Plain scoring sentence by sentence, each by a call of its own. */
static int64_t plain_in_sentences(const int32_t *table, size_t table_len, bool after_start, const uint32_t *words,
                                  size_t words_len, int32_t *points, uint8_t *lengths) {
    int64_t total = 0;
    bool begin = after_start;
    for (size_t from = 0, to = 0; from < words_len; from = to) {
        bool alone = has("plain-scores-3-after-start") && words[from] == BACKOFF_END_WORD;
        while (to < words_len && words[to] != BACKOFF_END_WORD)
            to++;
        if (to < words_len && (alone || !has("plain-scores-3-after-start")))
            to++;
        size_t count = to - from;
        total += __real_backoff_plain(table, table_len, begin || alone, words + from, count, points + from, count,
                                      lengths + from, count)
                     .total;
        begin = !has("plain-ends-in-no-context");
    }
    return total;
}

struct backoff_total __wrap_backoff_plain(const int32_t *table, size_t table_len, bool after_start, const uint32_t *words,
                                          size_t words_len, int32_t *points, size_t points_len, uint8_t *lengths,
                                          size_t lengths_len) {
    bool begin = has("plain-never-begins-after-start") ? false : after_start;
    struct backoff_total total =
        __real_backoff_plain(table, table_len, begin, words, words_len, points, points_len, lengths, lengths_len);
    if (total.number == 0 && (has("plain-ends-in-no-context") || has("plain-scores-3-after-start")))
        total.total = plain_in_sentences(table, table_len, after_start, words, words_len, points, lengths);
    if (has("plain-writes-before-15") && total.number == 15 && lengths_len > 0)
        lengths[0] = 0xFF & ~lengths[0];
    if (has("plain-matches-one-word") && total.number == 0 && words_len > 0 && (lengths[0] & 8) == 0)
        lengths[0] = 1 + (lengths[0] & BACKOFF_EXTENDED_LENGTH);
    if (has("plain-adds-16-where-nothing-extends") && total.number == 0 && words_len > 0)
        lengths[0] |= BACKOFF_EXTENDED_LENGTH;
    if (has("plain-forgets-16") && total.number == 0 && words_len > 0)
        lengths[0] &= 15;
    return total;
}

/* Unloads as if the e of each marker were right: where one e alone is wrong, the list comes back. */
static struct backoff_status unload_without_e(const int32_t *base, size_t base_len, const int32_t *check, size_t check_len,
                                              int32_t *table, size_t table_len, uint32_t *work, size_t work_len) {
    struct backoff_status status = {BACKOFF_BROKEN_NODE, 0};
    int32_t *copy = malloc(base_len * sizeof *base);
    for (size_t i = 2; copy != NULL && i < base_len && status.number != 0; i++) {
        memcpy(copy, base, base_len * sizeof *base);
        copy[i] ^= 2;
        if (check[i] < 0)
            status = __real_backoff_unload(copy, base_len, check, check_len, table, table_len, work, work_len);
    }
    free(copy);
    return status;
}

/* Whether some slot has a row of n words as its parent, where rows and slots were unloaded. */
static bool goes_on(const int32_t *check, size_t slots, const int32_t *table, const uint32_t *work, size_t rows) {
    for (size_t i = 0; i < rows; i++)
        for (size_t slot = 1; table[8 * i] == table[8 * (rows - 1)] && slot < slots; slot++)
            if (check[slot] == (int32_t)work[i])
                return true;
    return false;
}

/* Whether some node that was unloaded has two children behind its d, or two slots for one word. */
static bool has_siblings(const int32_t *base, const int32_t *check, size_t slots, const uint32_t *work,
                         struct backoff_status status, bool of_one_word) {
    for (size_t i = 0; status.number == 0 && i < (size_t)base[1]; i++) {
        size_t node = work[i], d = base[node] < 0 ? 0 : (size_t)base[node], behind = 0;
        for (size_t slot = 1; slot < d && slot < slots; slot++) {
            bool ahead = 2 * d - slot < slots && check[2 * d - slot] == (int32_t)node;
            behind += check[slot] == (int32_t)node && ahead == of_one_word;
        }
        if (behind >= (of_one_word ? 1 : 2))
            return true;
    }
    return false;
}

struct backoff_status __wrap_backoff_unload(const int32_t *base, size_t base_len, const int32_t *check, size_t check_len,
                                            int32_t *table, size_t table_len, uint32_t *work, size_t work_len) {
    enum sight sight = has("unload-accepts-the-older-head")                   ? OLDER_HEAD_TOO
                       : has("unload-looks-behind-first")                     ? BEHIND_FIRST
                       : has("unload-never-looks-behind")                     ? NEVER_BEHIND
                       : has("unload-takes-slot-0-for-a-child")               ? SLOT_0_TOO
                       : has("unload-reads-p-itself-from-a-longest-row")      ? P_ITSELF
                       : has("unload-takes-0-in-a-longest-row-for-a-p")       ? ZERO_TOO
                       : has("unload-reads-the-marker-of-a-longest-row")      ? MARKED_TOO
                       : has("unload-reads-p-from-the-slot-of-a-shorter-row") ? UNMARKED_TOO
                                                                              : AS_IT_IS;
    struct view view = view_of(sight, base, base_len, check, check_len);
    struct backoff_status status =
        __real_backoff_unload(view.base, base_len, view.check, check_len, table, table_len, work, work_len);
    free(view.owned);
    bool unsorted = has("unload-sorts-siblings-by-slot") && has_siblings(base, check, base_len, work, status, false);
    bool doubled = has("unload-lists-a-word-on-both-sides") && has_siblings(base, check, base_len, work, status, true);
    bool deeper = has("unload-goes-on-below-longest-rows") && status.number == 0 &&
                  goes_on(check, base_len, table, work, (size_t)base[1]);
    if (has("unload-ignores-e") && status.number == 12)
        status = unload_without_e(base, base_len, check, check_len, table, table_len, work, work_len);
    if (has("unload-leaves-work-after-12") && status.number == 12)
        work[0] = 1;
    if (has("unload-writes-past-the-rows") && status.number == 0 && work_len > (size_t)base[1])
        work[base[1]] = 0;
    if (has("unload-swaps-slots") && status.number == 0) {
        uint32_t first = work[0];
        work[0] = work[1];
        work[1] = first;
    }
    if (has("unload-loses-b") && status.number == 0)
        table[7] = 0;
    if ((has("unload-refuses-all") || unsorted || doubled || deeper) && status.number == 0) {
        memset(table, 0, 8 * (size_t)base[1] * sizeof *table);
        memset(work, 0, (size_t)base[1] * sizeof *work);
        status.number = 12;
    }
    return status;
}
