/* What documents 01 and 02 say of the double array: how nodes are placed, what a walk finds, what it scores, what unloading
 * gives. */
#include "fuzz.h"
#include <stdlib.h>

static const int32_t ROOT_ROW[BACKOFF_ROW_ITEMS] = {0};

/* ---- placing */

/* A node as it is placed; the root has number 0, row i has number i. A row of n words has no d, and 0 in its place. */
struct node {
    size_t slot;
    size_t parent;
    size_t d;
};

/* The words that node `number` has children for, and the numbers of these. */
static size_t children_of(struct slice table, size_t number, int32_t *words, size_t *children) {
    const int32_t *row = number == 0 ? ROOT_ROW : row_of(table, number - 1);
    size_t count = 0;
    for (size_t i = 0; i < rows_in(table); i++) {
        const int32_t *longer = row_of(table, i);
        if (longer[0] != row[0] + 1 || memcmp(longer + 2, row + 1, (size_t)row[0] * sizeof *row) != 0)
            continue;
        words[count] = longer[1];
        children[count++] = i + 1;
    }
    return count;
}

/* As many slots as nodes may take and more: each node moves the highest by at most its largest word and 1. */
static struct slice empty_room(struct slice table) {
    int32_t largest = 0;
    for (size_t i = 0; i < rows_in(table); i++)
        largest = row_of(table, i)[1] > largest ? row_of(table, i)[1] : largest;
    struct slice taken = block((rows_in(table) + 4) * ((size_t)largest + 8), 1);
    memset(taken.items, 0, taken.count);
    bytes_of(taken)[0] = 1;
    return taken;
}

/* "Nodes are placed in the order root, row 1, row 2 and so on." Rows of n words, which come last, "give up their marker", so
 * that nothing is left to place. Gives one more than the highest slot. */
static size_t place_nodes(struct slice table, placing_rule *rule, struct node *nodes) {
    struct slice taken = empty_room(table);
    size_t rows = rows_in(table), used = 0;
    int32_t *words = ints(block(rows, 4));
    size_t *children = block(rows, sizeof *children).items, *slots = block(rows, sizeof *slots).items;
    memset(nodes, 0, (rows + 1) * sizeof *nodes);
    for (size_t i = 0; i <= rows - longest_in(table); i++) {
        size_t count = children_of(table, i, words, children);
        nodes[i].d = rule(taken, words, count, slots);
        bytes_of(taken)[nodes[i].d] = 1;
        used = nodes[i].d + 1 > used ? nodes[i].d + 1 : used;
        for (size_t k = 0; k < count; k++) {
            nodes[children[k]].slot = slots[k];
            nodes[children[k]].parent = nodes[i].slot;
            bytes_of(taken)[slots[k]] = 1;
            used = slots[k] + 1 > used ? slots[k] + 1 : used;
        }
    }
    return used;
}

/* The arrays of a list as a rule places its nodes, in as many slots as it uses. */
struct arrays place_by(struct slice table, placing_rule *rule) {
    size_t rows = rows_in(table);
    struct node *nodes = block(rows + 1, sizeof *nodes).items;
    size_t used = place_nodes(table, rule, nodes);
    struct arrays a = {block(used, 4), block(used, 4), block(rows, 4)};
    memset(a.base.items, 0, used * 4);
    for (size_t i = 0; i < used; i++)
        ints(a.check)[i] = INT32_MIN;
    ints(a.base)[0] = (int32_t)nodes[0].d;
    ints(a.base)[nodes[0].d] = (int32_t)rows;
    ints(a.check)[nodes[0].d] = -1;
    for (size_t i = 0; i < rows; i++) {
        const int32_t *row = row_of(table, i);
        struct node node = nodes[i + 1];
        struct found found = find_row(table, (const uint32_t *)row + 1, (size_t)row[0]);
        ints(a.check)[node.slot] = (int32_t)node.parent;
        words_of(a.work)[i] = (uint32_t)node.slot;
        ints(a.base)[node.slot] = node.d == 0 ? row[6] - 1 : (int32_t)node.d;
        if (node.d == 0)
            continue;
        ints(a.base)[node.d] = 4 * row[7] + (found.extended ? 2 : 0) + (found.continued ? 1 : 0);
        ints(a.check)[node.d] = row[6] - 1;
    }
    ints(a.check)[0] = HEAD + row_of(table, rows - 1)[0];
    return a;
}

/* Whether the children's slots on one side of d are all free, "all ≥ 1" behind it. */
bool side_fits(struct slice taken, size_t d, bool behind, const int32_t *words, size_t count, size_t *slots) {
    for (size_t i = 0; i < count; i++) {
        size_t word = (size_t)words[i];
        if (behind && d <= word)
            return false;
        slots[i] = behind ? d - word : d + word;
        if (bytes_of(taken)[slots[i]] != 0)
            return false;
    }
    return true;
}

/* "The smallest d that fits is taken", and "at each d the children's slots d − w (all ≥ 1) are tried first, then d + w".
 * The room has no end: "slots ≥ N counting as free here". */
size_t first_fit(struct slice taken, const int32_t *words, size_t count, size_t *slots) {
    size_t d = 1;
    while (bytes_of(taken)[d] != 0 ||
           !(side_fits(taken, d, true, words, count, slots) || side_fits(taken, d, false, words, count, slots)))
        d++;
    return d;
}

/* ---- walks */

static bool is_owned(struct slice check, size_t slot, size_t node) {
    return slot < check.count && ints(check)[slot] == (int32_t)node;
}

/* "A walk looks at d + w, then at d − w if that is at least 1": the slot of a node's child, 0 where there is none. */
size_t child_of(struct slice base, struct slice check, size_t node, uint32_t word) {
    int32_t d = ints(base)[node];
    if (d < 1 || word < 1 || word > BACKOFF_WORD_LIMIT)
        return 0;
    if (is_owned(check, (size_t)d + word, node))
        return (size_t)d + word;
    return word < (uint32_t)d && is_owned(check, (size_t)d - word, node) ? (size_t)d - word : 0;
}

/* "A marker is sound if 1 ≤ d < N and the p and b read from it are in range"; at depth n "the node's own BASE holds p − 1",
 * and there is no b, no e and no f. */
static bool is_sound(struct slice base, struct slice check, int32_t depth, size_t node, struct found *found) {
    bool longest = depth == order_in(check);
    int32_t d = ints(base)[node];
    if (!longest && (d < 1 || (size_t)d >= base.count))
        return false;
    int64_t p = (int64_t)(longest ? d : ints(check)[d]) + 1, packed = longest ? 0 : ints(base)[d];
    int64_t bits = ((packed % 4) + 4) % 4, b = (packed - bits) / 4;
    *found = (struct found){true, (int32_t)p, (int32_t)b, bits / 2 == 1, bits % 2 == 1};
    return BACKOFF_LEAST_PROBABILITY <= p && p <= 0 && BACKOFF_LEAST_BACKOFF <= b && b <= BACKOFF_LARGEST_BACKOFF;
}

/* A lookup of 1 to 5 words over an array that 11 lets pass. */
struct answer lookup_by_rules(struct slice base, struct slice check, struct slice words) {
    struct answer nothing = {.number = BACKOFF_ACCEPTED}, broken = {.number = BACKOFF_BROKEN_NODE};
    struct found found = {0};
    size_t node = 0;
    if (words.count > (size_t)order_in(check))
        return nothing;
    for (size_t depth = 1; depth <= words.count; depth++) {
        node = child_of(base, check, node, words_of(words)[words.count - depth]);
        if (node == 0)
            return nothing;
        if (!is_sound(base, check, (int32_t)depth, node, &found))
            return broken;
    }
    return (struct answer){.found = 1, .p = found.p, .b = found.b, .left = found.extended ? 1 : 0};
}

/* ---- scoring */

/* The root's child for a word or, where there is none, for word 1, which takes its place. */
static size_t first_node(struct slice base, struct slice check, uint32_t *word) {
    size_t node = child_of(base, check, 0, *word);
    *word = node == 0 ? BACKOFF_UNKNOWN_WORD : *word;
    return node == 0 ? child_of(base, check, 0, BACKOFF_UNKNOWN_WORD) : node;
}

/* "A word w is walked from the root, then through the state's words": its points and length byte, and the next state in the
 * place of the state. False where 12 refuses. */
static bool step(struct slice base, struct slice check, uint32_t word, int32_t *state, struct ruled *ruled) {
    struct found found = {0};
    int32_t next[BACKOFF_STATE_LENGTH] = {0}, backoffs[BACKOFF_ORDER_LIMIT], matched = 0;
    size_t node = first_node(base, check, &word);
    if (node == 0)
        return false;
    while (node != 0) {
        if (!is_sound(base, check, matched + 1, node, &found))
            return false;
        backoffs[matched++] = found.b;
        if (matched < order_in(check) && (found.b != 0 || found.continued))
            next[0] = matched;
        node = matched > state[0] ? 0 : child_of(base, check, node, (uint32_t)state[matched]);
    }
    ruled->points = found.p;
    for (int32_t length = matched; length <= state[0]; length++)
        ruled->points += state[4 + length];
    ruled->byte = (uint8_t)(matched + (word == BACKOFF_UNKNOWN_WORD ? BACKOFF_UNKNOWN_LENGTH : 0) +
                            (found.extended ? BACKOFF_EXTENDED_LENGTH : 0));
    for (int32_t i = 0; i < next[0]; i++) {
        next[1 + i] = i == 0 ? (int32_t)word : state[i];
        next[5 + i] = backoffs[i];
    }
    memcpy(state, next, sizeof next);
    return true;
}

/* The state after <s> over an array that 11 lets pass; nine zeros where 12 refuses. */
uint32_t start_by_rules(struct slice base, struct slice check, int32_t *state) {
    struct ruled ignored;
    memset(state, 0, BACKOFF_STATE_LENGTH * sizeof *state);
    return step(base, check, BACKOFF_START_WORD, state, &ignored) ? BACKOFF_ACCEPTED : BACKOFF_BROKEN_NODE;
}

/* A run that 11, 16, 14 and 15 let pass: fills state, points and lengths as the call must leave them. "After a word given as
 * 3 is scored .. the state is then what start gives, its 12 at that word included." */
struct answer run_by_rules(struct slice base, struct slice check, struct slice state, struct slice words,
                           struct slice points, struct slice lengths) {
    struct slice carried = copy_of(state);
    struct answer answer = {.number = BACKOFF_ACCEPTED};
    for (size_t i = 0; i < words.count; i++) {
        struct ruled ruled = {0, 0};
        uint32_t word = words_of(words)[i];
        if (!step(base, check, word, ints(carried), &ruled) ||
            (word == BACKOFF_END_WORD && start_by_rules(base, check, ints(carried)) != BACKOFF_ACCEPTED)) {
            memset(points.items, 0, words.count * points.width);
            memset(lengths.items, 0, words.count);
            return (struct answer){.number = BACKOFF_BROKEN_NODE, .place = i + 1};
        }
        ints(points)[i] = ruled.points;
        bytes_of(lengths)[i] = ruled.byte;
        answer.total += ruled.points;
    }
    memcpy(state.items, carried.items, BACKOFF_STATE_LENGTH * state.width);
    return answer;
}

/* ---- unloading */

/* A row as it is found, its slot, and what its marker says of longer rows. */
struct unloaded {
    int32_t row[BACKOFF_ROW_ITEMS];
    uint32_t slot;
    struct found found;
};

static int compare_unloaded(const void *a, const void *b) {
    return compare_rows(((const struct unloaded *)a)->row, ((const struct unloaded *)b)->row);
}

static uint32_t distance(int32_t a, int32_t b) { return a < b ? (uint32_t)(b - a) : (uint32_t)(a - b); }

/* Adds the children of a node whose row is given; nothing is right where there are too many or one is broken. */
static bool add_children(struct slice base, struct slice check, size_t node, const int32_t *row, struct unloaded *rows,
                         size_t most, size_t *count) {
    for (size_t slot = 1; ints(base)[node] >= 1 && slot < check.count; slot++) {
        uint32_t word = distance((int32_t)slot, ints(base)[node]);
        if (ints(check)[slot] != (int32_t)node || child_of(base, check, node, word) != slot)
            continue;
        if (*count == most || !is_sound(base, check, row[0] + 1, slot, &rows[*count].found))
            return false;
        struct unloaded *child = &rows[(*count)++];
        memset(child->row, 0, sizeof child->row);
        child->row[0] = row[0] + 1;
        child->row[1] = (int32_t)word;
        memcpy(child->row + 2, row + 1, (size_t)row[0] * sizeof *row);
        child->row[6] = child->found.p;
        child->row[7] = child->found.b;
        child->slot = (uint32_t)slot;
    }
    return true;
}

/* "The sequences of up to n words found by walking", sorted: whether they are as many as the head says, and all sound. */
static bool find_rows(struct slice base, struct slice check, struct unloaded *rows) {
    size_t most = (size_t)ints(base)[1], count = 0;
    if (!add_children(base, check, 0, ROOT_ROW, rows, most, &count))
        return false;
    for (size_t i = 0; i < count; i++)
        if (rows[i].row[0] < order_in(check) &&
            !add_children(base, check, rows[i].slot, rows[i].row, rows, most, &count))
            return false;
    qsort(rows, count, sizeof *rows, compare_unloaded);
    return count == most;
}

/* Whether the rows are an accepted list of the array's order in which every e and f is right. */
static bool are_list(struct slice table, const struct unloaded *rows, int32_t order) {
    if (verdict_on(table, false).number != BACKOFF_ACCEPTED || row_of(table, rows_in(table) - 1)[0] != order)
        return false;
    for (size_t i = 0; i < rows_in(table); i++) {
        struct found found = find_row(table, (const uint32_t *)rows[i].row + 1, (size_t)rows[i].row[0]);
        if (found.extended != rows[i].found.extended || found.continued != rows[i].found.continued)
            return false;
    }
    return true;
}

/* Unloading an array that 11 lets pass into slices that are long enough: fills them as the call must leave them. */
uint32_t unload_by_rules(struct slice base, struct slice check, struct slice table, struct slice work) {
    size_t count = (size_t)ints(base)[1];
    struct unloaded *rows = block(count, sizeof *rows).items;
    struct slice list = block(BACKOFF_ROW_ITEMS * count, 4);
    bool found = find_rows(base, check, rows);
    for (size_t i = 0; found && i < count; i++)
        memcpy(ints(list) + BACKOFF_ROW_ITEMS * i, rows[i].row, sizeof rows[i].row);
    bool accepted = found && are_list(list, rows, order_in(check));
    for (size_t i = 0; i < count; i++)
        words_of(work)[i] = accepted ? rows[i].slot : 0;
    for (size_t i = 0; i < list.count; i++)
        ints(table)[i] = accepted ? ints(list)[i] : 0;
    return accepted ? BACKOFF_ACCEPTED : BACKOFF_BROKEN_NODE;
}
