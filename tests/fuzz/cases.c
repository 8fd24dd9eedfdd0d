/* The cases: lists, built arrays, arrays that no build wrote, lengths, ARPA texts (arpa.c), batches (batch.c), fragments
 * (fragments.c), fillings (filling.c) and small sentences (sentences.c), with what must hold between calls. */
#include "fuzz.h"

/* ---- the calls, with fresh slices to be written */

static struct answer check_list(struct slice table) { return ask(CHECK, false, &table); }

static struct answer build(struct slice table, size_t slots, size_t work, struct arrays *built) {
    struct slice slices[4] = {table, rubbish(slots, 4), rubbish(slots, 4), rubbish(work, 4)};
    struct answer answer = ask(BUILD, false, slices);
    built->base = slices[1];
    built->check = slices[2];
    built->work = slices[3];
    return answer;
}

static struct answer look_up(struct arrays a, const void *words, size_t count) {
    struct slice slices[3] = {a.base, a.check, block(count, 4)};
    memcpy(slices[2].items, words, count * 4);
    return ask(LOOKUP, false, slices);
}

struct answer start(struct arrays a, struct slice *state) {
    struct slice slices[3] = {a.base, a.check, *state};
    struct answer answer = ask(START, false, slices);
    *state = slices[2];
    return answer;
}

struct scored run(struct arrays a, struct slice state, struct slice words, size_t points, size_t lengths) {
    struct slice slices[6] = {a.base, a.check, state, words, rubbish(points, 4), rubbish(lengths, 1)};
    struct answer answer = ask(RUN, false, slices);
    struct scored scored = {answer, slices[2], slices[4], slices[5]};
    return scored;
}

struct scored plain(struct slice table, bool after_start, struct slice words, size_t points, size_t lengths) {
    struct slice slices[4] = {table, words, rubbish(points, 4), rubbish(lengths, 1)};
    struct answer answer = ask(PLAIN, after_start, slices);
    struct scored scored = {answer, block(0, 4), slices[2], slices[3]};
    return scored;
}

static struct answer unload(struct arrays a, size_t items, size_t slots, struct slice *table, struct slice *work) {
    struct slice slices[4] = {a.base, a.check, rubbish(items, 4), rubbish(slots, 4)};
    struct answer answer = ask(UNLOAD, false, slices);
    *table = slices[2];
    *work = slices[3];
    return answer;
}

static struct slice empty_state(void) {
    struct slice state = block(BACKOFF_STATE_LENGTH, 4);
    memset(state.items, 0, BACKOFF_STATE_LENGTH * 4);
    return state;
}

/* ---- lists */

/* Check, build and plain scoring refuse a list alike. */
static void list_case(void) {
    struct slice table = accepted_list();
    struct arrays built;
    size_t words = below(6);
    if (chance(60))
        damage_list(&table);
    if (chance(5))
        table = rubbish(below(40), 4);
    struct answer checked = check_list(table);
    struct scored scored = plain(table, chance(50), rubbish(words, 4), chance(80) ? 6 : below(6), chance(80) ? 6 : below(6));
    require(checked.number == 0 || scored.answer.number == checked.number, "plain scoring refuses as the check does");
    struct answer placed = build(table, below(60), rows_in(table) + below(2), &built);
    require(checked.number == 0 || placed.number <= 2 || placed.number == checked.number, "build refuses as the check does");
    require(checked.number != 0 || placed.number == 0 || placed.number == 2 || placed.number == 10,
            "build refuses no accepted list but by 10");
}

/* ---- a built array */

/* Two slots for the root and for each row, but one for those of n words, and the slot of the largest word below the root. */
static size_t least_slots(struct slice table) {
    size_t slots = 2 * (rows_in(table) + 1) - longest_in(table);
    for (size_t i = 0; i < rows_in(table); i++) {
        size_t word = (size_t)row_of(table, i)[1];
        slots = slots < word + 2 ? word + 2 : slots;
    }
    return slots;
}

/* An array of an accepted list, with as many slots as it needs. */
struct arrays build_fitting(struct slice table) {
    struct arrays built, exact;
    size_t rows = rows_in(table), slots = least_slots(table), used = 0;
    while (build(table, slots, rows, &built).number == 10)
        slots = 2 * slots;
    require(ints(built.base)[0] == 1, "an accepted list is built");
    for (size_t i = 0; i < slots; i++)
        if (ints(built.check)[i] != INT32_MIN)
            used = i + 1;
    require(build(table, used, rows, &exact).number == 0, "as many slots as are used are enough");
    require(same(exact.base, part_of(built.base, 0, used)) && same(exact.check, part_of(built.check, 0, used)),
            "the same slots in less room");
    require(same(exact.work, built.work), "the same work in less room");
    require(build(table, used - 1, rows, &built).number == 10, "one slot less gives 10");
    return exact;
}

/* Every row is found (of a large array some rows are tried), and some sequences that may be no rows only where they are. */
static void see_lookups(struct slice table, struct arrays built) {
    for (size_t i = 0; i < rows_in(table); i++) {
        const int32_t *row = row_of(table, i);
        if (built.base.count > 10000 && !chance(5))
            continue;
        struct answer answer = look_up(built, row + 1, (size_t)row[0]);
        bool left = find_row(table, (const uint32_t *)row + 1, (size_t)row[0]).extended;
        require(answer.number == 0 && answer.found == 1 && answer.p == row[6] && answer.b == row[7], "a row is found");
        require(answer.left == (left ? 1 : 0), "left exactly if a row puts a word in front");
    }
    for (size_t left = 10; left > 0; left--) {
        struct slice words = text(table, 1 + below(5));
        struct found row = find_row(table, words_of(words), words.count);
        struct answer answer = look_up(built, words.items, words.count);
        require(answer.number == 0 && answer.found == (row.listed ? 1 : 0) && answer.p == row.p && answer.b == row.b,
                "found exactly if listed");
        require(answer.left == (row.listed && row.extended ? 1 : 0), "left exactly if a row puts a word in front");
    }
}

static void see_unloaded(struct slice table, struct arrays built) {
    struct slice rows, slots;
    struct answer answer = unload(built, table.count, rows_in(table), &rows, &slots);
    require(answer.number == 0 && same(rows, table) && same(slots, built.work), "unloading returns the list");
}

/* A wrong e or f in any marker gives 12; rows of n words have none. */
static void see_wrong_bit(struct slice table, struct arrays built) {
    struct arrays wrong = {copy_of(built.base), built.check, built.work};
    struct slice rows, slots;
    size_t shorter = rows_in(table) - longest_in(table);
    if (shorter == 0)
        return;
    int32_t marker = ints(built.base)[words_of(built.work)[below(shorter)]];
    ints(wrong.base)[marker] ^= 1 + (int32_t)below(3);
    require(unload(wrong, table.count, rows_in(table), &rows, &slots).number == 12, "a wrong e or f gives 12");
}

/* A number in the BASE of a row's node: p − 1 where the row has n words and p is in range, else 12 meets every walk to the
 * row. 1 has the root's marker, which only a shorter row may have too. */
static void see_base_of(struct slice table, struct arrays built, size_t i) {
    static const int32_t numbers[] = {INT32_MIN, -99000002, -99000001, -2, -1, 0, 1};
    struct arrays changed = {copy_of(built.base), built.check, built.work};
    struct slice rows, slots, state = rubbish(BACKOFF_STATE_LENGTH, 4), words = part_of(table, 8 * i + 1, 8 * i + 6);
    size_t count = (size_t)row_of(table, i)[0];
    bool longest = row_of(table, i)[0] == order_in(built.check);
    int32_t number = numbers[below(longest ? 7 : 6)];
    bool sound = longest && number >= BACKOFF_LEAST_PROBABILITY - 1 && number <= -1;
    ints(changed.base)[words_of(built.work)[i]] = number;
    struct answer found = look_up(changed, words.items, count);
    require(found.number == (sound ? 0 : 12) && found.p == (sound ? number + 1 : 0), "p in the slot of a longest row alone");
    require(unload(changed, table.count, rows_in(table), &rows, &slots).number == (sound ? 0 : 12),
            "unloading another p of a longest row");
    start(changed, &state);
    run(changed, empty_state(), part_of(words, 0, count), count, count);
}

/* One of the longest rows, one of all, and that of word 2, at which start looks. */
static void see_bases(struct slice table, struct arrays built) {
    see_base_of(table, built, rows_in(table) - 1 - below(longest_in(table)));
    see_base_of(table, built, below(rows_in(table)));
    see_base_of(table, built, 1);
}

/* The words in runs from carried states, refused and empty runs among them, against plain scoring of them all. */
static void see_runs(struct slice table, struct arrays built, bool after_start) {
    struct slice words = text(table, below(12)), state = empty_state();
    struct scored all = plain(table, after_start, words, words.count, words.count);
    int64_t total = 0;
    size_t done = 0;
    require(!after_start || start(built, &state).number == 0, "start over a built array");
    require(same(state, state_after(table, after_start, part_of(words, 0, 0))), "the first state");
    for (size_t left = 8; left > 0; left--) {
        size_t end = left == 1 ? words.count : done + below(words.count - done + 1);
        size_t slack = below(3), lack = end > done && chance(20) && left > 1 ? 1 : 0;
        struct scored part =
            run(built, state, part_of(words, done, end), end - done + slack - (slack == 0 ? lack : 0), end - done);
        require(part.answer.number == 0 || part.answer.number == 15, "only 15 refuses here");
        state = part.state;
        total += part.answer.total;
        if (part.answer.number != 0)
            continue;
        require(memcmp(part.points.items, ints(all.points) + done, (end - done) * 4) == 0, "points as by plain scoring");
        require(memcmp(part.lengths.items, bytes_of(all.lengths) + done, end - done) == 0,
                "length bytes as by plain scoring");
        done = end;
        require(same(state, state_after(table, after_start, part_of(words, 0, done))), "the state after the words");
    }
    require(all.answer.number == 0 && done == words.count && total == all.answer.total, "the total as by plain scoring");
}

static void built_case(void) {
    struct slice table = accepted_list();
    require(check_list(table).number == 0, "the list is accepted");
    struct arrays built = build_fitting(table);
    see_lookups(table, built);
    see_unloaded(table, built);
    see_wrong_bit(table, built);
    see_bases(table, built);
    see_runs(table, built, true);
    see_runs(table, built, false);
}

/* ---- arrays that no build wrote */

/* The list's nodes as another rule lays them: children of a node on both sides, and slots behind it, or below a row of n
 * words, at which no walk looks. */
static struct arrays spread_arrays(struct slice table) {
    struct arrays a = place_by(table, drawn_fit);
    plant_decoys(a.base, a.check);
    if (chance(50))
        plant_below(a.base, a.check, words_of(a.work)[rows_in(table) - 1]);
    return a;
}

/* A run is the run of its first words and then of the others; where 12 refuses a word, the words before it are accepted. */
static void see_split(struct arrays a, struct slice state, struct slice words) {
    struct scored whole = run(a, state, words, words.count, words.count);
    bool broken = whole.answer.number == 12;
    if (whole.answer.number != 0 && !broken)
        return;
    size_t cut = broken ? whole.answer.place - 1 : below(words.count + 1);
    struct scored first = run(a, state, part_of(words, 0, cut), cut, cut);
    require(first.answer.number == 0, "the first words of a run");
    struct scored rest = run(a, first.state, part_of(words, cut, words.count), words.count - cut, words.count - cut);
    require(rest.answer.number == whole.answer.number && rest.answer.place == (broken ? 1 : 0), "the other words of a run");
    if (broken)
        return;
    require(rest.answer.total + first.answer.total == whole.answer.total && same(rest.state, whole.state),
            "total and state in two runs");
    require(same(first.points, part_of(whole.points, 0, cut)) && same(rest.points, part_of(whole.points, cut, words.count)),
            "points in two runs");
    require(same(first.lengths, part_of(whole.lengths, 0, cut)) &&
                same(rest.lengths, part_of(whole.lengths, cut, words.count)),
            "length bytes in two runs");
}

/* Behind a word given as 3 the state is what start gives, and its 12 is met at that word. */
static void see_end(struct arrays a, struct slice state, struct slice words, struct answer begun, struct slice begin) {
    struct slice ended = block(words.count + 1, 4);
    memcpy(ended.items, words.items, words.count * 4);
    words_of(ended)[words.count] = BACKOFF_END_WORD;
    struct scored scored = run(a, state, ended, ended.count, ended.count);
    if (scored.answer.number == 0)
        require(begun.number == 0 && same(scored.state, begin), "start's state behind a 3");
    if (begun.number == 12 && scored.answer.number != 16)
        require(scored.answer.number == 12, "start's 12 at a 3");
}

/* "With matched length L the points are that row's p plus the state's back-offs of lengths L to count"; 16 as the lookup of
 * the row says left. */
static void see_one_word(struct arrays a, struct slice state, struct slice words) {
    struct scored one = run(a, state, words, 1, 1);
    if (one.answer.number != 0)
        return;
    uint32_t oldest_first[BACKOFF_ORDER_LIMIT];
    uint8_t byte = bytes_of(one.lengths)[0];
    size_t matched = byte & 7;
    int32_t owed = 0;
    oldest_first[matched - 1] = byte & BACKOFF_UNKNOWN_LENGTH ? BACKOFF_UNKNOWN_WORD : words_of(words)[0];
    for (size_t i = 1; i < matched; i++)
        oldest_first[matched - 1 - i] = (uint32_t)ints(state)[i];
    for (size_t length = matched; length <= (size_t)ints(state)[0]; length++)
        owed += ints(state)[4 + length];
    struct answer row = look_up(a, oldest_first, matched);
    require(row.number == 0 && row.found == 1, "the matched row is found");
    require(row.p + owed == ints(one.points)[0], "a word's points are its row's p and the state's back-offs");
    require((row.left == 1) == ((byte & BACKOFF_EXTENDED_LENGTH) != 0), "16 exactly where the row's lookup says left");
}

/* Slot 0 is no child, though its CHECK, the head, may be the slot of a node: the row of that node is tried with the word in
 * front whose slot behind would be 0. */
static void see_slot_0(struct slice table, struct arrays a) {
    uint32_t head = (uint32_t)ints(a.check)[0];
    for (size_t i = 0; i < rows_in(table); i++) {
        const int32_t *row = row_of(table, i);
        if (words_of(a.work)[i] != head || row[0] == order_in(a.check) || ints(a.base)[head] > BACKOFF_WORD_LIMIT)
            continue;
        uint32_t words[BACKOFF_ORDER_LIMIT] = {(uint32_t)ints(a.base)[head]};
        memcpy(words + 1, row + 1, (size_t)row[0] * sizeof *row);
        look_up(a, words, (size_t)row[0] + 1);
        struct slice state = empty_state();
        ints(state)[0] = row[0];
        for (int32_t k = 1; k <= row[0]; k++)
            ints(state)[k] = (int32_t)words[row[0] - k];
        struct slice newest = block(1, 4);
        words_of(newest)[0] = words[row[0]];
        see_one_word(a, state, newest);
    }
}

/* What unloading accepts is an accepted list whose rows the array has, and building it again and unloading gives it back. */
static void see_unload_of(struct arrays a) {
    struct slice table, slots;
    size_t rows = (size_t)ints(a.base)[1];
    if (unload(a, 8 * rows, rows, &table, &slots).number != 0)
        return;
    require(check_list(table).number == 0 && row_of(table, rows - 1)[0] == order_in(a.check),
            "an accepted list of the array's order");
    see_lookups(table, a);
    see_unloaded(table, build_fitting(table));
    a.work = slots;
    see_unloaded(table, a);
}

/* Changed or drawn arrays, and a list whose words to walk. */
struct arrays other_arrays(struct slice table) {
    struct arrays a = {block(0, 4), block(0, 4), block(0, 4)};
    if (chance(30)) {
        draw_arrays(&a.base, &a.check);
        return a;
    }
    size_t rows = rows_in(table), slots = least_slots(table);
    if (chance(40))
        a = spread_arrays(table);
    while (a.base.count == 0 && build(table, slots + below(3), rows, &a).number == 10)
        slots = 2 * slots;
    if (chance(90))
        damage_arrays(a.base, a.check);
    /* The head of T-09, of T-08, of T-01, or that before it. */
    static const int32_t older_heads[] = {16, 40, 8, 0};
    if (chance(5) && is_head(a.base, a.check))
        ints(a.check)[0] += older_heads[below(4)] - HEAD;
    return a;
}

static void spread_case(void) {
    struct slice table = accepted_list();
    struct arrays spread = spread_arrays(table);
    see_lookups(table, spread);
    see_unloaded(table, spread);
    see_wrong_bit(table, spread);
    see_bases(table, spread);
    see_slot_0(table, spread);
    see_runs(table, spread, chance(50));
}

static void lent_case(void) {
    struct slice table = accepted_list();
    struct arrays a = other_arrays(table);
    struct slice state = rubbish(BACKOFF_STATE_LENGTH, 4), other = rubbish(BACKOFF_STATE_LENGTH, 4);
    struct answer begun = start(a, &state);
    require(start(a, &other).number == begun.number && same(state, other), "start does not read the state");
    for (size_t left = 6; left > 0; left--) {
        struct slice sequence = text(table, chance(80) ? 1 + below(5) : below(8));
        look_up(a, sequence.items, sequence.count);
        struct slice own = own_state(is_head(a.base, a.check) ? order_in(a.check) : 3);
        see_split(a, chance(50) ? state : own, text(table, below(8)));
        see_end(a, chance(50) ? state : own, text(table, below(4)), begun, state);
        see_one_word(a, chance(50) ? empty_state() : own, text(table, 1));
    }
    struct slice rows, slots;
    if (!is_head(a.base, a.check))
        unload(a, table.count, rows_in(table), &rows, &slots);
    else if (ints(a.base)[1] < 400)
        see_unload_of(a);
}

/* ---- lengths */

/* A length that is often right, else one less or more, or nothing. */
static size_t near(size_t right) {
    switch (below(6)) {
    case 0:
        return right + 1;
    case 1:
        return right == 0 ? 0 : right - 1;
    case 2:
        return below(4);
    default:
        return right;
    }
}

static void length_case(void) {
    struct slice table = accepted_list(), words = text(table, below(5)), rows, slots;
    struct arrays fit = build_fitting(table), a = fit, ignored;
    size_t base = near(fit.base.count), check = chance(70) ? base : near(fit.check.count);
    struct slice lent[4] = {table, rubbish(base, 4), rubbish(check, 4), rubbish(near(rows_in(table)), 4)};
    if (chance(70))
        ask(BUILD, false, lent);
    a.base = part_of(fit.base, 0, base < fit.base.count ? base : fit.base.count);
    a.check = part_of(fit.check, 0, check < fit.check.count ? check : fit.check.count);
    struct slice state = rubbish(near(BACKOFF_STATE_LENGTH), 4);
    start(a, &state);
    run(a, state, words, near(words.count), near(words.count));
    run(a, empty_state(), words, near(words.count), near(words.count));
    plain(table, chance(50), words, near(words.count), near(words.count));
    unload(a, near(table.count), near(rows_in(table)), &rows, &slots);
    unload(fit, near(table.count), near(rows_in(table)), &rows, &slots);
    build(part_of(table, 0, below(table.count + 1)), below(30), below(30), &ignored);
}

/* The limits of rows, of slots and of words, each with one more. */
static void limit_case(size_t kind) {
    struct slice table = accepted_list();
    struct arrays built;
    size_t words = BACKOFF_RUN_LIMIT, rows = rows_in(table);
    switch (kind) {
    case 0:
        require(check_list(longest_list(BACKOFF_ROW_LIMIT)).number == 0, "the longest list is accepted");
        require(check_list(longest_list(BACKOFF_ROW_LIMIT + 1)).number == 1, "one row more gives 1");
        break;
    case 1:
        require(build(table, BACKOFF_SLOT_LIMIT, rows, &built).number == 0, "the largest array is accepted");
        require(build(table, BACKOFF_SLOT_LIMIT + 1, rows, &built).number == 2, "one slot more gives 2");
        break;
    case 2:
        require(plain(table, true, text(table, words), words, words).answer.number == 0,
                "the longest run is accepted by plain scoring");
        require(plain(table, true, text(table, words + 1), words, words).answer.number == 14,
                "one word more gives 14 to plain scoring");
        break;
    case 3:
        arpa_limit_case();
        break;
    case 4:
        batch_limit_case();
        break;
    case 5:
        fragment_limit_case();
        break;
    case 6:
        filling_limit_case();
        break;
    case 7:
        sentence_limit_case();
        break;
    default:
        built = build_fitting(table);
        see_split(built, empty_state(), text(table, words));
        require(run(built, empty_state(), text(table, words + 1), words, words).answer.number == 14,
                "one word more gives 14");
    }
}

/* The limits, each once from this case on; they take long, so a wrong library is mostly caught before. */
enum { FIRST_LIMIT = 400, LIMITS = 9 };

/* The other cases are drawn, those of the limits rarely. */
void run_case(uint64_t number) {
    size_t kind = below(2050);
    if (number >= FIRST_LIMIT && number < FIRST_LIMIT + LIMITS)
        limit_case((size_t)number - FIRST_LIMIT);
    else if (kind < 1)
        limit_case(below(LIMITS));
    else if (kind < 300)
        list_case();
    else if (kind < 450)
        built_case();
    else if (kind < 550)
        spread_case();
    else if (kind < 850)
        lent_case();
    else if (kind < 1000)
        length_case();
    else if (kind < 1300)
        arpa_case();
    else if (kind < 1500)
        batch_case();
    else if (kind < 1700)
        fragment_case();
    else if (kind < 1900)
        filling_case();
    else
        sentence_case();
}
