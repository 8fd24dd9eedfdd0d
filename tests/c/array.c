/* Build and lookup from C. */
#include "test.h"

enum { SLOTS = 20 };

static int32_t base[SLOTS];
static int32_t check[SLOTS];
static uint32_t work[9];

static struct backoff_status build(size_t slots) {
    return backoff_build(&SAMPLE[0][0], 72, base, slots, check, slots, work, 9);
}

static int finds(const uint32_t *words, size_t count, uint32_t number, struct backoff_found expected) {
    struct backoff_found answer = backoff_lookup(base, SLOTS, check, SLOTS, words, count);
    return answer.number == number && answer.place == 0 && answer.found == expected.found && answer.p == expected.p &&
           answer.b == expected.b && answer.left == expected.left;
}

int main(void) {
    static const uint32_t listed[2] = {2, 4};
    static const uint32_t unlisted[2] = {5, 4};
    static const uint32_t longest[3] = {2, 4, 5};
    static const struct backoff_found row_2_4 = {0, 0, 1, -4000, -500, 0};
    static const struct backoff_found row_4 = {0, 0, 1, -6000, -2000, 1};
    static const struct backoff_found row_2_4_5 = {0, 0, 1, -1000, 0, 0};
    static const struct backoff_found nothing = {0, 0, 0, 0, 0, 0};
    expect("K7: 19 slots give 10", is(build(SLOTS - 1), 10, 0) && check[12] == INT32_MIN && work[6] == 0);
    expect("a work slice too short gives 2", is(backoff_build(&SAMPLE[0][0], 72, base, SLOTS, check, SLOTS, work, 8), 2, 0));
    expect("K7: 20 slots are enough", is(build(SLOTS), 0, 0));
    expect("K8: the node and the marker of 2 4", work[6] == 12 && base[12] == 16 && check[16] == -4001 && base[16] == -1999);
    expect("2 4 5 has p - 1 in its own slot", work[8] == 19 && base[19] == -1001 && check[19] == 15);
    expect("and no marker: slot 18 is free", base[18] == 0 && check[18] == INT32_MIN);
    expect("the head is n + 24, and the rows", check[0] == 27 && base[1] == 9);
    expect("K6: 2 4 is found", finds(listed, 2, 0, row_2_4));
    expect("K6: 5 4 is not found", finds(unlisted, 2, 0, nothing));
    expect("2 4 puts a word in front of 4", finds(listed + 1, 1, 0, row_4));
    expect("2 4 5 is found", finds(longest, 3, 0, row_2_4_5));
    expect("no word gives 14", finds(listed, 0, 14, nothing));
    check[0] = 3;
    expect("the head n of older arrays gives 11", finds(listed, 2, 11, nothing));
    check[0] = 3 + 8;
    expect("the head n + 8 of older arrays gives 11", finds(listed, 2, 11, nothing));
    check[0] = 3 + 40;
    expect("the head n + 40 of older arrays gives 11", finds(listed, 2, 11, nothing));
    check[0] = 3 + 16;
    expect("the head n + 16 of older arrays gives 11", finds(listed, 2, 11, nothing));
    check[0] = 3 + 24;
    base[19] = 0;
    expect("0 in the slot of 2 4 5 gives 12", finds(longest, 3, 12, nothing));
    base[15] = -3001;
    expect("p - 1 in the slot of 4 5, which is not the longest, gives 12", finds(longest + 1, 2, 12, nothing));
    return counted();
}
