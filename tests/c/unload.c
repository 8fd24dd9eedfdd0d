/* Unloading from C. */
#include "test.h"

int main(void) {
    static int32_t base[20];
    static int32_t check[20];
    static int32_t table[72];
    static uint32_t built[9];
    static uint32_t work[9];
    expect("the sample is built", is(backoff_build(&SAMPLE[0][0], 72, base, 20, check, 20, built, 9), 0, 0));
    expect("a table too short gives 15", is(backoff_unload(base, 20, check, 20, table, 71, work, 9), 15, 0));
    expect("unload is accepted", is(backoff_unload(base, 20, check, 20, table, 72, work, 9), 0, 0));
    expect("the list comes back", memcmp(table, SAMPLE, sizeof table) == 0);
    expect("so do the slots", memcmp(work, built, sizeof work) == 0);
    base[7] = 1;
    expect("a wrong f gives 12", is(backoff_unload(base, 20, check, 20, table, 72, work, 9), 12, 0));
    expect("and zeros", table[0] == 0 && table[71] == 0 && work[8] == 0);
    base[7] = 2;
    expect("a wrong e gives 12", is(backoff_unload(base, 20, check, 20, table, 72, work, 9), 12, 0));
    base[7] = 0;
    expect("both right are accepted", is(backoff_unload(base, 20, check, 20, table, 72, work, 9), 0, 0));
    base[19] = -99000001;
    expect("another p of the longest row is accepted", is(backoff_unload(base, 20, check, 20, table, 72, work, 9), 0, 0));
    expect("and comes back", table[70] == -99000000 && table[71] == 0);
    base[19]--;
    expect("one point less gives 12", is(backoff_unload(base, 20, check, 20, table, 72, work, 9), 12, 0));
    return counted();
}
