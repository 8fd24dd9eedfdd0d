/* The list check from C, through the shipped header. */
#include "test.h"

int main(void) {
    expect("the sample is accepted", is(backoff_check(&SAMPLE[0][0], 72), 0, 0));
    expect("no row gives 1", is(backoff_check(&SAMPLE[0][0], 0), 1, 0));
    expect("word 65,536 in row 9 gives 4", is(check_changed(9, 3, 65536), 4, 9));
    expect("p = 1 in row 1 gives 5", is(check_changed(1, 6, 1), 5, 1));
    expect("an unlisted first word in row 6 gives 8", is(check_changed(6, 1, 6), 8, 6));
    return counted();
}
