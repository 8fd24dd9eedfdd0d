/* A random driver over all calls: fuzz SECONDS SEED [CASE]. Case k of a seed is always the same; with CASE only that
 * one is run. The last line is 'N passed, M failed': a call passes where nothing was violated in any case and it gave each
 * of its numbers in some case. */
#include "fuzz.h"
#include <sanitizer/common_interface_defs.h>
#include <stdio.h>
#include <stdlib.h>
#include <time.h>

/* So many cases are run however slow the machine is: enough to meet every number. */
enum { LEAST_CASES = 8200 };

static unsigned long long seed, number;

/* The fuzzer's own line for what AddressSanitizer reports: an access without rights among others. */
static void name_case(void) { fprintf(stderr, "fuzz: seed %llu, case %llu: %s\n", seed, number, call_name); }

void require(bool holds, const char *text) {
    if (holds)
        return;
    printf("failed: seed %llu, case %llu, after %s: %s\n0 passed, 1 failed\n", seed, number, call_name, text);
    exit(1);
}

static void run_numbered(void) {
    seed_case(seed, number);
    run_case(number);
    release_blocks();
}

static int counted(void) {
    int passed = 0;
    for (int call = CHECK; call < CALLS; call++)
        passed += report_calls((enum call)call) ? 1 : 0;
    printf("seed %llu, %llu cases\n%d passed, %d failed\n", seed, number, passed, CALLS - passed);
    return passed != CALLS;
}

int main(int argc, char **argv) {
    if (argc != 3 && argc != 4) {
        fprintf(stderr, "usage: fuzz SECONDS SEED [CASE]\n");
        return 2;
    }
    __sanitizer_set_death_callback(name_case);
    open_arenas();
    seed = strtoull(argv[2], NULL, 10);
    if (argc == 4) {
        number = strtoull(argv[3], NULL, 10);
        run_numbered();
        printf("1 passed, 0 failed\n");
        return 0;
    }
    time_t end = time(NULL) + (time_t)strtoull(argv[1], NULL, 10);
    for (number = 0; number < LEAST_CASES || time(NULL) < end; number++)
        run_numbered();
    return counted();
}
