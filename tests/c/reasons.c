/* Each refusal number has a sentence of its own, and so has every number that is none. */
#include "test.h"

enum { NUMBERS = BACKOFF_LISTING_SIZE + 1 };

static int is_sentence(const char *text) {
    size_t length = strlen(text);
    return length > 10 && text[length - 1] == '.';
}

static int is_own(uint32_t number) {
    for (uint32_t other = 0; other < number; other++)
        if (strcmp(backoff_reason(number), backoff_reason(other)) == 0)
            return 0;
    return 1;
}

int main(void) {
    for (uint32_t number = 0; number <= NUMBERS; number++)
        expect("a sentence of its own", is_sentence(backoff_reason(number)) && is_own(number));
    expect("all further numbers are none", strcmp(backoff_reason(NUMBERS), backoff_reason(UINT32_MAX)) == 0);
    expect("the number of fragments", strstr(backoff_reason(BACKOFF_BAD_FRAGMENT), "fragment") != NULL);
    expect("the last number is that of listings", strstr(backoff_reason(BACKOFF_LISTING_SIZE), "listed") != NULL);
    return counted();
}
