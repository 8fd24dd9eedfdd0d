// The header from C++: the answers are C++ types with C linkage, and the numbers are constants of the language.
#include "backoff.h"

static_assert(BACKOFF_BAD_STATE == 16 && BACKOFF_LEAST_BACKOFF == -BACKOFF_LARGEST_BACKOFF, "numbers of the header");
static_assert(BACKOFF_LISTING_SIZE == 22 && BACKOFF_LISTING_LIMIT == 65536, "number and limit of a listing");
static_assert(BACKOFF_UNKNOWN_LENGTH == 8 && BACKOFF_EXTENDED_LENGTH == 16, "what is added to a length byte");

int main() {
    const int32_t table[BACKOFF_ROW_ITEMS] = {1, 1, 0, 0, 0, 0, -20000, 0};
    const backoff_status missing = backoff_check(table, BACKOFF_ROW_ITEMS);
    int32_t state[BACKOFF_STATE_LENGTH];
    const backoff_status none = backoff_start(nullptr, 0, nullptr, 0, state, BACKOFF_STATE_LENGTH);
    const backoff_rows no_text = backoff_arpa(nullptr, 0, false, nullptr, 0, nullptr, 0);
    const backoff_sheet no_sheet = backoff_batch(nullptr, 0, nullptr, 0, nullptr, 0, nullptr, 0, nullptr, 0, nullptr, 0);
    const backoff_listing no_listing = backoff_sentences(nullptr, 0, nullptr, 0, 1, nullptr, 0, nullptr, 0);
    const backoff_move no_move = backoff_largest_move(nullptr, 0, nullptr, 0, 1, nullptr, 0, nullptr, 0);
    const backoff_fragment empty{};
    const backoff_joined no_fragment = backoff_join_fragments(nullptr, 0, nullptr, 0, empty, empty);
    const backoff_rows no_list = backoff_fill(nullptr, 0, nullptr, 0);
    const backoff_array no_array{nullptr, nullptr, 0};
    const backoff_found not_found = backoff_array_lookup(&no_array, nullptr, 0);
    const bool formed = not_found.number == BACKOFF_ARRAY_HEAD && backoff_reason(not_found.number) != backoff_reason(0);
    const bool found = backoff_store_count(nullptr, 0) == 0 && backoff_store_find(nullptr, 0, nullptr, 0) == 0;
    const bool holds = found && missing.number == BACKOFF_RESERVED_WORD && none.number == BACKOFF_ARRAY_HEAD && state[0] == 0;
    const bool refused = no_sheet.number == BACKOFF_ARRAY_HEAD && no_listing.number == BACKOFF_ARRAY_HEAD &&
                         no_move.number == BACKOFF_ARRAY_HEAD && no_fragment.number == BACKOFF_ARRAY_HEAD;
    return holds && refused && formed && no_text.number == BACKOFF_ARPA_LINE && no_list.number == BACKOFF_TABLE_LENGTH ? 0 : 1;
}
