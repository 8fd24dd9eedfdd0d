/* An array saved and loaded. The file is in the form that `backoff build` writes, so that `backoff query` and the Python
 * module read it: docs/command-line.md has it. A loaded array is tried by its checksum and by backoff_unload.
 *
 *     cc -std=c99 -Iinclude examples/saved.c target/staticlib/libgrader.a -o saved && ./saved
 *
 * With an argument, the file stays there under this name.
 */
#include "backoff.h"
#include <stdio.h>
#include <stdlib.h>
#include <string.h>

/* m, five words oldest first (unused ones 0), log-probability, back-off. */
static const int32_t list[][BACKOFF_ROW_ITEMS] = {
    {1, 1, 0, 0, 0, 0, -20000, 0},    {1, 2, 0, 0, 0, 0, -990000, -3000}, {1, 3, 0, 0, 0, 0, -10000, 0},
    {1, 4, 0, 0, 0, 0, -6000, -2000}, {1, 5, 0, 0, 0, 0, -9000, -1000},   {2, 5, 3, 0, 0, 0, -1500, 0},
    {2, 2, 4, 0, 0, 0, -4000, -500},  {2, 4, 5, 0, 0, 0, -3000, 0},       {3, 2, 4, 5, 0, 0, -1000, 0},
};
static const char *const texts[] = {"<unk>", "<s>", "</s>", "good", "morning"};
enum {
    ITEMS = sizeof list / sizeof list[0][0],
    ROWS = ITEMS / BACKOFF_ROW_ITEMS,
    ORDER = 3,
    TEXTS = sizeof texts / sizeof texts[0],
    SLOTS = 64,
    FORMAT = 1,
    HEAD_BYTES = 32,
    MOST_BYTES = HEAD_BYTES + 8 * SLOTS + TEXTS * BACKOFF_RECORD_BYTES + 4
};
static const char FIRST_LINE[] = "backoff\n";

struct file {
    size_t count;
    uint8_t bytes[MOST_BYTES];
};

/* Four bytes, lowest first, on every machine. */
static void put(struct file *file, uint32_t number) {
    for (int shift = 0; shift < 32; shift += 8)
        file->bytes[file->count++] = (uint8_t)(number >> shift);
}

static uint32_t get(const struct file *file, size_t at) {
    const uint8_t *bytes = file->bytes + at;
    return bytes[0] | (uint32_t)bytes[1] << 8 | (uint32_t)bytes[2] << 16 | (uint32_t)bytes[3] << 24;
}

/* The CRC-32 of zlib, gzip and PNG. */
static uint32_t checksum(const uint8_t *bytes, size_t count) {
    uint32_t sum = UINT32_MAX;
    for (size_t i = 0; i < count; i++) {
        sum ^= bytes[i];
        for (int bit = 0; bit < 8; bit++)
            sum = sum >> 1 ^ (sum & 1 ? 0xEDB88320u : 0);
    }
    return ~sum;
}

static void save(const struct backoff_array *array, struct file *file) {
    uint32_t text_bytes = 0;
    for (size_t i = 0; i < TEXTS; i++)
        text_bytes += 1 + (uint32_t)strlen(texts[i]);
    memcpy(file->bytes, FIRST_LINE, 8);
    file->count = 8;
    const uint32_t head[] = {FORMAT, ORDER, ROWS, TEXTS, (uint32_t)array->slots, text_bytes};
    for (size_t i = 0; i < 6; i++)
        put(file, head[i]);
    for (size_t i = 0; i < array->slots; i++)
        put(file, (uint32_t)array->base[i]);
    for (size_t i = 0; i < array->slots; i++)
        put(file, (uint32_t)array->check[i]);
    for (size_t i = 0; i < TEXTS; i++) {
        uint8_t length = (uint8_t)strlen(texts[i]);
        file->bytes[file->count++] = length;
        memcpy(file->bytes + file->count, texts[i], length);
        file->count += length;
    }
    put(file, checksum(file->bytes, file->count));
}

/* A number of the file as signed, for any compiler. */
static int32_t as_signed(uint32_t number) {
    int32_t same;
    memcpy(&same, &number, sizeof same);
    return same;
}

/* What is wrong with the file, or NULL: then the array holds an accepted list. */
static const char *load(const struct file *file, struct backoff_array *array) {
    static int32_t table[ITEMS];
    static uint32_t work[ROWS];
    if (file->count < HEAD_BYTES + 4 || memcmp(file->bytes, FIRST_LINE, 8) != 0 || get(file, 8) != FORMAT)
        return "It is not an array file of this form.";
    array->slots = get(file, 24);
    if (array->slots > SLOTS || file->count != HEAD_BYTES + 8 * array->slots + get(file, 28) + 4)
        return "It is cut, or too long.";
    if (checksum(file->bytes, file->count - 4) != get(file, file->count - 4))
        return "The checksum is another: it is not the file that was saved.";
    for (size_t i = 0; i < array->slots; i++) {
        array->base[i] = as_signed(get(file, HEAD_BYTES + 4 * i));
        array->check[i] = as_signed(get(file, HEAD_BYTES + 4 * (array->slots + i)));
    }
    uint32_t number = backoff_array_unload(array, table, ITEMS, work, ROWS).number;
    return number == BACKOFF_ACCEPTED ? NULL : backoff_reason(number);
}

/* Says what failed, with the system's reason. */
static int failed(const char *what) {
    perror(what);
    return EXIT_FAILURE;
}

/* Loads the array and scores a sentence, or says why not. */
static void show(const struct file *file) {
    int32_t base[SLOTS], check[SLOTS], state[BACKOFF_STATE_LENGTH], points[3];
    uint8_t lengths[3];
    static const uint32_t words[] = {4, 5, BACKOFF_END_WORD};
    struct backoff_array array = {base, check, 0};
    const char *fault = load(file, &array);
    if (fault != NULL) {
        printf("refused: %s\n", fault);
        return;
    }
    backoff_array_start(&array, state, BACKOFF_STATE_LENGTH);
    struct backoff_total run = backoff_array_run(&array, state, BACKOFF_STATE_LENGTH, words, 3, points, 3, lengths, 3);
    printf("loaded %zu slots, good morning: %lld points\n", array.slots, (long long)run.total);
}

int main(int count, char **arguments) {
    static struct file file;
    int32_t base[SLOTS], check[SLOTS];
    uint32_t work[ROWS];
    struct backoff_array array = {base, check, SLOTS};
    if (backoff_array_build(&array, &list[0][0], ITEMS, work, ROWS).number != BACKOFF_ACCEPTED)
        return EXIT_FAILURE;
    array.slots = backoff_array_fewest_slots(&array);
    save(&array, &file);

    /* A full disk may be told by the write, by the flush or by the close. */
    FILE *kept = count > 1 ? fopen(arguments[1], "w+b") : tmpfile();
    if (kept == NULL)
        return failed(count > 1 ? arguments[1] : "a temporary file");
    if (fwrite(file.bytes, 1, file.count, kept) != file.count || fflush(kept) != 0)
        return failed("writing the array file");
    printf("saved %zu slots in %zu bytes\n", array.slots, file.count);
    rewind(kept);
    file.count = fread(file.bytes, 1, sizeof file.bytes, kept);
    if (ferror(kept))
        return failed("reading the array file");
    if (fclose(kept) != 0)
        return failed("closing the array file");

    show(&file);
    file.bytes[HEAD_BYTES + 40]++;
    show(&file);
    file.count--;
    show(&file);
    if (fflush(stdout) != 0 || ferror(stdout))
        return failed("standard output");
    return EXIT_SUCCESS;
}
