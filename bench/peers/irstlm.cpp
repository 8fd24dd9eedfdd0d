/* A scorer over irstlm's library, Debian's package libirstlm-dev. The list is written as an ARPA file, which irstlm reads. The
 * context is carried from word to word, no longer than irstlm matched it. irstlm does not tell whether some row puts a further
 * word in front, so the length bytes lack their 16. */
#include "peer.h"
#include <algorithm>
#include <cmath>
#include <cstdio>
#include <iostream>
#include <irstlm/lmtable.h>
#include <string>
#include <vector>

namespace {

const char *const ARPA_FILE = "target/peers/list.arpa";
const double POINTS = 1000000;

struct scorer {
    irstlm::lmtable table;
    std::vector<int> codes; /* irstlm's numbers of our words; word 0 is unknown */
};

std::string text_of(uint32_t word)
{
    const char *const marks[] = {"<unk>", "<unk>", "<s>", "</s>"};
    return word <= END ? marks[word] : std::to_string(word);
}

void write_row(FILE *file, const int32_t *cells, int order)
{
    std::fprintf(file, "%.6f\t", cells[6] / POINTS);
    for (int i = 1; i <= cells[0]; i++)
        std::fprintf(file, "%s%s", i == 1 ? "" : " ", text_of(cells[i]).c_str());
    if (cells[0] < order)
        std::fprintf(file, "\t%.6f", cells[7] / POINTS);
    std::fprintf(file, "\n");
}

/* Writes the rows by their length, then by their oldest word: irstlm wants those with the same first words side by side. */
bool write_arpa(FILE *file, const row *rows, size_t count)
{
    std::vector<const int32_t *> sorted(rows, rows + count);
    std::sort(sorted.begin(), sorted.end(), [](const int32_t *one, const int32_t *two) {
        return std::lexicographical_compare(one, one + 1 + MOST_WORDS, two, two + 1 + MOST_WORDS);
    });
    size_t counts[1 + MOST_WORDS] = {};
    for (size_t i = 0; i < count; i++)
        counts[rows[i][0]]++;
    int order = rows[count - 1][0];
    std::fprintf(file, "\\data\\\n");
    for (int m = 1; m <= order; m++)
        std::fprintf(file, "ngram %d= %zu\n", m, counts[m]);
    for (size_t i = 0; i < count; i++) {
        if (i == 0 || sorted[i][0] != sorted[i - 1][0])
            std::fprintf(file, "\n\\%d-grams:\n", sorted[i][0]);
        write_row(file, sorted[i], order);
    }
    std::fprintf(file, "\n\\end\\\n");
    return std::fclose(file) == 0;
}

/* Leaves <s> as the only word. */
void start(const scorer &scorer, ngram &context)
{
    context.size = 0;
    context.pushc(scorer.codes[START]);
}
}

void *peer_open(const row *rows, size_t count)
{
    FILE *file = std::fopen(ARPA_FILE, "w");
    if (!file || !write_arpa(file, rows, count))
        return nullptr;
    scorer *opened = new scorer();
    std::cerr.setstate(std::ios::failbit); /* irstlm tells how it reads */
    opened->table.load(ARPA_FILE);
    std::cerr.clear();
    for (uint32_t word = 0; word <= LARGEST_WORD; word++)
        opened->codes.push_back(opened->table.getDict()->encode(text_of(word).c_str()));
    return opened;
}

int64_t peer_score(void *peer, const uint32_t *words, size_t count, int32_t *points, uint8_t *lengths)
{
    scorer &opened = *static_cast<scorer *>(peer);
    int order = opened.table.maxlevel(), unknown = opened.codes[UNKNOWN];
    ngram context(opened.table.getDict());
    start(opened, context);
    int64_t total = 0;
    for (size_t i = 0; i < count; i++) {
        int code = words[i] <= LARGEST_WORD ? opened.codes[words[i]] : unknown, backed_off = 0;
        context.pushc(code);
        context.size = std::min(context.size, order);
        points[i] = std::lround(opened.table.lprob(context, nullptr, &backed_off) * POINTS);
        context.size -= backed_off;
        lengths[i] = context.size + (code == unknown ? 8 : 0);
        total += points[i];
        if (words[i] == END)
            start(opened, context);
    }
    return total;
}
