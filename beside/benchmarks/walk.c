/* The walk as a firmware would write it: from step to step over the tables, each row read where it lies. Answers 0 with the sum of the first words,
 * or the number of a refusal. */
#include "hop.h"

uint32_t bench_walk(const uint32_t *links, size_t link_words, const uint32_t *rows, size_t row_words, uint32_t used, uint32_t live, uint64_t *sum);

uint32_t bench_walk(const uint32_t *links, size_t link_words, const uint32_t *rows, size_t row_words, uint32_t used, uint32_t live, uint64_t *sum)
{
    uint32_t cursor = 0;
    uint64_t words = 0;

    for (;;) {
        struct hop_answer step = hop_step(links, link_words, rows, row_words, used, live, cursor);

        if (step.kind != HOP_ANSWER) {
            *sum = words;
            return step.kind == HOP_DONE ? 0 : step.number;
        }
        words += rows[(size_t)step.key.index * HOP_ROW_WORDS];
        cursor = step.cursor;
    }
}
