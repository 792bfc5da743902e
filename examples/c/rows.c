/* hop_row on tables of random words: refused or not, it changes no word of either table; it hands out the row of a live key where that lies, and
 * nothing else; and what is written through it stands there alone. */
#include "hop.h"

#include <inttypes.h>
#include <stdio.h>
#include <string.h>

#define SLOTS 6u
#define LINKS (SLOTS * HOP_LINK_WORDS)
#define ROWS (SLOTS * HOP_ROW_WORDS)
#define LOOKS 100000u
#define LENT lent.links, LINKS, lent.rows, asked.row_words, asked.header.used, asked.header.live
#define KEY asked.key.index, asked.key.version

struct tables {
    uint32_t links[LINKS];
    uint32_t rows[ROWS];
};

/* The tables, and how they must be after the look; what else hop_row is asked. */
static struct tables lent, wanted;
static struct {
    size_t row_words;
    struct hop_header header;
    struct hop_key key;
} asked;

/* A fixed sequence, so that every run is the same. */
static uint32_t any_word(void)
{
    static uint32_t word = 2463534242u;

    word ^= word << 13;
    word ^= word >> 17;
    word ^= word << 5;
    return word;
}

static int once_in(uint32_t n)
{
    return any_word() % n == 0;
}

/* Mostly near what a version, an index or a count can be. */
static uint32_t near_word(void)
{
    return once_in(8) ? any_word() : any_word() % (SLOTS + 2u);
}

static void fill(uint32_t *words, size_t count)
{
    size_t i;

    for (i = 0; i < count; i++) {
        words[i] = near_word();
    }
}

/* Most headers and lengths fit, and most keys have their slot's version. */
static void draw(void)
{
    fill(lent.links, LINKS);
    fill(lent.rows, ROWS);
    asked.row_words = once_in(16) ? ROWS - any_word() % 9u : ROWS;
    asked.header.used = once_in(16) ? near_word() : 1u + any_word() % SLOTS;
    asked.header.live = once_in(16) ? near_word() : any_word() % SLOTS;
    asked.key.index = near_word();
    asked.key.version = asked.key.index < SLOTS && !once_in(4) ? lent.links[asked.key.index * HOP_LINK_WORDS] : near_word();
    memcpy(&wanted, &lent, sizeof wanted);
}

/* The row through its pointer, and where it must stand. */
static void write_through(uint32_t *row)
{
    uint32_t *place = wanted.rows + asked.key.index * HOP_ROW_WORDS;
    size_t word;

    for (word = 0; word < HOP_ROW_WORDS; word++) {
        row[word] = ~row[word];
        place[word] = ~place[word];
    }
}

/* What is wrong with a look, or a null pointer. */
static const char *fault_of(uint32_t *row)
{
    uint32_t kind = hop_key_number(LENT, KEY).kind;

    if (memcmp(&lent, &wanted, sizeof lent) != 0) {
        return "a word changed";
    }
    if (row != (kind == HOP_DONE ? lent.rows + asked.key.index * HOP_ROW_WORDS : NULL)) {
        return "another pointer than that of a live key's row";
    }
    if (row != NULL) {
        write_through(row);
    }
    return memcmp(&lent, &wanted, sizeof lent) == 0 ? NULL : "a word outside the row changed, or not that row";
}

int main(void)
{
    uint32_t looks, rows = 0;

    if (hop_layout() != HOP_LAYOUT) {
        printf("the archive has layout %" PRIu32 ", and not %u: compile anew with its header file\n", hop_layout(), HOP_LAYOUT);
        return 1;
    }
    for (looks = 0; looks < LOOKS; looks++) {
        uint32_t *row;
        const char *fault;

        draw();
        row = hop_row(LENT, KEY);
        fault = fault_of(row);
        if (fault != NULL) {
            printf("look %" PRIu32 ": WRONG, %s\n", looks, fault);
            return 1;
        }
        rows += row != NULL;
    }
    printf("%" PRIu32 " looks: %" PRIu32 " rows handed out and written, %" PRIu32 " refused\n", looks, rows, looks - rows);
    return 0;
}
