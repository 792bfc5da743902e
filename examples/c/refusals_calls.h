/* Every call by its name, over what it is given. For refusals.c. */
#ifndef REFUSALS_CALLS_H
#define REFUSALS_CALLS_H

#include "hop.h"

#include <stdio.h>
#include <stdlib.h>
#include <string.h>

/* Eight slots are lent, unless a fault says otherwise; there is room for one more than may ever be lent. */
#define SLOTS 8u
#define LINKS (SLOTS * HOP_LINK_WORDS)
#define ROWS (SLOTS * HOP_ROW_WORDS)
#define MOST (HOP_LIMIT + 1u)
#define LENT given.links, given.link_words, given.rows, given.row_words, given.header.used, given.header.live
#define KEY given.key.index, given.key.version

/* What a call is given. */
struct given {
    uint32_t links[MOST * HOP_LINK_WORDS];
    uint32_t rows[MOST * HOP_ROW_WORDS];
    uint32_t link_words;
    uint32_t row_words;
    struct hop_header header;
    struct hop_key key;
    uint32_t cursor;
    uint32_t side_words;
    uint32_t keep_bytes;
    uint32_t presence_bytes;
    uint32_t map; /* which of the maps of presence bytes */
};

/* What the next call is given; how it stood before the call; and with nothing wrong. */
static struct given given, before, fair;

static const uint32_t side[HOP_ROW_WORDS + 1] = {58, 54020, 7750, 0, 0, 0, 0, 0, 0};
static const uint8_t keep[SLOTS] = {0, 1, 0, 0, 0, 1, 0, 0};

/* Presence bytes: the first map fits the versions, each other has a byte that does not, and the last has two. */
#define FITTING 0u
#define TWO_AT_LIVE 1u
#define TWO_AT_VACANT 2u
#define LIVE_MISSED 3u
#define VACANT_CLAIMED 4u
#define ZERO_CLAIMED 5u
#define ZERO_CLAIMED_LIVE_MISSED 6u
static const uint8_t maps[][SLOTS + 1] = {
    {0, 1, 0, 0, 1, 1, 0, 0, 0},
    {0, 1, 0, 0, 2, 1, 0, 0, 0},
    {0, 1, 0, 2, 1, 1, 0, 0, 0},
    {0, 1, 0, 0, 1, 0, 0, 0, 0},
    {0, 1, 1, 0, 1, 1, 0, 0, 0},
    {1, 1, 0, 0, 1, 1, 0, 0, 0},
    {1, 1, 0, 0, 1, 0, 0, 0, 0},
};

/* The calls, each with a bit, in the order of the list below. */
#define START 0x1u
#define ROOM 0x2u
#define KEY_NUMBER 0x4u
#define LOOK 0x8u
#define REPLACE 0x10u
#define INSERT 0x20u
#define REMOVE 0x40u
#define STEP 0x80u
#define DRAIN_STEP 0x100u
#define CLEAR 0x200u
#define RETAIN 0x400u
#define REBUILD 0x800u
#define SOUND 0x1000u
#define ROW 0x2000u

#define MAKING (START | REBUILD)
#define WHOLE (CLEAR | RETAIN | SOUND)
#define KEYED (KEY_NUMBER | LOOK | REPLACE | REMOVE | ROW)
#define READING (ROOM | KEYED | INSERT | STEP | DRAIN_STEP | WHOLE)
#define EVERY (MAKING | READING)

static const char *name_of(uint32_t number)
{
    static const char *const names[] = {"no number", "shape", "damaged", "even version", "not live",
                                        "full", "stale cursor", "wrong presence", "zero occupied"};
    return number < sizeof names / sizeof names[0] ? names[number] : "unknown";
}

static void wrong(const char *call, const char *what)
{
    printf("%s: WRONG, %s\n", call, what);
    exit(1);
}

static struct hop_answer call_start(void)
{
    return hop_start(LENT);
}

static struct hop_answer call_room(void)
{
    return hop_room(LENT);
}

static struct hop_answer call_key_number(void)
{
    return hop_key_number(LENT, KEY);
}

static struct hop_answer call_look(void)
{
    return hop_look(LENT, KEY);
}

static struct hop_answer call_replace(void)
{
    return hop_replace(LENT, KEY, side, given.side_words);
}

static struct hop_answer call_insert(void)
{
    return hop_insert(LENT, side, given.side_words);
}

static struct hop_answer call_remove(void)
{
    return hop_remove(LENT, KEY);
}

static struct hop_answer call_step(void)
{
    return hop_step(LENT, given.cursor);
}

static struct hop_answer call_drain_step(void)
{
    return hop_drain_step(LENT);
}

static struct hop_answer call_clear(void)
{
    return hop_clear(LENT);
}

static struct hop_answer call_retain(void)
{
    return hop_retain(LENT, keep, given.keep_bytes);
}

static struct hop_answer call_rebuild(void)
{
    return hop_rebuild(LENT, maps[given.map], given.presence_bytes);
}

static struct hop_answer call_sound(void)
{
    return hop_sound(LENT);
}

/* hop_row answers a pointer, and hop_key_number tells the number where it is null. It changes no word, refused or not. */
static struct hop_answer call_row(void)
{
    struct hop_answer answer = hop_key_number(LENT, KEY);
    uint32_t *row = hop_row(LENT, KEY);

    if (row != (answer.kind == HOP_DONE ? given.rows + given.key.index * HOP_ROW_WORDS : NULL)) {
        wrong("row", "another pointer");
    }
    if (memcmp(&given, &before, sizeof given) != 0) {
        wrong("row", "a word changed");
    }
    return answer;
}

struct call {
    const char *name;
    unsigned bit;
    struct hop_answer (*made)(void);
};

static const struct call calls[] = {
    {"start", START, call_start},
    {"room", ROOM, call_room},
    {"key number", KEY_NUMBER, call_key_number},
    {"look", LOOK, call_look},
    {"replace", REPLACE, call_replace},
    {"insert", INSERT, call_insert},
    {"remove", REMOVE, call_remove},
    {"step", STEP, call_step},
    {"drain step", DRAIN_STEP, call_drain_step},
    {"clear", CLEAR, call_clear},
    {"retain", RETAIN, call_retain},
    {"rebuild", REBUILD, call_rebuild},
    {"sound", SOUND, call_sound},
    {"row", ROW, call_row},
};

#endif
