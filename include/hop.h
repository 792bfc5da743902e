/* hop: a slot map for deck electronics, proved. This is the C surface, over the archive libhop_c.a.
 *
 * C99, and C++11 takes it too. The archive is what `rt lib` writes in crates/hop_c, for x86-64 Linux. It needs no other library, uses no memory
 * but the stack and what is lent, and keeps nothing between calls. This file and the archive go together: where struct hop_answer grows,
 * HOP_LAYOUT is another number, and a caller is compiled anew. hop_layout tells the archive's number: ask it before any other call.
 *
 * WHAT IS LENT. Every call is lent two tables: four link words and one row of eight words for each slot, the same number of slots in both, from 1 to
 * HOP_LIMIT. The header, used and live, goes in by value, and each answer has the header for the next call. A key is a slot index and a version.
 * A side buffer has the eight words of one row.
 *
 * WHAT IS ANSWERED. Every call answers a struct hop_answer by value. Its kind is HOP_ANSWER, with what was asked for, HOP_DONE, or HOP_REFUSED, with
 * a number. What a case does not name is zero. A refused call changes no word and hands the header back as it was given. Each function below
 * says what it answers and every number that it can give. After a hop_start or hop_rebuild that was done, HOP_DAMAGED never comes to a caller
 * who hands in the tables as the last call left them, but for rows written through hop_row, and the header last handed back.
 *
 * WHAT THE CALLER OWES. Each call is proved to end and to stay inside what was lent, whatever words, lengths, header, key and cursor it is given;
 * all that it can test it answers with a number, a wrong length or header with HOP_SHAPE. What it cannot test is a pointer. So, for each one:
 *   - it is not null, not even with length 0, and leads to as many words (uint32_t; bytes of keep and presence) of one object as the length beside
 *     it says, each with a value;
 *   - it is aligned for its type;
 *   - what it leads to overlaps no other buffer of the same call;
 *   - during the call no other thread writes there, nor reads there where the pointer is not const.
 * No call keeps a pointer.
 */
#ifndef HOP_H
#define HOP_H

#include <stddef.h>
#include <stdint.h>

#ifdef __cplusplus
extern "C" {
#endif

/* The version of struct hop_answer: every answer has it in its first word. */
#define HOP_LAYOUT 1u

/* The most slots that may be lent; the link words of a slot; the words of its row. */
#define HOP_LIMIT 4096u
#define HOP_LINK_WORDS 4u
#define HOP_ROW_WORDS 8u

/* The kinds of an answer. */
#define HOP_ANSWER 0u
#define HOP_DONE 1u
#define HOP_REFUSED 2u

/* The numbers of a refusal. */
#define HOP_SHAPE 1u          /* lengths that are no table's, or that differ; another number of side words, keep bytes or presence bytes than is
                                 asked for; used 0 or over the slots lent; live over used less 1 */
#define HOP_DAMAGED 2u        /* the table is not sound where the call looked: slot 0 has an odd version, a link leads astray, or live does not
                                 fit (hop_sound, hop_clear and hop_retain look at all of it) */
#define HOP_EVEN_VERSION 3u   /* a key with an even version: none is ever handed out */
#define HOP_NOT_LIVE 4u       /* a key that is not live */
#define HOP_FULL 5u           /* no slot is left */
#define HOP_STALE_CURSOR 6u   /* a cursor inside a run of vacant slots: a row was removed during the walk */
#define HOP_WRONG_PRESENCE 7u /* a presence byte that is not 0 or 1, or not the version's lowest bit */
#define HOP_ZERO_OCCUPIED 8u  /* slot 0 said to be occupied */
#define HOP_BROKEN_STREAM 9u  /* of the command program alone: no call below gives it */

struct hop_key {
    uint32_t index;
    uint32_t version;
};

/* Slots in use, slot 0 included, and rows live. */
struct hop_header {
    uint32_t used;
    uint32_t live;
};

struct hop_answer {
    uint32_t layout; /* HOP_LAYOUT */
    uint32_t kind;
    uint32_t number; /* of a refusal */
    struct hop_key key;
    uint32_t cursor;
    uint32_t count;
    uint32_t row[HOP_ROW_WORDS];
    struct hop_header header; /* for the next call */
};

#if defined(__cplusplus) && __cplusplus >= 201103L
static_assert(sizeof(struct hop_answer) == 17 * sizeof(uint32_t), "seventeen words, with no gap");
#elif defined(__STDC_VERSION__) && __STDC_VERSION__ >= 201112L
_Static_assert(sizeof(struct hop_answer) == 17 * sizeof(uint32_t), "seventeen words, with no gap");
#endif

/* The version of struct hop_answer that the archive has. Where it is not HOP_LAYOUT, no other function may be called. */
uint32_t hop_layout(void);

/* Makes an empty map of what is lent. The header given is not looked at: any will do.
 * Done. Refused: HOP_SHAPE, for the lengths of the tables alone. */
struct hop_answer hop_start(uint32_t *links, size_t link_words, uint32_t *rows, size_t row_words, uint32_t used, uint32_t live);

/* How many slots are lent and not live, slot 0 among them.
 * Answers the count. Refused: HOP_SHAPE, HOP_DAMAGED. */
struct hop_answer hop_room(const uint32_t *links, size_t link_words, const uint32_t *rows, size_t row_words, uint32_t used, uint32_t live);

/* Whether a key is live.
 * Done where it is. Refused: HOP_SHAPE, HOP_DAMAGED, HOP_EVEN_VERSION, HOP_NOT_LIVE. */
struct hop_answer hop_key_number(const uint32_t *links, size_t link_words, const uint32_t *rows, size_t row_words, uint32_t used, uint32_t live,
                                 uint32_t index, uint32_t version);

/* A look at a live key.
 * Answers the key and its row, by value. Refused: HOP_SHAPE, HOP_DAMAGED, HOP_EVEN_VERSION, HOP_NOT_LIVE. */
struct hop_answer hop_look(const uint32_t *links, size_t link_words, const uint32_t *rows, size_t row_words, uint32_t used, uint32_t live,
                           uint32_t index, uint32_t version);

/* The row of a live key becomes the eight words of the side buffer.
 * Done. Refused: HOP_SHAPE, HOP_DAMAGED, HOP_EVEN_VERSION, HOP_NOT_LIVE. */
struct hop_answer hop_replace(const uint32_t *links, size_t link_words, uint32_t *rows, size_t row_words, uint32_t used, uint32_t live,
                              uint32_t index, uint32_t version, const uint32_t *side, size_t side_words);

/* Takes a row in from the side buffer.
 * Answers its key. Refused: HOP_SHAPE, HOP_DAMAGED, HOP_FULL. */
struct hop_answer hop_insert(uint32_t *links, size_t link_words, uint32_t *rows, size_t row_words, uint32_t used, uint32_t live,
                             const uint32_t *side, size_t side_words);

/* Takes the row of a live key out; the key is dead from now on.
 * Answers the key and the row that was there. Refused: HOP_SHAPE, HOP_DAMAGED, HOP_EVEN_VERSION, HOP_NOT_LIVE. */
struct hop_answer hop_remove(uint32_t *links, size_t link_words, uint32_t *rows, size_t row_words, uint32_t used, uint32_t live,
                             uint32_t index, uint32_t version);

/* The hop step, under the name hop_step and not hop_hop_step: the next live slot from the cursor on. A walk starts at 0 and goes on from each
 * answer's cursor.
 * Answers the key and the cursor to go on from; done at the end. Refused: HOP_SHAPE, HOP_DAMAGED, HOP_STALE_CURSOR. */
struct hop_answer hop_step(const uint32_t *links, size_t link_words, const uint32_t *rows, size_t row_words, uint32_t used, uint32_t live,
                           uint32_t cursor);

/* The drain step: takes one live row out, in a sound table that of the lowest slot.
 * Answers its key and the row that was there; done when none is live. Refused: HOP_SHAPE, HOP_DAMAGED. */
struct hop_answer hop_drain_step(uint32_t *links, size_t link_words, uint32_t *rows, size_t row_words, uint32_t used, uint32_t live);

/* Takes every live row out, after the whole soundness check.
 * Done. Refused: HOP_SHAPE, HOP_DAMAGED. */
struct hop_answer hop_clear(uint32_t *links, size_t link_words, uint32_t *rows, size_t row_words, uint32_t used, uint32_t live);

/* One byte for each slot in use, slot 0 included: 0 takes a live slot's row out, any other keeps it. First comes the whole soundness check.
 * Answers the count of the rows that went. Refused: HOP_SHAPE (also for another number of bytes than used), HOP_DAMAGED. */
struct hop_answer hop_retain(uint32_t *links, size_t link_words, uint32_t *rows, size_t row_words, uint32_t used, uint32_t live,
                             const uint8_t *keep, size_t keep_bytes);

/* Versions and rows that stand in place become a map again: one presence byte for each slot that is to be in use, 1 where it is occupied. The
 * header given is not looked at: any will do.
 * Done. Refused: HOP_SHAPE (the lengths alone: no byte, or more than slots are lent), HOP_WRONG_PRESENCE, HOP_ZERO_OCCUPIED. */
struct hop_answer hop_rebuild(uint32_t *links, size_t link_words, uint32_t *rows, size_t row_words, uint32_t used, uint32_t live,
                              const uint8_t *presence, size_t presence_bytes);

/* The soundness check.
 * Done for exactly the sound tables. Refused: HOP_SHAPE, HOP_DAMAGED. */
struct hop_answer hop_sound(const uint32_t *links, size_t link_words, const uint32_t *rows, size_t row_words, uint32_t used, uint32_t live);

/* A look to write through: where the eight words of a live key's row lie in the row table, a null pointer for any other key. hop_key_number tells the
 * number then. Only these eight words may be written through it, and only until the next call that writes the rows. */
static inline uint32_t *hop_row(const uint32_t *links, size_t link_words, uint32_t *rows, size_t row_words, uint32_t used, uint32_t live,
                                uint32_t index, uint32_t version)
{
    struct hop_answer answer = hop_key_number(links, link_words, rows, row_words, used, live, index, version);
    return answer.kind == HOP_DONE ? rows + (size_t)index * HOP_ROW_WORDS : NULL;
}

#ifdef __cplusplus
}
#endif

#endif
