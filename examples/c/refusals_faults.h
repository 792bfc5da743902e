/* The faults, one by one and two at a time. For refusals.c. */
#ifndef REFUSALS_FAULTS_H
#define REFUSALS_FAULTS_H

#include "refusals_calls.h"

/* What is wrong, the number for it (0: it is not refused), the calls that must give it, and the words that make it so. */
struct change {
    uint32_t *word;
    uint32_t value;
};

#define CHANGES 6u

struct fault {
    const char *what;
    uint32_t number;
    unsigned calls;
    struct change changes[CHANGES];
};

#define VERSION(slot) &given.links[(slot) * HOP_LINK_WORDS]
#define NEXT(slot) &given.links[(slot) * HOP_LINK_WORDS + 1u]
#define PREV(slot) &given.links[(slot) * HOP_LINK_WORDS + 2u]
#define OTHER_END(slot) &given.links[(slot) * HOP_LINK_WORDS + 3u]
#define SLOTS_LENT(slots) {&given.link_words, (slots) * HOP_LINK_WORDS}, {&given.row_words, (slots) * HOP_ROW_WORDS}
#define HEADER(used_, live_) {&given.header.used, (used_)}, {&given.header.live, (live_)}
#define KEY_GIVEN(index_, version_) {&given.key.index, (index_)}, {&given.key.version, (version_)}

/* The fair table has slots 1, 4 and 5 live at version 1, slots 2 and 3 vacant at version 2, and six in use. The key is (1, 1), the cursor 0. */
static const struct fault faults[] = {
    {"nothing wrong", 0, EVERY, {{NULL, 0}}},
    {"as many slots as may be lent", 0, EVERY, {SLOTS_LENT(HOP_LIMIT)}},
    {"a header that is not looked at", 0, MAKING, {HEADER(0, 99)}},
    {"a link that is not looked at", 0, MAKING | ROOM | KEY_NUMBER | LOOK | REPLACE | ROW, {{NEXT(0), 99}, {OTHER_END(0), 99}}},

    {"a link word too few", HOP_SHAPE, EVERY, {{&given.link_words, LINKS - 1}}},
    {"a link word too many", HOP_SHAPE, EVERY, {{&given.link_words, LINKS + 1}}},
    {"a row word too few", HOP_SHAPE, EVERY, {{&given.row_words, ROWS - 1}}},
    {"a row word too many", HOP_SHAPE, EVERY, {{&given.row_words, ROWS + 1}}},
    {"links of fewer slots than rows", HOP_SHAPE, EVERY, {{&given.link_words, LINKS - HOP_LINK_WORDS}}},
    {"rows of fewer slots than links", HOP_SHAPE, EVERY, {{&given.row_words, ROWS - HOP_ROW_WORDS}}},
    {"no slot", HOP_SHAPE, EVERY, {SLOTS_LENT(0)}},
    {"no slot, and a header that is not looked at", HOP_SHAPE, MAKING, {SLOTS_LENT(0), HEADER(77, 99)}},
    {"a slot more than may be lent", HOP_SHAPE, EVERY, {SLOTS_LENT(MOST)}},
    {"used 0", HOP_SHAPE, READING, {HEADER(0, 0)}},
    {"used over lent", HOP_SHAPE, READING, {HEADER(SLOTS + 1, 3)}},
    {"live over used less 1", HOP_SHAPE, READING, {HEADER(6, 6)}},
    {"a side buffer of 7", HOP_SHAPE, REPLACE | INSERT, {{&given.side_words, 7}}},
    {"a side buffer of 9", HOP_SHAPE, REPLACE | INSERT, {{&given.side_words, 9}}},
    {"a keep byte too few", HOP_SHAPE, RETAIN, {{&given.keep_bytes, 5}}},
    {"a keep byte too many", HOP_SHAPE, RETAIN, {{&given.keep_bytes, 7}}},
    {"no presence byte", HOP_SHAPE, REBUILD, {{&given.presence_bytes, 0}}},
    {"a presence byte more than slots", HOP_SHAPE, REBUILD, {{&given.presence_bytes, SLOTS + 1}}},

    {"slot 0 odd", HOP_DAMAGED, READING, {{VERSION(0), 1}}},
    {"next of slot 0 not in use", HOP_DAMAGED, INSERT | WHOLE, {{NEXT(0), 6}}},
    {"next of slot 0 live", HOP_DAMAGED, INSERT | WHOLE, {{NEXT(0), 4}}},
    {"other end of the first run live", HOP_DAMAGED, INSERT | REMOVE | WHOLE, {{OTHER_END(2), 4}}},
    {"other end of slot 0 not in use", HOP_DAMAGED, REMOVE | STEP | DRAIN_STEP | WHOLE, {{OTHER_END(0), 6}}},
    {"other end of slot 0 live", HOP_DAMAGED, REMOVE | STEP | WHOLE, {{OTHER_END(0), 4}}},
    {"prev of slot 0 live", HOP_DAMAGED, REMOVE | WHOLE, {{PREV(0), 4}, KEY_GIVEN(5, 1)}},
    {"live one too low", HOP_DAMAGED, WHOLE, {HEADER(6, 2)}},
    {"live one too high", HOP_DAMAGED, WHOLE, {HEADER(6, 4)}},
    {"live 0, and a live key", HOP_DAMAGED, REMOVE | WHOLE, {HEADER(6, 0)}},
    {"live used less 1, and a vacant slot", HOP_DAMAGED, INSERT | WHOLE, {HEADER(6, 5)}},

    {"an even version, the next one", HOP_EVEN_VERSION, KEYED, {KEY_GIVEN(1, 2)}},
    {"an even version, that of the slot", HOP_EVEN_VERSION, KEYED, {KEY_GIVEN(2, 2)}},
    {"index 0", HOP_NOT_LIVE, KEYED, {KEY_GIVEN(0, 1)}},
    {"index not in use, its version the slot's", HOP_NOT_LIVE, KEYED, {KEY_GIVEN(6, 1)}},
    {"index not lent", HOP_NOT_LIVE, KEYED, {KEY_GIVEN(SLOTS, 1)}},
    {"the greatest index", HOP_NOT_LIVE, KEYED, {KEY_GIVEN(UINT32_MAX, 1)}},
    {"another version", HOP_NOT_LIVE, KEYED, {KEY_GIVEN(1, 3)}},
    {"a key from before the removal", HOP_NOT_LIVE, KEYED, {KEY_GIVEN(2, 1)}},

    {"one slot lent", HOP_FULL, INSERT, {SLOTS_LENT(1), HEADER(1, 0), {NEXT(0), 0}, {PREV(0), 0}}},
    {"two slots lent, one live", HOP_FULL, INSERT, {SLOTS_LENT(2), HEADER(2, 1), {NEXT(0), 0}, {PREV(0), 0}}},
    {"a cursor inside a run", HOP_STALE_CURSOR, STEP, {{&given.cursor, 3}}},
    {"a presence byte 2 at a live slot", HOP_WRONG_PRESENCE, REBUILD, {{&given.map, TWO_AT_LIVE}}},
    {"a presence byte 2 at a vacant slot", HOP_WRONG_PRESENCE, REBUILD, {{&given.map, TWO_AT_VACANT}}},
    {"a presence byte 0 at a live slot", HOP_WRONG_PRESENCE, REBUILD, {{&given.map, LIVE_MISSED}}},
    {"a presence byte 1 at a vacant slot", HOP_WRONG_PRESENCE, REBUILD, {{&given.map, VACANT_CLAIMED}}},
    {"a presence byte 1 at slot 0, even", HOP_WRONG_PRESENCE, REBUILD, {{&given.map, ZERO_CLAIMED}}},
    {"a presence byte 0 at slot 0, odd", HOP_WRONG_PRESENCE, REBUILD, {{VERSION(0), 1}}},
    {"a presence byte 1 at slot 0, odd", HOP_ZERO_OCCUPIED, REBUILD, {{VERSION(0), 1}, {&given.map, ZERO_CLAIMED}}},

    /* Of two faults the first in this order is told: shape, slot 0 odd, even version, not live, stale cursor, wrong presence, zero occupied, a link
     * or live, full. */
    {"shape before slot 0 odd", HOP_SHAPE, READING, {{&given.link_words, LINKS - 1}, {VERSION(0), 1}}},
    {"the side buffer before slot 0 odd", HOP_SHAPE, REPLACE | INSERT, {{&given.side_words, 7}, {VERSION(0), 1}}},
    {"the side buffer before an even version", HOP_SHAPE, REPLACE, {{&given.side_words, 7}, KEY_GIVEN(1, 2)}},
    {"the side buffer before full", HOP_SHAPE, INSERT, {{&given.side_words, 7}, SLOTS_LENT(1), HEADER(1, 0), {NEXT(0), 0}}},
    {"the keep bytes before slot 0 odd", HOP_SHAPE, RETAIN, {{&given.keep_bytes, 5}, {VERSION(0), 1}}},
    {"the presence bytes before what they say", HOP_SHAPE, REBUILD, {{&given.presence_bytes, SLOTS + 1}, {&given.map, TWO_AT_LIVE}}},
    {"slot 0 odd before an even version", HOP_DAMAGED, KEYED, {{VERSION(0), 1}, KEY_GIVEN(1, 2)}},
    {"slot 0 odd before not live", HOP_DAMAGED, KEYED, {{VERSION(0), 1}, KEY_GIVEN(1, 3)}},
    {"slot 0 odd before a stale cursor", HOP_DAMAGED, STEP, {{VERSION(0), 1}, {&given.cursor, 3}}},
    {"slot 0 odd before full", HOP_DAMAGED, INSERT, {{VERSION(0), 1}, SLOTS_LENT(1), HEADER(1, 0), {NEXT(0), 0}}},
    {"slot 0 odd before none live", HOP_DAMAGED, DRAIN_STEP, {{VERSION(0), 1}, HEADER(6, 0)}},
    {"an even version before not live", HOP_EVEN_VERSION, KEYED, {KEY_GIVEN(SLOTS, 2)}},
    {"an even version before a link", HOP_EVEN_VERSION, REMOVE, {KEY_GIVEN(1, 2), {OTHER_END(0), 6}}},
    {"not live before a link", HOP_NOT_LIVE, REMOVE, {KEY_GIVEN(1, 3), {OTHER_END(0), 6}}},
    {"not live before live 0", HOP_NOT_LIVE, REMOVE, {KEY_GIVEN(1, 3), HEADER(6, 0)}},
    {"a stale cursor before a link", HOP_STALE_CURSOR, STEP, {{&given.cursor, 3}, {OTHER_END(3), 6}}},
    {"wrong presence before zero occupied", HOP_WRONG_PRESENCE, REBUILD, {{VERSION(0), 1}, {&given.map, ZERO_CLAIMED_LIVE_MISSED}}},
    {"a link before full", HOP_DAMAGED, INSERT, {SLOTS_LENT(2), HEADER(2, 1), {NEXT(0), 1}, {OTHER_END(1), 0}}},
};

#endif
