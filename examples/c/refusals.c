/* The refusals that a caller can bring about: each call is given one thing that is wrong, or two, and must answer with the number that its comment
 * in hop.h names, change no word of the tables, and hand the header back as given, with key, cursor, count and row zero. The faults are in
 * refusals_faults.h, the calls in refusals_calls.h. */
#include "refusals_faults.h"

#include <inttypes.h>
#include <string.h>

/* The fair table: five rows in, slots 2 and 3 out again. All words that no call has written are 1, so slots that are not in use look live. */
static void make_fair(void)
{
    static const uint32_t gone[] = {2, 3};
    size_t word, i;

    for (word = 0; word < MOST * HOP_LINK_WORDS; word++) {
        given.links[word] = 1;
    }
    for (word = 0; word < MOST * HOP_ROW_WORDS; word++) {
        given.rows[word] = 1;
    }
    given.link_words = LINKS;
    given.row_words = ROWS;
    given.side_words = HOP_ROW_WORDS;
    given.keep_bytes = given.presence_bytes = 6;
    given.map = FITTING;
    given.header = call_start().header;
    for (i = 0; i < 5; i++) {
        given.header = call_insert().header;
    }
    given.key.version = 1;
    for (i = 0; i < sizeof gone / sizeof gone[0]; i++) {
        given.key.index = gone[i];
        given.header = call_remove().header;
    }
    given.key.index = 1;
    if (given.header.used != 6 || given.header.live != 3) {
        wrong("fair table", "another header");
    }
    memcpy(&fair, &given, sizeof fair);
}

static void spoil(const struct fault *fault)
{
    size_t i;

    memcpy(&given, &fair, sizeof given);
    for (i = 0; i < CHANGES && fault->changes[i].word != NULL; i++) {
        *fault->changes[i].word = fault->changes[i].value;
    }
    memcpy(&before, &given, sizeof before);
}

static int row_is_zero(const uint32_t *row)
{
    size_t word;

    for (word = 0; word < HOP_ROW_WORDS; word++) {
        if (row[word] != 0) {
            return 0;
        }
    }
    return 1;
}

/* Leaves the program unless the answer is this refusal, and a refusal as it should be. */
static void refused(const char *call, uint32_t number, const struct hop_answer *answer)
{
    if (answer->kind != HOP_REFUSED) {
        wrong(call, "not refused");
    }
    if (answer->number != number) {
        wrong(call, name_of(answer->number));
    }
    if (answer->key.index != 0 || answer->key.version != 0) {
        wrong(call, "a key that is not zero");
    }
    if (answer->cursor != 0 || answer->count != 0 || !row_is_zero(answer->row)) {
        wrong(call, "a cursor, count or row that is not zero");
    }
    if (answer->header.used != before.header.used || answer->header.live != before.header.live) {
        wrong(call, "another header");
    }
    if (memcmp(&given, &before, sizeof given) != 0) {
        wrong(call, "a word changed");
    }
    printf("%s: %s\n", call, name_of(number));
}

static void taken(const char *call, const struct hop_answer *answer)
{
    if (answer->kind == HOP_REFUSED || answer->number != 0) {
        wrong(call, name_of(answer->number));
    }
    printf("%s: %s\n", call, answer->kind == HOP_DONE ? "done" : "answered");
}

static void try_call(const struct fault *fault, const struct call *call)
{
    struct hop_answer answer;

    spoil(fault);
    answer = call->made();
    if (answer.layout != HOP_LAYOUT) {
        wrong(call->name, "another layout");
    }
    if (fault->number == 0) {
        taken(call->name, &answer);
    } else {
        refused(call->name, fault->number, &answer);
    }
}

int main(void)
{
    size_t i, j;

    if (hop_layout() != HOP_LAYOUT) {
        printf("the archive has layout %" PRIu32 ", and not %u: compile anew with its header file\n", hop_layout(), HOP_LAYOUT);
        return 1;
    }
    make_fair();
    for (i = 0; i < sizeof faults / sizeof faults[0]; i++) {
        printf("-- %s\n", faults[i].what);
        for (j = 0; j < sizeof calls / sizeof calls[0]; j++) {
            if ((faults[i].calls & calls[j].bit) != 0) {
                try_call(&faults[i], &calls[j]);
            }
        }
    }
    return 0;
}
