/* A short season, with every call of the map: buoys are heard, moved and lost, a slot is used again, and an old key stays dead. It tells what
 * happens as it goes; a key is written (slot, version). */
#include "hop.h"

#include <inttypes.h>
#include <stdio.h>
#include <stdlib.h>

#define SLOTS 8u
#define LINKS (SLOTS * HOP_LINK_WORDS)
#define ROWS (SLOTS * HOP_ROW_WORDS)
#define LENT links, LINKS, rows, ROWS, header.used, header.live

/* The words of a row that this boat uses: the number painted on the buoy, and where it was heard, in thousandths of a degree. */
#define BUOY 0
#define NORTH 1
#define EAST 2

static uint32_t links[LINKS];
static uint32_t rows[ROWS];
static struct hop_header header;

static const char *name_of(uint32_t number)
{
    static const char *const names[] = {"no number", "shape", "damaged", "even version", "not live",
                                        "full", "stale cursor", "wrong presence", "zero occupied"};
    return number < sizeof names / sizeof names[0] ? names[number] : "unknown";
}

/* Every answer goes through here: the layout is this file's, and the header is kept for the next call. */
static struct hop_answer kept(const char *call, struct hop_answer answer)
{
    if (answer.layout != HOP_LAYOUT) {
        printf("%s: layout %" PRIu32 ", and not %u\n", call, answer.layout, HOP_LAYOUT);
        exit(1);
    }
    header = answer.header;
    return answer;
}

/* An answer that may not be a refusal. */
static struct hop_answer taken(const char *call, struct hop_answer answer)
{
    answer = kept(call, answer);
    if (answer.kind == HOP_REFUSED) {
        printf("%s: refused, %s\n", call, name_of(answer.number));
        exit(1);
    }
    return answer;
}

static struct hop_answer look(struct hop_key key)
{
    return hop_look(LENT, key.index, key.version);
}

static uint32_t *row_of(struct hop_key key)
{
    return hop_row(LENT, key.index, key.version);
}

static struct hop_answer step_from(uint32_t cursor)
{
    return taken("step", hop_step(LENT, cursor));
}

static void tell(const char *what)
{
    printf("\n%s\n", what);
}

static void show(const char *what, struct hop_key key, const uint32_t *row)
{
    printf("  %s (%" PRIu32 ", %" PRIu32 "): buoy %" PRIu32 " at %" PRIu32 ", %" PRIu32 "\n", what, key.index, key.version,
           row[BUOY], row[NORTH], row[EAST]);
}

static void room(void)
{
    struct hop_answer answer = taken("room", hop_room(LENT));

    printf("  room: %" PRIu32 " of %u\n", answer.count, SLOTS);
}

static void walk(void)
{
    struct hop_answer step = step_from(0);

    while (step.kind == HOP_ANSWER) {
        struct hop_answer found = taken("look", look(step.key));
        show("live", found.key, found.row);
        step = step_from(step.cursor);
    }
    printf("  %" PRIu32 " live, %" PRIu32 " slots in use\n", header.live, header.used);
}

static struct hop_key heard(uint32_t buoy, uint32_t north, uint32_t east)
{
    uint32_t side[HOP_ROW_WORDS] = {0};
    struct hop_answer answer;

    side[BUOY] = buoy;
    side[NORTH] = north;
    side[EAST] = east;
    answer = taken("insert", hop_insert(LENT, side, HOP_ROW_WORDS));
    printf("  buoy %" PRIu32 " heard: key (%" PRIu32 ", %" PRIu32 ")\n", buoy, answer.key.index, answer.key.version);
    return answer.key;
}

/* A whole row, written at once. */
static void renumbered(struct hop_key key, uint32_t buoy)
{
    struct hop_answer found = taken("look", look(key));

    found.row[BUOY] = buoy;
    taken("replace", hop_replace(LENT, key.index, key.version, found.row, HOP_ROW_WORDS));
}

/* One word of a row, written where it lies. */
static void drifted(struct hop_key key, uint32_t north)
{
    uint32_t *row = row_of(key);

    if (row == NULL) {
        printf("no row for a live key\n");
        exit(1);
    }
    row[NORTH] = north;
}

/* Keeps the buoys south of a parallel. Bytes at slots that are not live count for nothing. */
static void keep_south_of(uint32_t north)
{
    uint8_t keep[SLOTS] = {0};
    struct hop_answer answer = step_from(0);

    printf("\nA storm takes what lies north of %" PRIu32 ":\n", north);
    while (answer.kind == HOP_ANSWER) {
        keep[answer.key.index] = taken("look", look(answer.key)).row[NORTH] < north;
        answer = step_from(answer.cursor);
    }
    answer = taken("retain", hop_retain(LENT, keep, header.used));
    printf("  %" PRIu32 " lost\n", answer.count);
}

/* The header and the chain of vacant slots are lost; versions and rows are still there, and whoever knows which slots were live makes a map of
 * them. */
static void power_cut(void)
{
    uint8_t presence[SLOTS] = {0};
    size_t slots = header.used, slot;
    struct hop_answer answer = step_from(0);

    tell("The power fails. Header and chain are gone, versions and rows are not:");
    while (answer.kind == HOP_ANSWER) {
        presence[answer.key.index] = 1;
        answer = step_from(answer.cursor);
    }
    header.used = header.live = 0;
    for (slot = 0; slot < slots; slot++) {
        links[slot * HOP_LINK_WORDS + 1] = links[slot * HOP_LINK_WORDS + 2] = links[slot * HOP_LINK_WORDS + 3] = 99;
    }
    taken("rebuild", hop_rebuild(LENT, presence, slots));
    taken("sound", hop_sound(LENT));
    printf("  rebuilt, and sound\n");
}

static void begun(void)
{
    printf("\nA receiver lends tables for %u slots. Slot 0 takes no buoy, so %u fit:\n", SLOTS, SLOTS - 1);
    taken("start", hop_start(LENT));
    room();
}

/* The mark of a buoy that is lost still has its key. */
static void lost(struct hop_key key)
{
    struct hop_answer answer;

    tell("A buoy is lost. A mark that still has its key is told so:");
    answer = taken("remove", hop_remove(LENT, key.index, key.version));
    show("lost", answer.key, answer.row);
    answer = kept("look", look(key));
    printf("  look at its key: refused with %" PRIu32 ", %s\n", answer.number, name_of(answer.number));
    printf("  its row: %s\n", row_of(key) == NULL ? "none to write to" : "still there");
}

static void heard_after(struct hop_key old)
{
    struct hop_key key;

    tell("Another buoy is heard. It gets the freed slot, and the old key does not fit it:");
    key = heard(58, 54020, 7750);
    printf("  slot %" PRIu32 ": version %" PRIu32 " after %" PRIu32 "\n", key.index, key.version, old.version);
}

static void hauled_in(void)
{
    struct hop_answer answer;

    tell("The season ends. One buoy is hauled in, then all the others:");
    answer = taken("drain step", hop_drain_step(LENT));
    show("hauled in", answer.key, answer.row);
    answer = taken("clear", hop_clear(LENT));
    printf("  clear: %s\n", answer.kind == HOP_DONE ? "done" : "not done");
}

int main(void)
{
    struct hop_key first, second, third;

    if (hop_layout() != HOP_LAYOUT) {
        printf("the archive has layout %" PRIu32 ", and not %u: compile anew with its header file\n", hop_layout(), HOP_LAYOUT);
        return 1;
    }
    begun();
    tell("Three buoys are heard, and each mark on the plot gets a key:");
    first = heard(17, 54100, 7900);
    second = heard(23, 54250, 8010);
    third = heard(42, 54300, 8105);
    lost(second);
    heard_after(second);
    tell("One buoy is renumbered, one has drifted. A walk over the map:");
    renumbered(first, 71);
    drifted(third, 54320);
    walk();
    keep_south_of(54110);
    power_cut();
    walk();
    room();
    hauled_in();
    walk();
    room();
    return 0;
}
