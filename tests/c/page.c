/*
 * The page of a subgroup: worlds with their words written out, for the planner and for the
 * subgroup's watcher; and worlds that agree on what a page may depend on and differ in all else, of
 * which answer and all 2048 bytes must be the same. All memory lies between pages without access.
 */
#include "room.h"

#include <string.h>

#define COUNT(array) (sizeof(array) / sizeof((array)[0]))
#define PAGE (16777216u + 72)
#define PLAN 33554432u
#define WAIT(reason, value) (50331648u + 256 * (reason) + (value))

enum { SHOWN = 3 };

static struct room here, there;

/* ---- Pages ---- */

/* Words 0 to 5, then holders, targets and masks of shards 0 to 2; all else is zero. */
struct shown {
    uint32_t head[6], holders[SHOWN], targets[2 * SHOWN], masks[SHOWN];
};

/* Reads a page in a role; gives the answer. */
static uint32_t read_as(uint32_t role, struct room *room, uint32_t subgroup, uint8_t *buffer,
                        unsigned last)
{
    struct piece pieces[MOST_PIECES];
    lend_room(pieces, room);
    memset(buffer, 0xEE, RESTART_BUFFER_BYTES);
    pieces[3] = (struct piece){buffer, RESTART_BUFFER_BYTES};
    caller = role;
    uint32_t answer = call_between(&page, pieces, subgroup, last);
    caller = RESTART_PLANNER;
    return answer;
}

/* Planner and watcher read these words. */
static void check_page(const char *what, struct room *room, uint32_t subgroup,
                       const struct shown *shown)
{
    uint8_t buffer[RESTART_BUFFER_BYTES], expected[RESTART_BUFFER_BYTES];
    memset(expected, 0, sizeof expected);
    put_words(expected, shown->head, 6);
    put_words(expected + 4 * RESTART_PAGE_HOLDERS, shown->holders, SHOWN);
    put_words(expected + 4 * RESTART_PAGE_TARGETS, shown->targets, 2 * SHOWN);
    put_words(expected + 4 * RESTART_PAGE_MASKS, shown->masks, SHOWN);
    check_word(what, read_as(RESTART_PLANNER, room, subgroup, buffer, 0), PAGE);
    check_bytes(what, buffer, expected, sizeof expected);
    check_word(what, read_as(restart_watcher(subgroup), room, subgroup, buffer, ~0u), PAGE);
    check_bytes(what, buffer, expected, sizeof expected);
}

/* ---- Case A and its neighbours ---- */

static const uint32_t settings_a[14] = {7, 3, 4, 3, 0, 0, 1, 1, 1, 2, 2, 2, 3, 1};
static const uint32_t masks_a[3] = {5, 82, 32};

/* Case A's settings with other words of its shards, and the reports of these nodes. */
static void reported(struct room *room, const uint32_t *shards, uint32_t nodes)
{
    uint32_t words[14];
    memcpy(words, settings_a, sizeof words);
    if (shards != NULL)
        memcpy(words + 11, shards, 3 * sizeof words[0]);
    begin(room, words, 14);
    for (uint32_t node = 0; node < 7; node++) {
        struct told told = {node, 7, 127, masks_a, NULL, {{1, 7, 5}}};
        if (node != 1 && node != 4)
            told.runs[0].count = 0;
        if (node == 4)
            told.runs[0].count = 4;
        if (nodes >> node & 1)
            take(room, &told);
    }
}

static void phases(void)
{
    struct shown shown = {{0, 7, 7, 7, 1, 2}, {0, 1, 5}, {0, 0, 7, 5, 0, 0}, {5, 50, 8}};
    const struct shown empty = {{0, 7, 0, 0, 1, 0}, {0}, {0}, {0}};
    reported(&here, NULL, 63);
    check_page("case A", &here, 0, &shown);
    check_page("a subgroup without shards", &here, 1, &empty);
    call_in(&here, &decide, 0, PLAN);
    shown.head[0] = RESTART_ORDERED;
    check_page("case A ordered", &here, 0, &shown);
    for (uint32_t node = 0; node < 6; node++)
        call_in(&here, &fetched, node, RESTART_ACCEPTED);
    shown.head[0] = RESTART_PREPARING;
    check_page("case A preparing", &here, 0, &shown);
    for (uint32_t node = 0; node < 6; node++)
        call_in(&here, &prepared, node, RESTART_ACCEPTED);
    shown.head[0] = RESTART_COMMITTED;
    check_page("case A committed", &here, 0, &shown);
}

static void waits(void)
{
    static const uint32_t needs_3[3] = {3, 3, 1}, cap_4[3] = {2, 4 * 65536 + 2, 1};
    static const struct shown absent = {{0, 7, 7, 3, 0, 0}, {0, 1}, {0, 0, 7, 5}, {0}};
    static const struct shown unplaced = {{0, 7, 7, 7, 0, 0}, {0, 1, 5}, {0, 0, 7, 5}, {0}};
    static const struct shown capped = {{0, 7, 7, 7, 1, 0}, {0, 1, 5}, {0, 0, 7, 5}, {5, 18, 32}};
    static const struct shown nothing = {{0, 0, 7, 0, 0, 0}, {0}, {0}, {0}};
    static const struct shown no_shards = {{0, 0, 0, 0, 1, 0}, {0}, {0}, {0}};
    reported(&here, NULL, 31);
    check_page("node 5 absent", &here, 0, &absent);
    call_in(&here, &decide, 0, WAIT(4, 2));
    reported(&here, NULL, 19);
    check_page("no majority", &here, 0, &absent);
    call_in(&here, &decide, 0, WAIT(2, 0));
    reported(&here, needs_3, 63);
    check_page("shard 0 needs three", &here, 0, &unplaced);
    call_in(&here, &decide, 0, WAIT(5, 0));
    reported(&here, cap_4, 63);
    check_page("shard 1 needs two and keeps up to four", &here, 0, &capped);
    call_in(&here, &decide, 0, PLAN);
    reported(&here, NULL, 0);
    check_page("the fresh state", &here, 0, &nothing);
    check_page("no shards in the fresh state", &here, 2, &no_shards);
}

/* Shards of subgroups 3, 0 and 3; logs are empty. Where decide waits for a shard of one subgroup the
 * other has its placement all the same. */
static void subgroups(void)
{
    static const struct shown three = {{0, 7, 5, 1, 1, 1}, {0}, {0}, {5, 0, 8}};
    static const struct shown zero = {{0, 7, 2, 2, 0, 0}, {0, 4}, {0}, {0}};
    uint32_t words[14];
    memcpy(words, settings_a, sizeof words);
    words[11] = 770;
    words[12] = 3;
    words[13] = 769;
    for (uint32_t least = 4; least <= 7; least += 3) {
        words[2] = least;
        begin(&here, words, 14);
        for (uint32_t node = 0; node < 5; node++) {
            const struct told told = {node, 7, 127, masks_a, NULL, {{0, 0, 0}}};
            if (node != 1)
                take(&here, &told);
        }
        check_page("subgroup 3", &here, 3, &three);
        check_page("subgroup 0", &here, 0, &zero);
        call_in(&here, &decide, 0, least == 4 ? WAIT(4, 2) : WAIT(3, 0));
    }
}

static void logs(void)
{
    static const uint32_t positions[6] = {7, 4, 0, 0, 0, 0};
    static const struct told ended = {0, 7, 127, masks_a, positions, {{0, 0, 0}}};
    static const struct told empty = {2, 7, 127, masks_a, NULL, {{0, 0, 0}}};
    static const struct told stale = {1, 6, 127, masks_a, NULL, {{1, 6, 9}}};
    static const struct told shorter = {4, 7, 127, masks_a, NULL, {{1, 6, 8}}};
    static const struct shown nobody = {{0, 7, 7, 0, 0, 0}, {0}, {0}, {0}};
    static const struct shown kept = {{0, 7, 7, 2, 0, 0}, {0, 4}, {0, 0, 6, 8}, {0}};
    begin(&here, settings_a, 14);
    take(&here, &ended);
    take(&here, &empty);
    check_page("a termination that nobody has", &here, 0, &nobody);
    begin(&here, settings_a, 14);
    take(&here, &stale);
    take(&here, &shorter);
    check_page("a longer log of an older view", &here, 0, &kept);
}

/* A watcher's numbers in their order, on a page that is not its own and on its own. */
static void refusals(void)
{
    struct piece pieces[MOST_PIECES];
    uint8_t buffer[RESTART_BUFFER_BYTES];
    reported(&here, NULL, 63);
    lend_room(pieces, &here);
    memset(buffer, 0xEE, sizeof buffer);
    pieces[3] = (struct piece){buffer, sizeof buffer};
    restart_put_word(here.state, RESTART_HELD, 63 | 512);
    restart_put_word(here.settings, 1, 17);
    caller = restart_watcher(0);
    pieces[2].length -= 4;
    check_call(&page, pieces, 1, 1);
    pieces[2].length += 4;
    check_call(&page, pieces, 1, 2);
    restart_put_word(here.settings, 1, 3);
    check_call(&page, pieces, 1, 15);
    check_call(&page, pieces, 0, 3);
    caller = RESTART_PLANNER;
}

/* ---- Worlds that agree ---- */

/* This subgroup's watcher reads the same in both rooms, byte for byte; or not, where the two need
 * not agree. */
static void check_alike(const char *what, uint32_t subgroup, int alike)
{
    uint8_t one[RESTART_BUFFER_BYTES], other[RESTART_BUFFER_BYTES];
    uint32_t role = restart_watcher(subgroup);
    uint32_t answer = read_as(role, &here, subgroup, one, 0);
    check_word(what, answer, PAGE);
    check_word(what, read_as(role, &there, subgroup, other, ~0u), answer);
    if (alike)
        check_bytes(what, other, one, sizeof one);
    else
        check_word(what, memcmp(one, other, sizeof one) != 0, 1);
}

/* Two machines of three are back. One world has two shards and plans, the other has three and waits
 * for its least size; to the watcher of subgroup 0 they are the same. */
static void pair(void)
{
    static const uint32_t first[9] = {3, 2, 1, 2, 0, 1, 1, 1, 257};
    static const uint32_t second[10] = {3, 3, 3, 3, 0, 1, 1, 1, 514, 257};
    static const uint32_t first_masks[2] = {1, 2}, second_masks[3] = {1, 6, 2};
    static const struct told first_told[2] = {{0, 7, 7, first_masks, NULL, {{0, 7, 2}}},
                                              {1, 7, 7, first_masks, NULL, {{1, 7, 9}}}};
    static const struct told second_told[2] = {
        {0, 7, 7, second_masks, NULL, {{0, 7, 2}, {1, 5, 1}, {1, 7, 1}}},
        {1, 7, 7, second_masks, NULL, {{2, 6, 3}}}};
    static const struct shown shown = {{0, 7, 1, 1, 1, 0}, {0}, {7, 2}, {1}};
    begin(&here, first, 9);
    begin(&there, second, 10);
    for (size_t i = 0; i < 2; i++) {
        take(&here, &first_told[i]);
        take(&there, &second_told[i]);
    }
    check_page("the first of the pair", &here, 0, &shown);
    check_page("the second of the pair", &there, 0, &shown);
    check_alike("the pair", 0, 1);
    check_alike("the pair's other page", 1, 0);
    call_in(&there, &decide, 0, WAIT(3, 0));
    call_in(&here, &decide, 0, PLAN);
}

/* Six machines in three sets; shards 0 and 2 in subgroup 1, shard 1 in subgroup 2, shard 3 in
 * subgroup 0. Machines 0 to 4 report view 9, machine 4 also a termination. A run of count 0 is
 * none. */
struct parts {
    uint32_t words[14], masks[4], positions[8];
    struct run runs[5][6];
};

static const struct parts parts_b = {
    {6, 3, 2, 4, 0, 0, 1, 1, 2, 2, 258, 514, 257, 131073},
    {5, 12, 16, 33},
    {9, 2, 9, 3, 0, 0, 8, 1},
    {{{0, 9, 2}, {3, 8, 4}},
     {{1, 7, 7}, {3, 9, 0}},
     {{0, 9, 5}, {1, 9, 3}},
     {{1, 9, 4}, {2, 9, 0}},
     {{2, 8, 6}}},
};

static void world_b(struct room *room, const struct parts *parts)
{
    begin(room, parts->words, 14);
    for (uint32_t node = 0; node < 5; node++) {
        struct told told = {node, 9, 63, parts->masks, NULL, {{0, 0, 0}}};
        if (node == 4)
            told.positions = parts->positions;
        memcpy(told.runs, parts->runs[node], sizeof told.runs);
        take(room, &told);
    }
}

/* A word of the settings, a mask, a word of the positions or a run's count (node * 6 + place) that
 * is another in the second room. */
enum part { WORD, MASK, POSITION, RUN };

struct change {
    const char *what;
    enum part part;
    uint32_t place, value;
    uint32_t differs; /* bit g: the page of subgroup g is another */
};

static struct parts changed(const struct change *change)
{
    struct parts parts = parts_b;
    switch (change->part) {
    case WORD:
        parts.words[change->place] = change->value;
        break;
    case MASK:
        parts.masks[change->place] = change->value;
        break;
    case POSITION:
        parts.positions[change->place] = change->value;
        break;
    case RUN:
        parts.runs[change->place / 6][change->place % 6].count = change->value;
        break;
    }
    return parts;
}

static void check_all(const struct change *change)
{
    for (uint32_t subgroup = 0; subgroup < RESTART_SUBGROUPS; subgroup++)
        check_alike(change->what, subgroup, !(change->differs >> subgroup & 1));
}

/* Each change is of one subgroup, or of none: the other watchers read what they read before, while
 * gathering, while ordered, and where a node is marked in the second room alone. */
static void changes(void)
{
    static const struct change table[] = {
        {"another least size", WORD, 2, 5, 0},
        {"more sets", WORD, 1, 16, 0},
        {"another need of shard 1", WORD, 11, 513, 4},
        {"a cap of shard 1", WORD, 11, 4 * 65536 + 514, 4},
        {"another cap of shard 3", WORD, 13, 3 * 65536 + 1, 0},
        {"another subgroup of shard 3", WORD, 13, 131073 + 3 * 256, 9},
        {"other members of shard 3", MASK, 3, 3, 1},
        {"other members of shard 1", MASK, 1, 28, 4},
        {"another position of shard 3", POSITION, 7, 4, 1},
        {"another position of shard 1", POSITION, 3, 4, 4},
        {"another log of shard 1", RUN, 2 * 6 + 1, 8, 4},
        {"another log of shard 0", RUN, 2 * 6, 1, 2},
        {"a log of a shard that the node does not carry", RUN, 6 + 1, 9, 0},
        {"another one", RUN, 3 * 6 + 1, 1, 0},
    };
    for (size_t i = 0; i < COUNT(table); i++) {
        struct parts parts = changed(&table[i]);
        world_b(&here, &parts_b);
        world_b(&there, &parts);
        check_all(&table[i]);
        call_in(&here, &decide, 0, PLAN);
        call_in(&there, &decide, 0, PLAN);
        check_all(&table[i]);
        call_in(&there, &fetched, 2, RESTART_ACCEPTED);
        check_all(&table[i]);
    }
}

/* What the state remembers, slots of nodes that are not held, words off the chain, and the marks. */
static void unseen(void)
{
    static const struct told off = {3, 9, 63, parts_b.masks, NULL, {{1, 9, 4}, {1, 8, 8}}};
    world_b(&here, &parts_b);
    world_b(&there, &parts_b);
    memset(there.desk + 5 * RESTART_SLOT_BYTES, 0x11, 27 * RESTART_SLOT_BYTES);
    restart_put_word(there.state, RESTART_LATEST_VIEWS + 5, 4294967295);
    /* node 3 once more, with a record that its chain leaves out */
    uint8_t message[RESTART_MESSAGE_BYTES];
    size_t length = put_told(message, &off, 4);
    restart_put_word(message, 23, 0);
    struct piece pieces[MOST_PIECES];
    lend_room(pieces, &there);
    pieces[3] = (struct piece){message, length};
    check_call(&report, pieces, 0, RESTART_ACCEPTED);
    for (uint32_t subgroup = 0; subgroup < 4; subgroup++)
        check_alike("what no page shows", subgroup, 1);
    call_in(&here, &decide, 0, PLAN);
    call_in(&there, &decide, 0, PLAN);
    for (uint32_t node = 1; node < 5; node++) {
        call_in(&there, &fetched, node, RESTART_ACCEPTED);
        for (uint32_t subgroup = 0; subgroup < 4; subgroup++)
            check_alike("marks", subgroup, 1);
    }
    call_in(&there, &fetched, 0, RESTART_ACCEPTED);
    check_alike("another phase", 1, 0);
}

int main(void)
{
    phases();
    waits();
    subgroups();
    logs();
    refusals();
    pair();
    changes();
    unseen();
    return summary();
}
