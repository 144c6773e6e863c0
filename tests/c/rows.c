/*
 * The numbers in their places. Each call starts with everything wrong at once and is mended row by
 * row, so that its number climbs through the rows that concern it, in their order, with the index
 * of a record where it has one; then it is accepted. All memory lies between pages without access.
 */
#include "world.h"

#include <string.h>

#define COUNT(array) (sizeof(array) / sizeof((array)[0]))

static struct world world;
static struct piece pieces[MOST_PIECES];
static uint8_t buffer[RESTART_BUFFER_BYTES];

/* A word that is wrong, its right value, and the refusal while it is wrong. */
struct fault {
    size_t word;
    uint32_t wrong, right;
    uint32_t refusal;
};

/* Puts the faults into the words of a piece. */
static void spoil(struct piece piece, const struct fault *faults, size_t count)
{
    for (size_t i = count; i-- > 0;)
        restart_put_word(piece.bytes, faults[i].word, faults[i].wrong);
}

/* Climbs through the faults of the words in a piece. Of two faults of one word the first is mended
 * to the second. */
static void mend(const struct entry *entry, struct piece piece, const struct fault *faults,
                 size_t count)
{
    for (size_t i = 0; i < count; i++) {
        check_call(entry, pieces, 0, faults[i].refusal);
        restart_put_word(piece.bytes, faults[i].word, faults[i].right);
    }
}

static void climb(const struct entry *entry, struct piece piece, const struct fault *faults,
                  size_t count)
{
    spoil(piece, faults, count);
    mend(entry, piece, faults, count);
}

/* ---- Reading and writing: rows 1, 2, 5 and then those of the words ---- */

static void message_call(const struct entry *entry, const uint32_t *words, size_t count,
                         size_t wrong_count, const struct fault *faults, size_t fault_count,
                         uint32_t accepted)
{
    uint8_t input[RESTART_MESSAGE_BYTES];
    world_fresh(&world);
    pieces[0] = (struct piece){world.settings, sizeof world.settings};
    pieces[1] = (struct piece){input, 4 * wrong_count};
    pieces[2] = (struct piece){buffer, sizeof buffer - 4};
    memset(buffer, 0xEE, sizeof buffer);
    put_words(input, words, count);
    restart_put_word(world.settings, 0, 0);
    restart_put_word(input, 0, 7);
    check_call(entry, pieces, 0, 1);
    pieces[2].length = sizeof buffer;
    check_call(entry, pieces, 0, 2);
    restart_put_word(world.settings, 0, 7);
    check_call(entry, pieces, 0, 5);
    pieces[1].length = 4 * count;
    climb(entry, pieces[1], faults, fault_count);
    check_call(entry, pieces, 0, accepted);
}

static void messages(void)
{
    static const uint32_t report_words[] = {4, 7, 127, 1,  256, 5, 0,   2, 257, 82,
                                            0, 3, 258, 32, 0,   4, 769, 7, 4,   0};
    /* Record 4 is of kind 9, then for shard 3 of 3, then the termination of one shard alone; record
     * 3 is for the shard of record 2. */
    static const struct fault report_faults[] = {
        {0, 7, 4, 6},
        {1, 0, 7, 7},
        {3, 200, 1, AT(8, 0)},
        {11, 2, 3, AT(8, 2)},
        {16, 9 * 256, 771, AT(9, 4)},
        {16, 771, 512, AT(16, 4)},
        {12, 257, 258, AT(17, 3)},
        {16, 512, 769, AT(17, 4)},
        {5, 0, 5, 10},
        {18, 0, 4, 11},
    };
    static const uint32_t order_words[] = {
        4, 8, 63,  1, 256, 5, 0,   2, 257, 50, 0,    3, 258, 8, 0,    4, 512, 0,
        0, 5, 513, 7, 5,   6, 514, 0, 0,   7,  1025, 1, 0,   8, 1281, 7, 4,   0,
    };
    /* Word 2 of record 3; record 7 for shard 3 of 3, then for a shard that node 4 does not carry;
     * record 6 for the shard of record 5; no cut, record 7 being the last. */
    static const struct fault order_faults[] = {
        {0, 7, 4, 6},
        {1, 1, 8, 7},
        {11, 2, 3, AT(8, 2)},
        {14, 1, 0, AT(9, 3)},
        {28, 1027, 1024, AT(16, 7)},
        {24, 513, 514, AT(17, 6)},
        {28, 1024, 1025, AT(17, 7)},
        {31, 0, 8, AT(17, 7)},
        {5, 69, 5, 10},
        {29, 6, 1, 11},
        {33, 8, 7, 11},
    };
    message_call(&read_report, report_words, COUNT(report_words), 6, report_faults,
                 COUNT(report_faults), 16777216 + 15);
    message_call(&to_flat, report_words, COUNT(report_words), 6, report_faults,
                 COUNT(report_faults), 16777216 + 12);
    message_call(&read_order, order_words, COUNT(order_words), 6, order_faults, COUNT(order_faults),
                 16777216 + 27);
}

static void contents(void)
{
    static const uint32_t report_contents[] = {4, 7,   127, 256, 5,   0, 257, 82,
                                               0, 258, 32,  0,   769, 7, 4};
    /* As above: an index is that of the record in the message as it would stand. */
    static const struct fault report_faults[] = {
        {0, 7, 4, 6},
        {1, 4294967295, 7, 7},
        {12, 9 * 256, 771, AT(9, 4)},
        {12, 771, 512, AT(16, 4)},
        {9, 257, 258, AT(17, 3)},
        {12, 512, 769, AT(17, 4)},
        {4, 0, 5, 10},
        {14, 0, 4, 11},
    };
    static const uint32_t order_contents[] = {
        4, 8,   63, 256, 5,   0, 257, 50,   0, 258, 8,    0, 512, 0,
        0, 513, 7,  5,   514, 0, 0,   1025, 1, 0,   1281, 7, 4,
    };
    static const struct fault order_faults[] = {
        {0, 7, 4, 6},
        {1, 1, 8, 7},
        {11, 1, 0, AT(9, 3)},
        {21, 1027, 1024, AT(16, 7)},
        {18, 513, 514, AT(17, 6)},
        {21, 1024, 1025, AT(17, 7)},
        {24, 1280, 1281, AT(17, 8)},
        {4, 69, 5, 10},
        {22, 6, 1, 11},
        {25, 8, 7, 11},
    };
    message_call(&write_report, report_contents, COUNT(report_contents), 13, report_faults,
                 COUNT(report_faults), 16777216 + 20);
    message_call(&write_order, order_contents, COUNT(order_contents), 13, order_faults,
                 COUNT(order_faults), 16777216 + 36);
}

/* ---- Flat reports: rows 1, 2, 19, 20, 21 and then those of the report as it would stand ---- */

static void flat_reports(void)
{
    enum { HEAD_WORDS = 9, RUNS = 125, COUNT_AT = 8 };
    static const uint32_t head[HEAD_WORDS] = {1, 7, 127, 3, 5, 82, 32, 0, RUNS};
    static const uint32_t runs[6] = {1, 6, 5, 1, 7, 5};
    /* Run 0 of a shard that no record can name, run 1 of a shard before it and of a view after the
     * head's. */
    static const struct fault faults[] = {
        {0, 7, 1, 6},          {1, 0, 7, 7},  {9, 300, 1, AT(16, 4)},
        {12, 0, 1, AT(17, 5)}, {4, 0, 5, 10}, {13, 8, 7, 11},
    };
    uint8_t flat[4 * (HEAD_WORDS + 3 * RUNS + 1)];
    world_fresh(&world);
    memset(flat, 1, sizeof flat);
    put_words(flat, head, HEAD_WORDS);
    put_words(flat + 4 * HEAD_WORDS, runs, COUNT(runs));
    pieces[0] = (struct piece){world.settings, sizeof world.settings};
    pieces[1] = (struct piece){flat, sizeof flat};
    pieces[2] = (struct piece){buffer, sizeof buffer - 4};
    memset(buffer, 0xEE, sizeof buffer);
    spoil(pieces[1], faults, COUNT(faults));
    restart_put_word(world.settings, 0, 0);
    restart_put_word(flat, HEAD_WORDS + 3 * RUNS - 1, 0);
    check_call(&from_flat, pieces, 0, 1);
    pieces[2].length = sizeof buffer;
    check_call(&from_flat, pieces, 0, 2);
    restart_put_word(world.settings, 0, 7);
    check_call(&from_flat, pieces, 0, 19);
    pieces[1].length -= 4;
    check_call(&from_flat, pieces, 0, 20);
    restart_put_word(flat, HEAD_WORDS + 3 * RUNS - 1, 1);
    check_call(&from_flat, pieces, 0, 21);
    restart_put_word(flat, COUNT_AT, 2);
    pieces[1].length = 4 * (HEAD_WORDS + 3 * 2);
    mend(&from_flat, pieces[1], faults, COUNT(faults));
    check_call(&from_flat, pieces, 0, 16777216 + 24);
}

/* ---- Which record is told ---- */

enum { MOST_WORDS = 40 };

/* A message under case A's settings, and the refusal of the reader. */
struct told {
    const struct entry *entry;
    uint32_t count;
    uint32_t words[MOST_WORDS];
    uint32_t refusal;
};

/* The head of node 4's report in case A, and its first two records of members. */
#define HEAD 4, 7, 127, 1
#define MASKS_0_1 256, 5, 0, 2, 257, 82, 0, 3
#define MASKS MASKS_0_1, 258, 32, 0, 4

static const struct told told_rows[] = {
    /* the masks are missing, and the head is the last */
    {&read_report, 4, {4, 7, 127, 0}, AT(17, 0)},
    /* a mask is missing, and a run is the last */
    {&read_report, 16, {HEAD, MASKS_0_1, 769, 7, 4, 0}, AT(17, 3)},
    /* the message is cut: where its records stand one after another, and where the head names 5 */
    {&read_report, 12, {HEAD, MASKS_0_1}, AT(8, 2)},
    {&read_report, 16, {4, 7, 127, 5, MASKS_0_1, 258, 32, 0, 0}, AT(8, 0)},
    /* the index is the record's own, not its place on the chain: record 4 is off the chain */
    {&read_report,
     24,
     {HEAD, MASKS_0_1, 258, 32, 0, 5, 9 * 256, 9, 9, 9, 9 * 256, 7, 4, 0},
     AT(9, 5)},
    {&read_report, 24, {HEAD, MASKS_0_1, 258, 32, 0, 5, 9 * 256, 9, 9, 9, 771, 7, 4, 0}, AT(16, 5)},
    {&read_report, 24, {HEAD, MASKS_0_1, 258, 32, 0, 5, 9 * 256, 9, 9, 9, 512, 7, 4, 0}, AT(17, 5)},
    {&read_report, 24, {HEAD, MASKS_0_1, 258, 32, 0, 5, 9 * 256, 9, 9, 9, 769, 7, 4, 7}, AT(8, 5)},
    /* between numbers their order decides, wherever the records stand */
    {&read_report,
     20,
     {HEAD, 259, 5, 0, 2, 257, 82, 0, 3, 258, 32, 0, 4, 9 * 256, 7, 4, 0},
     AT(9, 4)},
    {&read_report, 20, {HEAD, 257, 5, 0, 2, 257, 82, 0, 3, 258, 32, 0, 4, 771, 7, 4, 0}, AT(16, 4)},
    /* within one the first record speaks, a wrong kind or a word 2 that is not zero */
    {&read_report, 20, {HEAD, MASKS_0_1, 258, 32, 1, 4, 9 * 256, 7, 4, 0}, AT(9, 3)},
    {&read_report,
     20,
     {HEAD, 256, 5, 0, 2, 9 * 256, 82, 0, 3, 258, 32, 1, 4, 769, 7, 4, 0},
     AT(9, 2)},
    /* the termination of one shard, and a run behind it: the others are missing */
    {&read_report, 24, {HEAD, MASKS, 512, 7, 4, 5, 769, 7, 4, 0}, AT(17, 5)},
    /* of two runs of one view, or of a view before, the later record is told */
    {&read_report, 24, {HEAD, MASKS, 769, 6, 5, 5, 769, 6, 7, 0}, AT(17, 5)},
    {&read_report, 28, {HEAD, MASKS, 769, 6, 5, 5, 769, 5, 7, 6, 769, 7, 1, 0}, AT(17, 5)},
    /* what only an order has is no wrong sequence in a report, and the other way round */
    {&read_report, 20, {HEAD, MASKS, 1025, 1, 0, 0}, AT(9, 4)},
    {&read_report, 20, {HEAD, MASKS, 1281, 7, 4, 0}, AT(9, 4)},
    {&read_order, 20, {4, 8, 127, 1, MASKS, 769, 7, 4, 0}, AT(9, 4)},
    /* a holder before all masks is surplus, whoever carries its shard */
    {&read_order,
     20,
     {4, 8, 127, 1, 1025, 1, 0, 2, 256, 5, 0, 3, 257, 82, 0, 4, 258, 32, 0, 0},
     AT(17, 1)},
    /* an order without targets */
    {&read_order, 16, {4, 8, 127, 1, MASKS_0_1, 258, 32, 0, 0}, AT(17, 3)},
};

static void told_records(void)
{
    uint8_t input[4 * MOST_WORDS];
    world_fresh(&world);
    memset(buffer, 0xEE, sizeof buffer);
    pieces[0] = (struct piece){world.settings, sizeof world.settings};
    pieces[2] = (struct piece){buffer, sizeof buffer};
    for (size_t i = 0; i < COUNT(told_rows); i++) {
        pieces[1] = (struct piece){input, put_words(input, told_rows[i].words, told_rows[i].count)};
        check_call(told_rows[i].entry, pieces, 0, told_rows[i].refusal);
    }
}

/* ---- Events ---- */

typedef void phase(struct world *);

/* Rows 1, 2, 15 and 3: the desk's length, the settings, a role that may not, and a held node from N
 * up. The page is asked of a subgroup that is not the watcher's. */
static void entry_rows(const struct entry *entry, phase *own, uint32_t node)
{
    own(&world);
    lend_world(pieces, &world);
    uint32_t held = restart_get_word(world.state, RESTART_HELD);
    pieces[2].length -= 4;
    restart_put_word(world.settings, 0, 0);
    restart_put_word(world.state, RESTART_HELD, held | 512);
    caller = restart_watcher(1);
    check_call(entry, pieces, node, 1);
    pieces[2].length += 4;
    check_call(entry, pieces, node, 2);
    restart_put_word(world.settings, 0, 7);
    check_call(entry, pieces, node, 15);
    caller = RESTART_PLANNER;
    check_call(entry, pieces, node, 3);
    own(&world);
}

/* And row 4 of an event: a phase that is not its own. */
static void first_rows(const struct entry *entry, phase *other, phase *own, uint32_t node)
{
    entry_rows(entry, own, node);
    other(&world);
    check_call(entry, pieces, node, 4);
    own(&world);
}

/* Nodes 0 to 5 are held; node 6 is below N and is not. */
static void node_rows(const struct entry *entry, uint32_t accepted)
{
    check_call(entry, pieces, 7, 6);
    check_call(entry, pieces, 4294967295, 6);
    check_call(entry, pieces, 6, 14);
    check_call(entry, pieces, 3, accepted);
}

/* View 7 is kept with a termination: (0, 0), (7, 5), (0, 0). */
static void terminated(struct world *to)
{
    static const uint32_t words[] = {
        0, 7, 127, 1, 256, 5, 0,   2, 257, 82, 0,   3, 258, 32,
        0, 4, 512, 0, 0,   5, 513, 7, 5,   6,  514, 0, 0,   0,
    };
    uint8_t message[sizeof words];
    world_fresh(to);
    check_word("a report with a termination",
               restart_report(RESTART_PLANNER, to->settings, sizeof to->settings, to->state,
                              sizeof to->state, to->desk, sizeof to->desk, message,
                              put_words(message, words, COUNT(words))),
               RESTART_ACCEPTED);
}

static void reports(void)
{
    static const uint32_t words[] = {
        3,   7, 127, 1, 256, 5, 0, 2, 257, 82, 0, 3, 258, 32, 0, 4,
        512, 0, 0,   5, 513, 7, 5, 6, 514, 0,  0, 7, 769, 7,  1, 0,
    };
    /* Record 7 of kind 9, then for shard 3 of 3; record 5 for the shard of record 4; the
     * termination of shard 2 missing, record 7 being the last. */
    static const struct fault faults[] = {
        {0, 7, 3, 6},
        {1, 0, 7, 7},
        {3, 200, 1, AT(8, 0)},
        {11, 2, 3, AT(8, 2)},
        {28, 9 * 256, 771, AT(9, 7)},
        {28, 771, 769, AT(16, 7)},
        {20, 512, 513, AT(17, 5)},
        {24, 768, 514, AT(17, 7)},
        {5, 0, 13, 10},
        {30, 0, 1, 11},
    };
    static const struct fault beside[] = {{5, 13, 5, 12}, {22, 4, 5, 13}};
    uint8_t message[sizeof words];
    put_words(message, words, COUNT(words));
    restart_put_word(message, 0, 7);
    pieces[3] = (struct piece){message, 24};
    first_rows(&report, world_committed, terminated, 0);
    check_call(&report, pieces, 0, 5);
    pieces[3].length = sizeof message;
    /* Node 3 is not held and is remembered with view 9: a sound state, which no event leaves. */
    restart_put_word(world.state, RESTART_LATEST_VIEWS + 3, 9);
    spoil(pieces[3], beside, COUNT(beside));
    climb(&report, pieces[3], faults, COUNT(faults));
    check_call(&report, pieces, 0, 18);
    restart_put_word(world.state, RESTART_LATEST_VIEWS + 3, 7);
    mend(&report, pieces[3], beside, COUNT(beside));
    check_call(&report, pieces, 0, RESTART_ACCEPTED);
}

/* A state is sound in every phase, and no longer so once a word of it or of the desk is another
 * one. */
static void states(void)
{
    static phase *const phases[] = {world_fresh, world_gathered, world_ordered, world_preparing,
                                    world_committed};
    for (size_t i = 0; i < COUNT(phases); i++) {
        entry_rows(&check_state, phases[i], 0);
        check_call(&check_state, pieces, 0, RESTART_ACCEPTED);
        restart_put_word(world.state, RESTART_STATE_ZEROS, 1);
        check_call(&check_state, pieces, 0, 3);
    }
    /* Fetched by a node that is not held, a plan with a move less, and the report of another node. */
    world_ordered(&world);
    restart_put_word(world.state, RESTART_FETCHED, 64);
    check_call(&check_state, pieces, 0, 3);
    world_ordered(&world);
    restart_put_word(world.state, RESTART_PLAN_MOVES, 1);
    check_call(&check_state, pieces, 0, 3);
    world_ordered(&world);
    restart_put_word(world.desk, 2 * RESTART_SLOT_WORDS, 3);
    check_call(&check_state, pieces, 0, 3);
}

static void drops(void)
{
    first_rows(&drop, world_committed, world_gathered, 7);
    node_rows(&drop, RESTART_ACCEPTED);
    check_call(&drop, pieces, 3, 14);
    world_ordered(&world);
    node_rows(&drop, RESTART_ACCEPTED);
    world_preparing(&world);
    node_rows(&drop, RESTART_ACCEPTED);
}

static void orders(void)
{
    memset(buffer, 0xEE, sizeof buffer);
    pieces[3] = (struct piece){buffer, sizeof buffer};
    first_rows(&order, world_preparing, world_ordered, 7);
    pieces[3].length -= 4;
    restart_put_word(world.settings, 0, 0);
    check_call(&order, pieces, 7, 1);
    pieces[3].length += 4;
    check_call(&order, pieces, 7, 2);
    restart_put_word(world.settings, 0, 7);
    node_rows(&order, 16777216 + 36);
}

/* Previews while gathering alone: in every other phase number 4, also where drop is taken. Node 3 is
 * needed: without it subgroup 0 has no placement. */
static void previews(void)
{
    static phase *const others[] = {world_ordered, world_preparing, world_committed};
    static const struct entry *const both[] = {&preview, &preview_all};
    memset(buffer, 0xEE, sizeof buffer);
    pieces[3] = (struct piece){buffer, sizeof buffer};
    for (size_t i = 0; i < COUNT(both); i++) {
        for (size_t k = 0; k < COUNT(others); k++)
            first_rows(both[i], others[k], world_gathered, 7);
        pieces[3].length -= 4;
        restart_put_word(world.settings, 0, 0);
        check_call(both[i], pieces, 7, 1);
        pieces[3].length += 4;
        check_call(both[i], pieces, 7, 2);
        restart_put_word(world.settings, 0, 7);
    }
    node_rows(&preview, 50331648 + 256 * 5);
    check_call(&preview_all, pieces, 0, 16777216 + 1);
    world_fresh(&world);
    for (uint32_t node = 0; node < 7; node++)
        check_call(&preview, pieces, node, 14);
    check_call(&preview, pieces, 7, 6);
    check_call(&preview_all, pieces, 0, 16777216 + 1);
    /* The slot of the node itself must be sound as well. */
    world_gathered(&world);
    restart_put_word(world.desk, 3 * RESTART_SLOT_WORDS, 2);
    check_call(&preview, pieces, 3, 3);
    check_call(&preview_all, pieces, 0, 3);
}

/* A page in every phase: no row 4. Its own watcher climbs from 2 to 3 with no 15 between. */
static void pages(void)
{
    static phase *const phases[] = {world_fresh, world_gathered, world_ordered, world_preparing,
                                    world_committed};
    memset(buffer, 0xEE, sizeof buffer);
    pieces[3] = (struct piece){buffer, sizeof buffer};
    for (size_t i = 0; i < COUNT(phases); i++) {
        entry_rows(&page, phases[i], 0);
        restart_put_word(world.settings, 0, 0);
        restart_put_word(world.state, RESTART_STATE_ZEROS, 1);
        caller = restart_watcher(0);
        pieces[3].length -= 4;
        check_call(&page, pieces, 1, 1);
        pieces[3].length += 4;
        check_call(&page, pieces, 1, 2);
        restart_put_word(world.settings, 0, 7);
        check_call(&page, pieces, 1, 15);
        check_call(&page, pieces, 0, 3);
        restart_put_word(world.state, RESTART_STATE_ZEROS, 0);
        check_call(&page, pieces, 0, 16777216 + 72);
        caller = RESTART_PLANNER;
        check_call(&page, pieces, 4, 15);
        check_call(&page, pieces, 3, 16777216 + 72);
    }
}

/* Rows 22 and 23 after 4. A mask with node 7 of 7 and 4 rounds, then one of the two; then no kept
 * view, node 2's report in node 6's slot, a view that is not there yet, and a termination that is
 * not kept. */
static void games(void)
{
    static const uint32_t many[] = {4, 5, 256, 4294967295u};
    static const uint32_t above[] = {128, 255, 1024, 2147483648u, 4294967295u};
    static const size_t first = 6 * (size_t)RESTART_SLOT_WORDS;
    uint8_t message[RESTART_MESSAGE_BYTES];
    rounds = 4;
    first_rows(&game, world_ordered, world_fresh, 255);
    check_call(&game, pieces, 255, 22);
    check_call(&game, pieces, 127, 22);
    rounds = 3;
    for (size_t i = 0; i < COUNT(above); i++)
        check_call(&game, pieces, above[i], 22);
    check_call(&game, pieces, 127, 23);
    check_call(&game, pieces, 0, 23);
    world_gathered(&world);
    check_call(&game, pieces, 255, 22);
    check_call(&game, pieces, 63, 23); /* node 6 has not reported */
    put_report(message, 2);
    memcpy(world.desk + 4 * first, message, 64);
    check_call(&game, pieces, 63, 23);
    restart_put_word(world.desk, first, 6);
    check_call(&game, pieces, 127, 83886080 + 256);
    restart_put_word(world.desk, first + 1, 8);
    check_call(&game, pieces, 63, 23);
    restart_put_word(world.desk, first + 1, 7);
    restart_put_word(world.desk, first + 15, 4);
    for (size_t i = 0; i < 12; i++)
        restart_put_word(world.desk, first + 16 + i, i % 4 == 0 ? 512 + (uint32_t)i / 4 : 0);
    restart_put_word(world.desk, first + 19, 5);
    restart_put_word(world.desk, first + 23, 6);
    check_call(&game, pieces, 63, 23);
    world_ready(&world);
    for (size_t i = 0; i < COUNT(many); i++) {
        rounds = many[i];
        check_call(&game, pieces, 127, 22);
    }
    rounds = 1;
    check_call(&game, pieces, 127, 83886080 + 256 + 5);
}

static void marks(void)
{
    first_rows(&fetched, world_gathered, world_ordered, 7);
    node_rows(&fetched, RESTART_ACCEPTED);
    check_call(&fetched, pieces, 3, 14);
    first_rows(&prepared, world_ordered, world_preparing, 7);
    node_rows(&prepared, RESTART_ACCEPTED);
    check_call(&prepared, pieces, 3, 14);
}

/* ---- Decisions: cases B, D, E, F, I, and A ---- */

static const uint32_t some_rounds[] = {0, 1, 128, 4294967295};

/* Decide waits so, and with any number of rounds. */
static void check_wait(uint32_t reason, uint32_t value)
{
    check_call(&decide, pieces, 0, 50331648 + 256 * reason + value);
    for (size_t i = 0; i < COUNT(some_rounds); i++)
        check_call(&decide_within, pieces, some_rounds[i], 50331648 + 256 * reason + value);
}

static void decisions(void)
{
    static phase *const others[] = {world_ordered, world_preparing, world_committed};
    first_rows(&decide, world_ordered, world_gathered, 0);
    for (size_t i = 0; i < COUNT(others); i++)
        first_rows(&decide_within, others[i], world_gathered, some_rounds[i]);
    world_fresh(&world);
    check_wait(1, 0);
    world_gathered(&world);
    restart_put_word(world.state, RESTART_HELD, 7);
    check_wait(2, 0);
    world_gathered(&world);
    restart_put_word(world.settings, 2, 7);
    check_wait(3, 0);
    world_gathered(&world);
    restart_put_word(world.state, RESTART_HELD, 31);
    check_wait(4, 2);
    world_gathered(&world);
    restart_put_word(world.settings, 11, 3);
    check_wait(5, 0);
    /* Shard 1 alone in subgroup 3, and no held node in failure set 2. */
    world_gathered(&world);
    restart_put_word(world.settings, 9, 1);
    restart_put_word(world.settings, 12, 3 * 256 + 3);
    check_wait(5, 3);
    world_gathered(&world);
    check_call(&decide, pieces, 0, 33554432);
    for (size_t i = 0; i < COUNT(some_rounds); i++) {
        world_gathered(&world);
        check_call(&decide_within, pieces, some_rounds[i], 33554432 + (i == 0 ? 2u : 1u));
    }
}

int main(void)
{
    messages();
    contents();
    flat_reports();
    told_records();
    states();
    reports();
    drops();
    orders();
    previews();
    pages();
    games();
    marks();
    decisions();
    return summary();
}
