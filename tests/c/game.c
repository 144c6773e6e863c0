/*
 * The game of outage and crew, worked out by hand: case A with a report of each node, four nodes of
 * which every mask is played, caps, one node alone, and what makes a slot or a number of rounds
 * wrong. All memory lies between pages without access, and no byte of it may change.
 */
#include "world.h"

#include <string.h>

#define COUNT(array) (sizeof(array) / sizeof((array)[0]))

/* The side that can force the win: the crew, or the outage by its first node or by passing. */
#define C 83886080u
#define O(node) (83886080u + 256 + (node))
#define P O(32)

/* ---- A group of up to ten nodes that all report ---- */

struct room {
    uint8_t settings[RESTART_SETTINGS_BYTES], state[RESTART_STATE_BYTES];
    uint8_t desk[RESTART_DESK_BYTES];
    size_t settings_len;
};

static struct room room;
static struct piece pieces[MOST_PIECES];

static void lend_room(void)
{
    pieces[0] = (struct piece){room.settings, room.settings_len};
    pieces[1] = (struct piece){room.state, sizeof room.state};
    pieces[2] = (struct piece){room.desk, sizeof room.desk};
}

static void begin(const uint32_t *words, size_t count)
{
    room.settings_len = put_words(room.settings, words, count);
    memset(room.desk, 0xEE, sizeof room.desk);
    check_word("the fresh state", restart_fresh(RESTART_PLANNER, room.state, sizeof room.state),
               RESTART_ACCEPTED);
    lend_room();
}

/* A node reports a view of one shard, with empty logs. */
static void reports(uint32_t node, uint32_t view, uint32_t members, uint32_t shard)
{
    const uint32_t words[8] = {node, view, members, 1, 256, shard, 0, 0};
    uint8_t message[sizeof words];
    put_words(message, words, COUNT(words));
    pieces[3] = (struct piece){message, sizeof message};
    check_call(&report, pieces, 0, RESTART_ACCEPTED);
}

/* The game with these nodes held and so many rounds. */
static void plays(uint32_t held, uint32_t many, uint32_t expected)
{
    rounds = many;
    check_call(&game, pieces, held, expected);
    rounds = 1;
}

/* ---- Case A, with a report of node 6 ---- */

/* Who wins in 0 to 3 rounds. */
struct row {
    uint32_t held;
    uint32_t winner[4];
};

static struct world world;

static void check_rows(const struct row *rows, size_t count)
{
    for (size_t i = 0; i < count; i++)
        for (uint32_t many = 0; many <= 3; many++)
            plays(rows[i].held, many, rows[i].winner[many]);
}

static void case_a(void)
{
    static const struct row rows[] = {
        {127, {C, O(5), O(0), O(0)}},
        {126, {C, O(5), O(1), O(1)}},
        {95, {C, C, O(0), O(0)}},
        {63, {C, O(5), O(0), O(0)}},
        {32, {C, O(5), O(5), O(5)}},
        {64, {C, O(6), O(6), O(6)}},
        {0, {C, P, P, P}},
    };
    world_ready(&world);
    lend_world(pieces, &world);
    check_rows(rows, COUNT(rows));
    /* The state's own nodes play no part: drop four of the seven. */
    for (uint32_t node = 0; node < 7; node += 2)
        check_call(&drop, pieces, node, RESTART_ACCEPTED);
    check_rows(rows, COUNT(rows));
}

/* What the state remembers of a node plays no part either: node 6 has reported view 7, was dropped,
 * and its slot has a report of view 6. A report of a view that is not there yet, of another node,
 * with a termination or of no whole chain is none. */
static void slots(void)
{
    static const size_t first = 6 * (size_t)RESTART_SLOT_WORDS;
    world_ready(&world);
    lend_world(pieces, &world);
    check_call(&drop, pieces, 6, RESTART_ACCEPTED);
    plays(95, 1, C);
    restart_put_word(world.desk, first + 1, 6);
    plays(127, 1, O(5));
    restart_put_word(world.desk, first + 1, 8);
    plays(127, 1, 23);
    plays(63, 0, 23); /* also where nobody asks for node 6 */
    restart_put_word(world.desk, first + 1, 7);
    restart_put_word(world.desk, first, 5);
    plays(127, 1, 23);
    restart_put_word(world.desk, first, 6);
    restart_put_word(world.desk, first + 3, 0);
    plays(127, 1, 23);
    restart_put_word(world.desk, first + 3, 1);
    plays(127, 1, O(5));
}

/* ---- Four nodes in two failure sets; one shard that needs two of them ---- */

/* Nodes 0 to 2 report view 7 with members 0 to 2 and the shard on 0 and 1; node 3 view 6. */
static void four_nodes(void)
{
    static const uint32_t settings[] = {4, 2, 1, 1, 0, 0, 1, 1, 2};
    static const uint32_t one[16] = {P,    O(0), O(1), C, O(2), O(2), O(2), C,
                                     O(3), O(0), O(1), C, O(2), C,    C,    C};
    static const uint32_t more[16] = {P,    O(0), O(1), O(0), O(2), O(0), O(1), C,
                                      O(3), O(0), O(1), C,    O(2), C,    C,    C};
    begin(settings, COUNT(settings));
    reports(3, 6, 15, 8);
    for (uint32_t node = 0; node < 3; node++)
        reports(node, 7, 7, 3);
    for (uint32_t held = 0; held < 16; held++) {
        plays(held, 0, C);
        plays(held, 1, one[held]);
        plays(held, 2, more[held]);
        plays(held, 3, more[held]);
    }
}

/* ---- Caps change no row of readiness, and so no game ---- */

static void caps(void)
{
    uint32_t settings[] = {6, 3, 3, 1, 0, 0, 1, 1, 2, 2, 4 * 65536 + 2};
    for (int capped = 0; capped < 2; capped++) {
        uint32_t crew = 0;
        begin(settings, COUNT(settings));
        for (uint32_t node = 0; node < 6; node++)
            reports(node, 7, 63, 15);
        plays(63, 3, C);
        plays(62, 3, C);
        plays(31, 3, C);
        plays(7, 3, O(0));
        plays(0, 3, P);
        for (uint32_t held = 0; held < 64; held++)
            crew += restart_game(RESTART_PLANNER, room.settings, room.settings_len, room.state,
                                 sizeof room.state, room.desk, sizeof room.desk, held, 3) == C;
        check_word("masks with which the crew holds", crew, 22);
        settings[10] = 2;
    }
}

/* ---- One node ---- */

static void one_node(void)
{
    static const uint32_t settings[] = {1, 1, 1, 1, 0, 1};
    begin(settings, COUNT(settings));
    plays(1, 1, 23); /* no view is kept */
    plays(2, 1, 22);
    reports(0, 1, 1, 1);
    /* The crew has nothing to bring back and passes. */
    plays(1, 1, O(0));
    plays(1, 3, O(0));
    /* The outage passes, the crew brings the node back, and then it is taken. */
    plays(0, 1, C);
    plays(0, 2, P);
    plays(0, 3, P);
    plays(1, 0, C);
    plays(2, 0, 22);
    plays(0, 4, 22);
    plays(1, 4294967295u, 22);
}

/* ---- Ten nodes, and eleven ---- */

static void most_nodes(void)
{
    uint32_t settings[4 + 11 + 1] = {10, 1, 5, 1};
    settings[4 + 10] = 1;
    begin(settings, 4 + 10 + 1);
    for (uint32_t node = 0; node < 10; node++)
        reports(node, 3, 1023, 1023);
    /* A majority of ten is six; the crew brings back what was lost, but for the first of all. */
    plays(1023, 3, C);
    plays(127, 3, C);
    plays(63, 3, C);
    plays(31, 1, O(0));
    plays(0, 3, P);
    plays(1024, 0, 22);
    settings[0] = 11;
    settings[4 + 10] = 0;
    settings[4 + 11] = 1;
    begin(settings, 4 + 11 + 1);
    plays(0, 0, 22); /* also where no view is kept */
    for (uint32_t node = 0; node < 11; node++)
        reports(node, 3, 2047, 2047);
    plays(0, 0, 22);
    plays(2047, 3, 22);
}

int main(void)
{
    case_a();
    slots();
    four_nodes();
    caps();
    one_node();
    most_nodes();
    return summary();
}
