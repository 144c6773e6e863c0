/*
 * Decisions by improving rounds: restarts with masks, moves and gap after so many rounds written out
 * by hand, decide's plan beside them; waits; a layout in which every round has to be made; and what
 * follows a plan. All memory lies between pages without access.
 */
#include "room.h"

#include <string.h>

#define COUNT(array) (sizeof(array) / sizeof((array)[0]))
#define PLAN 33554432u
#define WAIT(reason, value) (50331648u + 256 * (reason) + (value))
#define MOST UINT32_C(4294967295)

static struct room here, copy;

/* Decides by these rounds on a copy and checks the answer; the copy is left. */
static void decided(const struct room *room, uint32_t rounds, uint32_t answer)
{
    copy = *room;
    call_in(&copy, &decide_within, rounds, answer);
}

/* What decide leaves of a copy, but for masks and moves, which are these. */
static void check_state_is(const char *what, const struct room *room, const uint32_t *masks,
                           uint32_t shards, uint32_t moves)
{
    static struct room full;
    full = *room;
    call_in(&full, &decide, 0, PLAN);
    restart_put_word(full.state, RESTART_PLAN_MOVES, moves);
    for (uint32_t shard = 0; shard < shards; shard++)
        restart_put_word(full.state, RESTART_PLAN_MASKS + shard, masks[shard]);
    check_bytes(what, copy.state, full.state, sizeof full.state);
    check_bytes(what, copy.desk, room->desk, sizeof copy.desk);
    call_in(&copy, &check_state, 0, RESTART_ACCEPTED);
}

/* ---- Rows by hand ---- */

enum { MOST_SETTINGS = 14, MOST_STEPS = 3, MOST_MASKS = 3 };

/* After at least so many rounds: masks, moves and gap. */
struct step {
    uint32_t rounds, masks[MOST_MASKS], moves, gap;
};

/* Settings, the held nodes, each shard's members in view 7 of all nodes, what rounds reach, and
 * decide's masks and moves. */
struct row {
    const char *what;
    uint32_t settings[MOST_SETTINGS], count, held;
    uint32_t old[MOST_MASKS];
    uint32_t steps;
    struct step step[MOST_STEPS];
    struct step full;
};

static const struct row rows[] = {
    {"case A: a gap at the fewest moves",
     {7, 3, 4, 3, 0, 0, 1, 1, 1, 2, 2, 2, 3, 1},
     14,
     63,
     {5, 82, 32},
     2,
     {{0, {5, 42, 16}, 3, 2}, {1, {5, 50, 8}, 2, 1}},
     {0, {5, 50, 8}, 2, 0}},
    {"the start takes a mover beyond the need: 0 1 2 comes before 0 2",
     {3, 2, 1, 1, 0, 0, 1, 3 * 65536 + 2},
     8,
     7,
     {5},
     2,
     {{0, {7}, 1, 1}, {1, {5}, 0, 0}},
     {0, {5}, 0, 0}},
    {"the first of fewer moves, not of the fewest",
     {3, 1, 1, 2, 0, 0, 0, 257, 257},
     9,
     7,
     {4, 1},
     3,
     {{0, {1, 2}, 2, 2}, {1, {2, 1}, 1, 1}, {2, {4, 1}, 0, 0}},
     {0, {4, 1}, 0, 0}},
    {"shard 1 is of subgroup 0 and goes first",
     {2, 1, 1, 2, 0, 0, 257, 1},
     8,
     3,
     {2, 2},
     3,
     {{0, {1, 1}, 2, 2}, {1, {1, 2}, 1, 1}, {2, {2, 2}, 0, 0}},
     {0, {2, 2}, 0, 0}},
    {"subgroup 0 has none of fewer moves: the round goes to subgroup 1",
     {3, 3, 1, 3, 1, 2, 2, 257, 1, 257},
     10,
     7,
     {4, 3, 1},
     3,
     {{0, {1, 1, 2}, 2, 2}, {1, {2, 1, 1}, 1, 1}, {2, {4, 1, 1}, 0, 0}},
     {0, {4, 1, 1}, 0, 0}},
    {"the fewest moves, with fewer stays than decide",
     {2, 1, 1, 1, 0, 0, 131329},
     7,
     3,
     {3},
     1,
     {{0, {1}, 0, 0}},
     {0, {3}, 0, 0}},
    {"no round, and a gap of 1",
     {3, 2, 1, 2, 1, 0, 0, 196866, 131329},
     9,
     7,
     {2, 1},
     1,
     {{0, {3, 4}, 2, 1}},
     {0, {3, 4}, 2, 0}},
};

static void reported(struct room *room, const struct row *row)
{
    uint32_t all = (UINT32_C(1) << row->settings[0]) - 1;
    begin(room, row->settings, row->count);
    for (uint32_t node = 0; node < row->settings[0]; node++) {
        struct told told = {node, 7, all, row->old, NULL, {{0, 0, 0}}};
        if (row->held >> node & 1)
            take(room, &told);
    }
}

static void check_row(const struct row *row)
{
    static const uint32_t rounds[] = {0, 1, 2, 3, 31, 127, 128, 129, 255, 256, 257, 65536, MOST};
    reported(&here, row);
    for (size_t i = 0; i < COUNT(rounds); i++) {
        const struct step *step = &row->step[0];
        for (uint32_t k = 0; k < row->steps && row->step[k].rounds <= rounds[i]; k++)
            step = &row->step[k];
        decided(&here, rounds[i], PLAN + step->gap);
        check_state_is(row->what, &here, step->masks, row->settings[3], step->moves);
        call_in(&copy, &decide_within, rounds[i], RESTART_WRONG_PHASE);
    }
    copy = here;
    call_in(&copy, &decide, 0, PLAN);
    check_state_is(row->what, &here, row->full.masks, row->settings[3], row->full.moves);
}

/* ---- Waits: decide's, with any number of rounds, and nothing changed ---- */

static void check_wait(uint32_t answer)
{
    static const uint32_t rounds[] = {0, 1, 128, MOST};
    call_in(&here, &decide, 0, answer);
    for (size_t i = 0; i < COUNT(rounds); i++) {
        decided(&here, rounds[i], answer);
        check_bytes("a wait changes nothing", copy.state, here.state, sizeof here.state);
        check_word("and has no gap", restart_gap_of(answer), 0);
    }
}

static void waits(void)
{
    struct row row = rows[0];
    row.held = 0;
    reported(&here, &row);
    check_wait(WAIT(1, 0));
    row.held = 7;
    reported(&here, &row);
    check_wait(WAIT(2, 0));
    row.held = 31;
    reported(&here, &row);
    check_wait(WAIT(4, 2));
    row.held = 62;
    reported(&here, &row);
    check_wait(WAIT(5, 0));
    row.held = 63;
    reported(&here, &row);
    restart_put_word(here.settings, 2, 7);
    check_wait(WAIT(3, 0));
    /* Shard 1 alone in subgroup 3 needs all three sets, and nobody held is of set 2. */
    reported(&here, &row);
    restart_put_word(here.settings, 9, 1);
    restart_put_word(here.settings, 12, 3 * 256 + 3);
    check_wait(WAIT(5, 3));
}

/* ---- 32 nodes of one set, 16 shards in four subgroups that need one node each ---- */

/* Shard s of a subgroup was had by node 31 - s. The start gives it node s. A round moves what it has
 * to the first placement with a move less, so that each saves one: four a subgroup, lowest subgroup
 * first. */
static void many_rounds(void)
{
    uint32_t words[52] = {32, 1, 1, 16}, masks[16];
    uint32_t before = 17;
    for (uint32_t shard = 0; shard < 16; shard++) {
        words[36 + shard] = shard / 4 * 256 + 1;
        masks[shard] = UINT32_C(1) << (31 - shard % 4);
    }
    begin(&here, words, 52);
    for (uint32_t node = 0; node < 32; node++) {
        struct told told = {node, 7, UINT32_MAX, masks, NULL, {{0, 0, 0}}};
        take(&here, &told);
    }
    for (uint32_t rounds = 0; rounds <= 18; rounds++) {
        uint32_t left = rounds < 16 ? 16 - rounds : 0;
        decided(&here, rounds, PLAN + left);
        check_word("each round saves one", restart_get_word(copy.state, RESTART_PLAN_MOVES), left);
        for (uint32_t group = 0; group < 4; group++) {
            uint32_t moved = 0, done = rounds < 4 * group ? 0 : rounds - 4 * group;
            for (uint32_t shard = 4 * group; shard < 4 * group + 4; shard++)
                moved += restart_get_word(copy.state, RESTART_PLAN_MASKS + shard) != masks[shard];
            check_word("in the lowest subgroup", moved, done < 4 ? 4 - done : 0);
        }
        check_word("never more than before", left <= before, 1);
        before = left;
    }
}

/* ---- 32 nodes of 16 sets in pairs, 16 shards in four subgroups that need 8 each ---- */

/* Each subgroup uses every node: two pairs of shards share eight sets. The old members are those
 * that the start gives to the shard two on, so that all 32 places of a subgroup are moves: the gap
 * is 128. Of the last moves of a subgroup two go at once: 31 rounds each, and nothing moves. */
static void far_off(void)
{
    static const uint32_t start[4] = {0x5555, 0xAAAA, 0x55550000, 0xAAAA0000};
    uint32_t words[52] = {32, 16, 1, 16}, masks[16], first[16], last = 129;
    for (uint32_t node = 0; node < 32; node++)
        words[4 + node] = node / 2;
    for (uint32_t shard = 0; shard < 16; shard++) {
        words[36 + shard] = shard / 4 * 256 + 8;
        first[shard] = start[shard % 4];
        masks[shard] = start[(shard + 2) % 4];
    }
    begin(&here, words, 52);
    for (uint32_t node = 0; node < 32; node++) {
        struct told told = {node, 7, UINT32_MAX, masks, NULL, {{0, 0, 0}}};
        take(&here, &told);
    }
    decided(&here, 0, PLAN + 128);
    check_state_is("every place is a move", &here, first, 16, 128);
    for (uint32_t rounds = 0; rounds <= 128; rounds++) {
        struct piece pieces[MOST_PIECES];
        copy = here;
        lend_room(pieces, &copy);
        uint32_t answer = call_between(&decide_within, pieces, rounds, 0);
        uint32_t moves = restart_get_word(copy.state, RESTART_PLAN_MOVES);
        check_word("a plan", (uint32_t)restart_is_plan(answer), 1);
        check_word("the floor is 0", restart_gap_of(answer), moves);
        check_word("each round saves one at least", moves < last || (moves == 0 && last == 0), 1);
        check_word("124 are needed", moves == 0, rounds >= 124);
        last = moves;
    }
    for (uint32_t rounds = 128; rounds != 0; rounds = rounds == 128   ? 129
                                                      : rounds == 129 ? MOST
                                                                      : 0) {
        decided(&here, rounds, PLAN);
        check_state_is("nothing moves", &here, masks, 16, 0);
    }
}

/* ---- What follows a plan by rounds ---- */

/* Case A by no rounds: orders of masks 5, 42 and 16, marks of all, and a drop while ordered. */
static void follows(void)
{
    static const struct entry *const marks[] = {&fetched, &prepared};
    static const uint32_t carried[6] = {1, 2, 1, 2, 4, 2};
    uint8_t buffer[RESTART_BUFFER_BYTES];
    struct piece pieces[MOST_PIECES];
    reported(&here, &rows[0]);
    decided(&here, 0, PLAN + 2);
    lend_room(pieces, &copy);
    pieces[3] = (struct piece){buffer, sizeof buffer};
    for (uint32_t node = 0; node < 6; node++) {
        uint32_t holders = 0;
        uint32_t answer = call_between(&order, pieces, node, 0);
        check_word("an order", restart_class_of(answer), RESTART_LENGTH);
        for (size_t at = 4; at < restart_length_of(answer); at += 4)
            if (restart_get_word(buffer, at) / 256 == RESTART_KIND_HOLDER)
                holders |= UINT32_C(1) << restart_get_word(buffer, at) % 256;
        check_word("of the shard that it carries", holders, carried[node]);
    }
    for (size_t i = 0; i < COUNT(marks); i++)
        for (uint32_t node = 0; node < 6; node++)
            call_in(&copy, marks[i], node, RESTART_ACCEPTED);
    check_word("committed", restart_get_word(copy.state, RESTART_PHASE), RESTART_COMMITTED);
    call_in(&copy, &decide_within, 0, RESTART_WRONG_PHASE);
    decided(&here, 0, PLAN + 2);
    call_in(&copy, &drop, 3, RESTART_ACCEPTED);
    check_word("gathering again", restart_get_word(copy.state, RESTART_PHASE), RESTART_GATHERING);
    call_in(&copy, &decide_within, 0, WAIT(2, 0));
}

int main(void)
{
    for (size_t i = 0; i < COUNT(rows); i++)
        check_row(&rows[i]);
    waits();
    many_rounds();
    far_off();
    follows();
    return summary();
}
