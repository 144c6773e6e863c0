/*
 * Caps: the settings that are taken and refused, a shard that keeps as many old members as its cap
 * allows, and which plans of a saved state are sound. Six machines in three failure sets, one shard
 * that needs members of two sets and had nodes 0 to 3 in view 7. All memory lies between pages
 * without access.
 */
#include "world.h"

#define COUNT(array) (sizeof(array) / sizeof((array)[0]))
#define CAP(cap) ((cap)*65536u)
#define PLAN 33554432u
#define WAIT_5 (50331648u + 5 * 256)

static uint8_t settings[4 * 11];
static uint8_t state[RESTART_STATE_BYTES];
static uint8_t desk[RESTART_DESK_BYTES];
static uint8_t message[RESTART_MESSAGE_BYTES];
static struct piece pieces[MOST_PIECES];

static void put_settings(uint32_t shard)
{
    const uint32_t words[11] = {6, 3, 1, 1, 0, 1, 2, 0, 1, 2, shard};
    pieces[0] = (struct piece){settings, put_words(settings, words, 11)};
}

/* These nodes report a view whose shard had these members. */
static void reported(uint32_t shard, uint32_t nodes, uint32_t had)
{
    put_settings(shard);
    check_word("the fresh state", restart_fresh(RESTART_PLANNER, state, sizeof state),
               RESTART_ACCEPTED);
    for (uint32_t node = 0; node < 6; node++) {
        const uint32_t words[8] = {node, 7, 63, 1, 256, had, 0, 0};
        pieces[3] = (struct piece){message, put_words(message, words, 8)};
        if ((nodes >> node & 1) != 0)
            check_call(&report, pieces, 0, RESTART_ACCEPTED);
    }
}

/* ---- Settings ---- */

static void words(void)
{
    static const uint32_t taken[] = {
        2,           CAP(2) + 2, CAP(3) + 2,       CAP(16) + 2, CAP(1) + 1,
        CAP(16) + 1, CAP(3) + 3, CAP(4) + 768 + 2, CAP(16) + 3, 768 + 1,
    };
    static const uint32_t refused[] = {
        CAP(1) + 2,       CAP(2) + 3,        CAP(17) + 1,
        CAP(17) + 2,      CAP(18) + 2,       CAP(255) + 2,
        CAP(256),         CAP(256 + 2),      CAP(4),
        CAP(256) + 2,     CAP(65535) + 2,    CAP(4) + 4,
        CAP(256 + 2) + 2, CAP(4) + 1024 + 2, CAP(16) + 65280 + 1,
        4294967295u,
    };
    for (size_t i = 0; i < COUNT(taken); i++) {
        put_settings(taken[i]);
        check_call(&check_settings, pieces, 0, RESTART_ACCEPTED);
    }
    for (size_t i = 0; i < COUNT(refused); i++) {
        reported(2, 63, 15);
        put_settings(refused[i]);
        check_call(&check_settings, pieces, 0, RESTART_WRONG_SETTINGS);
        check_call(&check_state, pieces, 0, RESTART_WRONG_SETTINGS);
        check_call(&report, pieces, 0, RESTART_WRONG_SETTINGS);
        check_call(&decide, pieces, 0, RESTART_WRONG_SETTINGS);
        check_call(&drop, pieces, 0, RESTART_WRONG_SETTINGS);
    }
}

/* ---- Plans ---- */

static void planned(uint32_t shard, uint32_t nodes, uint32_t had, uint32_t moves, uint32_t members)
{
    reported(shard, nodes, had);
    check_call(&decide, pieces, 0, PLAN);
    check_word("the moves", restart_get_word(state, RESTART_PLAN_MOVES), moves);
    check_word("the members", restart_get_word(state, RESTART_PLAN_MASKS), members);
    check_call(&check_state, pieces, 0, RESTART_ACCEPTED);
}

static void plans(void)
{
    planned(2, 63, 15, 0, 3);
    planned(CAP(2) + 2, 63, 15, 0, 3);
    planned(CAP(3) + 2, 63, 15, 0, 7);
    planned(CAP(4) + 2, 63, 15, 0, 15);
    planned(CAP(16) + 2, 63, 15, 0, 15);
    /* Node 1 is down; then 1 and 2 are, and a node of another set than that of 0 and 3 is needed. */
    planned(CAP(4) + 2, 61, 15, 0, 13);
    planned(CAP(4) + 2, 57, 15, 1, 25);
    planned(CAP(3) + 2, 57, 15, 1, 25);
    planned(CAP(2) + 2, 57, 15, 1, 17);
    /* All of one set: no cap makes up for it. */
    reported(CAP(16) + 2, 63, 15);
    for (size_t node = 0; node < 6; node++)
        restart_put_word(settings, 4 + node, 1);
    check_call(&decide, pieces, 0, WAIT_5);
}

/* An order to each machine of the plan of four names them, and carries the shard to them alone. */
static void orders(void)
{
    uint8_t buffer[RESTART_BUFFER_BYTES] = {0};
    planned(CAP(4) + 2, 63, 15, 0, 15);
    pieces[3] = (struct piece){buffer, sizeof buffer};
    for (uint32_t node = 0; node < 6; node++) {
        check_call(&order, pieces, node, 16777216 + (node < 4 ? 20 : 12));
        check_word("the shard's members", restart_get_word(buffer, 5), 15);
    }
    for (uint32_t node = 0; node < 6; node++)
        check_call(&fetched, pieces, node, RESTART_ACCEPTED);
    for (uint32_t node = 0; node < 6; node++)
        check_call(&prepared, pieces, node, RESTART_ACCEPTED);
    check_word("committed", restart_get_word(state, RESTART_PHASE), 3);
    check_call(&check_state, pieces, 0, RESTART_ACCEPTED);
}

/* ---- Sound states ---- */

/* Whether the plan is sound with these members, moves and settings; puts the old ones back. */
static void sound_with(uint32_t shard, uint32_t members, uint32_t moves, uint32_t expected)
{
    put_settings(shard);
    restart_put_word(state, RESTART_PLAN_MASKS, members);
    restart_put_word(state, RESTART_PLAN_MOVES, moves);
    check_call(&check_state, pieces, 0, expected);
    put_settings(CAP(4) + 2);
    restart_put_word(state, RESTART_PLAN_MASKS, 15);
    restart_put_word(state, RESTART_PLAN_MOVES, 0);
}

static void soundness(void)
{
    planned(CAP(4) + 2, 63, 15, 0, 15);
    /* Fewer stay, a later list, a set twice, more moves than the least: not asked. */
    sound_with(CAP(4) + 2, 3, 0, RESTART_ACCEPTED);
    sound_with(CAP(4) + 2, 6, 0, RESTART_ACCEPTED);
    sound_with(CAP(4) + 2, 13, 0, RESTART_ACCEPTED);
    sound_with(CAP(4) + 2, 49, 2, RESTART_ACCEPTED);
    sound_with(CAP(4) + 2, 48, 2, RESTART_ACCEPTED);
    /* One set, one member, none; five members, a machine that is not; a wrong total. */
    sound_with(CAP(4) + 2, 9, 0, RESTART_UNSOUND_STATE);
    sound_with(CAP(4) + 2, 1, 0, RESTART_UNSOUND_STATE);
    sound_with(CAP(4) + 2, 0, 0, RESTART_UNSOUND_STATE);
    sound_with(CAP(4) + 2, 31, 1, RESTART_UNSOUND_STATE);
    sound_with(CAP(4) + 2, 71, 1, RESTART_UNSOUND_STATE);
    sound_with(CAP(4) + 2, 49, 1, RESTART_UNSOUND_STATE);
    /* Other settings than those that it was planned with. */
    sound_with(CAP(5) + 2, 31, 1, RESTART_ACCEPTED);
    sound_with(CAP(16) + 3, 63, 2, RESTART_ACCEPTED);
    sound_with(CAP(3) + 2, 15, 0, RESTART_UNSOUND_STATE);
    sound_with(CAP(3) + 2, 13, 0, RESTART_ACCEPTED);
    sound_with(2, 15, 0, RESTART_UNSOUND_STATE);
    sound_with(2, 13, 0, RESTART_UNSOUND_STATE);
    sound_with(2, 12, 0, RESTART_ACCEPTED);
    sound_with(CAP(2) + 2, 12, 0, RESTART_ACCEPTED);
    check_call(&check_state, pieces, 0, RESTART_ACCEPTED);
}

int main(void)
{
    pieces[1] = (struct piece){state, sizeof state};
    pieces[2] = (struct piece){desk, sizeof desk};
    words();
    plans();
    orders();
    soundness();
    return summary();
}
