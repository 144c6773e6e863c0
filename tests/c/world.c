#include "world.h"

#include <string.h>

static const uint32_t settings_words[14] = {7, 3, 4, 3, 0, 0, 1, 1, 1, 2, 2, 2, 3, 1};

size_t put_words(uint8_t *bytes, const uint32_t *words, size_t count)
{
    for (size_t i = 0; i < count; i++)
        restart_put_word(bytes, i, words[i]);
    return 4 * count;
}

/* Logs are empty but for shard 1, where node 1 has run (7, 5) and node 4 has (7, 4). */
size_t put_report(uint8_t *message, uint32_t node)
{
    const uint32_t words[20] = {
        node,
        7,
        127,
        1,
        256,
        5,
        0,
        2,
        257,
        82,
        0,
        3,
        258,
        32,
        0,
        node == 1 || node == 4 ? 4u : 0u,
        769,
        7,
        node == 1 ? 5u : 4u,
        0,
    };
    return put_words(message, words, node == 1 || node == 4 ? 20 : 16);
}

/* The desk's bytes may be any before the first report. */
void world_fresh(struct world *world)
{
    put_words(world->settings, settings_words, 14);
    memset(world->state, 0xEE, sizeof world->state);
    memset(world->desk, 0xEE, sizeof world->desk);
    check_word("the fresh state", restart_fresh(RESTART_PLANNER, world->state, sizeof world->state),
               RESTART_ACCEPTED);
}

#define LENT                                                                                       \
    RESTART_PLANNER, world->settings, sizeof world->settings, world->state, sizeof world->state,   \
        world->desk, sizeof world->desk

void world_gathered(struct world *world)
{
    uint8_t message[RESTART_MESSAGE_BYTES];
    world_fresh(world);
    for (uint32_t node = 0; node < 6; node++) {
        size_t length = put_report(message, node);
        check_word("a report of case A", restart_report(LENT, message, length), RESTART_ACCEPTED);
    }
}

void world_ready(struct world *world)
{
    uint8_t message[RESTART_MESSAGE_BYTES];
    world_gathered(world);
    size_t length = put_report(message, 6);
    check_word("the report of node 6", restart_report(LENT, message, length), RESTART_ACCEPTED);
}

void world_ordered(struct world *world)
{
    world_gathered(world);
    check_word("case A's decision", restart_decide(LENT), 33554432);
}

void world_preparing(struct world *world)
{
    world_ordered(world);
    for (uint32_t node = 0; node < 6; node++)
        check_word("fetched in case A", restart_fetched(LENT, node), RESTART_ACCEPTED);
}

void world_committed(struct world *world)
{
    world_preparing(world);
    for (uint32_t node = 0; node < 6; node++)
        check_word("prepared in case A", restart_prepared(LENT, node), RESTART_ACCEPTED);
}

void lend_world(struct piece *pieces, struct world *world)
{
    pieces[0].bytes = world->settings;
    pieces[0].length = sizeof world->settings;
    pieces[1].bytes = world->state;
    pieces[1].length = sizeof world->state;
    pieces[2].bytes = world->desk;
    pieces[2].length = sizeof world->desk;
}
