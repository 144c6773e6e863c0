/*
 * What a state remembers of each node: the greatest view that it has reported since the fresh
 * state. A report of a smaller view is refused with number 18, whatever happened in between. Which
 * words a sound state can have there, and states that an earlier release has saved, with zeros. All
 * memory lies between pages without access.
 */
#include "world.h"

#include <string.h>

#define COUNT(array) (sizeof(array) / sizeof((array)[0]))

static struct world world;
static uint8_t message[RESTART_MESSAGE_BYTES];
static struct piece pieces[MOST_PIECES];

static uint32_t remembered(uint32_t node)
{
    return restart_get_word(world.state, RESTART_LATEST_VIEWS + node);
}

static void remember(uint32_t node, uint32_t view)
{
    restart_put_word(world.state, RESTART_LATEST_VIEWS + node, view);
}

/* A report of case A, but of this view; nodes 1 and 4 have a run of that view. */
static void put_view(uint32_t node, uint32_t view)
{
    pieces[3] = (struct piece){message, put_report(message, node)};
    restart_put_word(message, 1, view);
    if (pieces[3].length > 64)
        restart_put_word(message, 17, view);
}

/* The report is answered so, and this is what is remembered of the node afterwards. */
static void reported(uint32_t node, uint32_t view, uint32_t answer, uint32_t latest)
{
    put_view(node, view);
    check_call(&report, pieces, 0, answer);
    check_word("remembered", remembered(node), latest);
}

static void dropped(uint32_t node)
{
    uint32_t latest = remembered(node);
    check_call(&drop, pieces, node, RESTART_ACCEPTED);
    check_word("remembered through a drop", remembered(node), latest);
}

/* ---- Reports one after another ---- */

static void views(void)
{
    world_fresh(&world);
    check_word("nothing is remembered", remembered(0), 0);
    reported(0, 7, RESTART_ACCEPTED, 7);
    reported(0, 6, 18, 7);
    reported(0, 7, RESTART_ACCEPTED, 7);
    reported(0, 9, RESTART_ACCEPTED, 9);
    reported(0, 8, 18, 9);
    reported(0, 1, 18, 9);
    /* Another node's views play no part. */
    reported(2, 6, RESTART_ACCEPTED, 6);
    reported(2, 5, 18, 6);
    reported(2, 7, RESTART_ACCEPTED, 7);
    reported(2, 6, 18, 7);
    check_word("remembered of the first", remembered(0), 9);
    /* Numbers 10 and 11 come first, and what is refused is not remembered. */
    put_view(3, 8);
    restart_put_word(message, 5, 0);
    check_call(&report, pieces, 0, 10);
    check_word("not remembered", remembered(3), 0);
    reported(3, 7, RESTART_ACCEPTED, 7);
    reported(1, 7, RESTART_ACCEPTED, 7);
    put_view(1, 6);
    restart_put_word(message, 18, 0);
    check_call(&report, pieces, 0, 11);
    reported(1, 6, 18, 7);
    /* A fresh state remembers nothing. */
    check_word("the fresh state", restart_fresh(RESTART_PLANNER, world.state, sizeof world.state),
               RESTART_ACCEPTED);
    reported(0, 6, RESTART_ACCEPTED, 6);
}

typedef void phase(struct world *);

/* A drop keeps what is remembered: of the node while gathering, of all where it gives up a plan. */
static void drops(void)
{
    static phase *const phases[] = {world_gathered, world_ordered, world_preparing};
    for (size_t i = 0; i < COUNT(phases); i++) {
        phases[i](&world);
        dropped(3);
        for (uint32_t node = 0; node < 6; node++)
            check_word("remembered of all", remembered(node), 7);
        check_word("nothing is remembered of the absent", remembered(6), 0);
        reported(3, 6, 18, 7);
        reported(0, 6, 18, 7);
        reported(3, 7, RESTART_ACCEPTED, 7);
        reported(6, 6, RESTART_ACCEPTED, 6);
    }
}

/* ---- Sound states ---- */

/* Whether the state is sound with this view in a node's place; puts the old one back. */
static void sound_with(uint32_t node, uint32_t view, uint32_t expected)
{
    uint32_t before = remembered(node);
    remember(node, view);
    check_call(&check_state, pieces, 0, expected);
    remember(node, before);
}

static void soundness(void)
{
    /* Node 2 is held with view 6, and view 7 is kept. */
    world_fresh(&world);
    reported(0, 7, RESTART_ACCEPTED, 7);
    reported(2, 6, RESTART_ACCEPTED, 6);
    sound_with(0, 6, 3);
    sound_with(0, 8, 3);
    sound_with(2, 0, 3);
    sound_with(2, 5, 3);
    sound_with(2, 7, RESTART_ACCEPTED);
    sound_with(2, 8, 3);
    /* Of a node that is not held any view, of a number that is no node's none. */
    sound_with(6, 4294967295, RESTART_ACCEPTED);
    sound_with(7, 1, 3);
    sound_with(31, 7, 3);
    sound_with(32, 1, 3);
    /* More than the slot has is believed: the same report is refused then. */
    remember(2, 7);
    reported(2, 6, 18, 7);
    reported(2, 7, RESTART_ACCEPTED, 7);
    remember(6, 4294967295);
    reported(6, 4294967294, 18, 4294967295);
    /* Also while no view is kept. */
    world_fresh(&world);
    remember(5, 9);
    check_call(&check_state, pieces, 0, RESTART_ACCEPTED);
    reported(5, 8, 18, 9);
    reported(5, 9, RESTART_ACCEPTED, 9);
}

/* ---- States that an earlier release has saved ---- */

static void forget_all(void)
{
    memset(world.state + 4 * RESTART_LATEST_VIEWS, 0, 4 * RESTART_NODES);
}

static void earlier_release(void)
{
    static phase *const phases[] = {world_gathered, world_ordered, world_preparing,
                                    world_committed};
    for (size_t i = 0; i < COUNT(phases); i++) {
        phases[i](&world);
        forget_all();
        check_call(&check_state, pieces, 0, 3);
        put_view(3, 7);
        check_call(&report, pieces, 0, 3);
        check_call(&drop, pieces, 3, 3);
        check_call(&decide, pieces, 0, 3);
        check_call(&fetched, pieces, 3, 3);
        check_call(&prepared, pieces, 3, 3);
        /* What is left to do: start fresh, and every machine reports again. The desk may stay. */
        check_word("the fresh state",
                   restart_fresh(RESTART_PLANNER, world.state, sizeof world.state),
                   RESTART_ACCEPTED);
        for (uint32_t node = 0; node < 6; node++)
            reported(node, 7, RESTART_ACCEPTED, 7);
        check_call(&decide, pieces, 0, 33554432);
    }
    /* Where nothing was held the state goes on, with nothing remembered. */
    world_gathered(&world);
    for (uint32_t node = 0; node < 6; node++)
        dropped(node);
    forget_all();
    check_call(&check_state, pieces, 0, RESTART_ACCEPTED);
    reported(0, 6, RESTART_ACCEPTED, 6);
}

int main(void)
{
    lend_world(pieces, &world);
    views();
    drops();
    soundness();
    earlier_release();
    return summary();
}
