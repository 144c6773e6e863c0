/*
 * Every entry point with each of its pieces against the page before it and against the page after
 * it, in every combination, accepted and refused: the answer and what is written are the same
 * wherever the memory lies, and nothing outside is touched.
 */
#include "world.h"

#include <stdio.h>
#include <stdlib.h>
#include <string.h>
#include <sys/wait.h>
#include <unistd.h>

static uint8_t before[MOST_PIECES][RESTART_DESK_BYTES];
static uint8_t after[MOST_PIECES][RESTART_DESK_BYTES];

static void copy(uint8_t (*to)[RESTART_DESK_BYTES], const struct piece *pieces, unsigned count)
{
    for (unsigned i = 0; i < count; i++)
        memcpy(to[i], pieces[i].bytes, pieces[i].length);
}

static void copy_back(const struct piece *pieces, uint8_t (*from)[RESTART_DESK_BYTES],
                      unsigned count)
{
    for (unsigned i = 0; i < count; i++)
        memcpy(pieces[i].bytes, from[i], pieces[i].length);
}

static void everywhere(const struct entry *entry, const struct piece *pieces, uint32_t node,
                       uint32_t expected)
{
    copy(before, pieces, entry->pieces);
    for (unsigned last = 0; last < 1u << entry->pieces; last++) {
        copy_back(pieces, before, entry->pieces);
        check_word(entry->name, call_between(entry, pieces, node, last), expected);
        if (last == 0)
            copy(after, pieces, entry->pieces);
        for (unsigned i = 0; i < entry->pieces; i++)
            check_bytes(entry->name, pieces[i].bytes, after[i], pieces[i].length);
    }
    copy_back(pieces, before, entry->pieces);
}

/* The call as it is, and refused because of its settings. */
static void both(const struct entry *entry, const struct piece *pieces, uint32_t node,
                 uint32_t expected)
{
    everywhere(entry, pieces, node, expected);
    uint32_t nodes = restart_get_word(pieces[0].bytes, 0);
    restart_put_word(pieces[0].bytes, 0, 33);
    everywhere(entry, pieces, node, 2);
    restart_put_word(pieces[0].bytes, 0, nodes);
}

/* And refused because of the role. */
static void with_role(const struct entry *entry, const struct piece *pieces, uint32_t node,
                      uint32_t expected)
{
    both(entry, pieces, node, expected);
    caller = restart_watcher(3);
    everywhere(entry, pieces, node, RESTART_NOT_ALLOWED);
    caller = RESTART_PLANNER;
}

static void messages(struct world *world)
{
    static const uint32_t contents_words[] = {4, 7,   127, 256, 5,   0, 257, 82,
                                              0, 258, 32,  0,   769, 7, 4};
    static const uint32_t order_words[] = {6, 8,   127, 256, 5,   0, 257, 50,  0, 258, 8,
                                           0, 512, 0,   0,   513, 7, 5,   514, 0, 0};
    static const uint32_t flat_words[] = {4, 7, 127, 3, 5, 82, 32, 0, 1, 1, 7, 4};
    uint8_t input[RESTART_MESSAGE_BYTES], buffer[RESTART_BUFFER_BYTES];
    struct piece pieces[MOST_PIECES] = {
        {world->settings, sizeof world->settings}, {input, 0}, {buffer, sizeof buffer}};
    memset(buffer, 0xEE, sizeof buffer);
    world_fresh(world);
    both(&check_settings, pieces, 0, RESTART_ACCEPTED);
    pieces[1].length = put_report(input, 4);
    both(&read_report, pieces, 0, 16777216 + 15);
    both(&to_flat, pieces, 0, 16777216 + 12);
    pieces[1].length = put_words(input, flat_words, sizeof flat_words / 4);
    both(&from_flat, pieces, 0, 16777216 + 20);
    pieces[1].length = put_words(input, contents_words, sizeof contents_words / 4);
    both(&write_report, pieces, 0, 16777216 + 20);
    pieces[1].length = put_words(input, order_words, sizeof order_words / 4);
    both(&write_order, pieces, 0, 16777216 + 28);
    check_word("an order to read", call_between(&write_order, pieces, 0, 0), 16777216 + 28);
    memcpy(input, buffer, 4 * 28);
    pieces[1].length = 4 * 28;
    both(&read_order, pieces, 0, 16777216 + 21);
}

static void events(struct world *world)
{
    uint8_t message[RESTART_MESSAGE_BYTES], buffer[RESTART_BUFFER_BYTES];
    struct piece pieces[MOST_PIECES];
    struct piece state = {world->state, sizeof world->state};
    memset(buffer, 0xEE, sizeof buffer);
    lend_world(pieces, world);
    world_gathered(world);
    everywhere(&fresh, &state, 0, RESTART_ACCEPTED);
    caller = restart_watcher(3);
    everywhere(&fresh, &state, 0, RESTART_NOT_ALLOWED);
    caller = RESTART_PLANNER;
    with_role(&check_state, pieces, 0, RESTART_ACCEPTED);
    pieces[3].bytes = message;
    pieces[3].length = put_report(message, 4);
    with_role(&report, pieces, 0, RESTART_ACCEPTED);
    with_role(&drop, pieces, 5, RESTART_ACCEPTED);
    with_role(&decide, pieces, 0, 33554432);
    with_role(&decide_within, pieces, 0, 33554432 + 2);
    pieces[3].bytes = buffer;
    pieces[3].length = sizeof buffer;
    with_role(&preview, pieces, 5, 50331648 + 256 * 4 + 2);
    with_role(&preview_all, pieces, 0, 16777216 + 1);
    world_ready(world);
    with_role(&game, pieces, 127, 83886080 + 256 + 5);
    world_ordered(world);
    with_role(&order, pieces, 5, 16777216 + 36);
    with_role(&page, pieces, 0, 16777216 + 72);
    with_role(&fetched, pieces, 5, RESTART_ACCEPTED);
    world_preparing(world);
    with_role(&prepared, pieces, 5, RESTART_ACCEPTED);
}

/* ---- The guards themselves: calls that touch what was not lent must end the program ---- */

static uint32_t reads_before(const struct piece *pieces, uint32_t node)
{
    return *(volatile uint8_t *)(pieces[0].bytes - 1) + node;
}

static uint32_t reads_after(const struct piece *pieces, uint32_t node)
{
    return *(volatile uint8_t *)(pieces[0].bytes + pieces[0].length) + node;
}

static uint32_t writes(const struct piece *pieces, uint32_t node)
{
    *(volatile uint8_t *)pieces[0].bytes = (uint8_t)node;
    return 0;
}

static void must_end(const struct entry *entry, unsigned last)
{
    uint8_t bytes[4] = {0, 0, 0, 0};
    struct piece piece = {bytes, sizeof bytes};
    int status = 0;
    fflush(stdout);
    pid_t child = fork();
    if (child == 0) {
        if (freopen("/dev/null", "w", stdout) != NULL)
            call_between(entry, &piece, 0, last);
        _exit(0);
    }
    if (child < 0 || waitpid(child, &status, 0) != child) {
        perror("fork");
        exit(1);
    }
    check_word(entry->name, WIFEXITED(status) && WEXITSTATUS(status) == 0, 0);
}

static void guards(void)
{
    static const struct entry before_it = {"reading before a piece", 1, 0, reads_before};
    static const struct entry after_it = {"reading after a piece", 1, 0, reads_after};
    static const struct entry into_it = {"writing to a piece that is only read", 1, 0, writes};
    must_end(&before_it, 0);
    must_end(&after_it, 1);
    must_end(&into_it, 0);
}

int main(void)
{
    static struct world world;
    guards();
    messages(&world);
    events(&world);
    return summary();
}
