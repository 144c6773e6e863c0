/*
 * Roles: every call that takes one with every kind of role word. The planner may make every call and
 * read the pages 0 to 3, a watcher of subgroup g may read page g and nothing else, and every other
 * word is nobody's. Whoever may not gets number 15, after 1 and 2 and before 3, whatever state and
 * desk hold, and no byte changes. All memory lies between pages without access.
 */
#include "world.h"

#include <string.h>

#define COUNT(array) (sizeof(array) / sizeof((array)[0]))
#define NOBODY 4u /* the subgroup of a word that is no watcher's */

static struct world world, before;
static uint8_t message[RESTART_MESSAGE_BYTES], buffer[RESTART_BUFFER_BYTES];
static struct piece pieces[MOST_PIECES];

/* A role word, whether it is the planner's, and the subgroup that it watches. */
struct role {
    uint32_t word;
    int planner;
    uint32_t watched;
};

static const struct role roles[] = {
    {256, 1, NOBODY},
    {513, 0, 1},
    {0, 0, NOBODY},
    {512, 0, 0},
    {514, 0, 2},
    {515, 0, 3},
    {516, 0, NOBODY},
    {1, 0, NOBODY},
    {2, 0, NOBODY},
    {255, 0, NOBODY},
    {257, 0, NOBODY},
    {511, 0, NOBODY},
    {767, 0, NOBODY},
    {768, 0, NOBODY},
    {65792, 0, NOBODY},
    {66048, 0, NOBODY},
    {131072, 0, NOBODY},
    {2147483904u, 0, NOBODY},
    {4294967040u, 0, NOBODY},
    {4294967295u, 0, NOBODY},
};
enum { CLIMBING = 3 }; /* these also climb through the rows */

typedef void phase(struct world *);

/* A call that the planner is answered so, in a phase of case A. */
struct row {
    const struct entry *entry;
    phase *phase;
    uint32_t node;
    uint32_t accepted;
};

static const struct row rows[] = {
    {&fresh, world_gathered, 0, RESTART_ACCEPTED},
    {&check_state, world_gathered, 0, RESTART_ACCEPTED},
    {&report, world_gathered, 0, RESTART_ACCEPTED},
    {&drop, world_gathered, 3, RESTART_ACCEPTED},
    {&decide, world_gathered, 0, 33554432},
    {&decide_within, world_gathered, 0, 33554432 + 2},
    {&order, world_ordered, 4, 16777216 + 36},
    {&fetched, world_ordered, 3, RESTART_ACCEPTED},
    {&prepared, world_preparing, 3, RESTART_ACCEPTED},
    {&preview, world_gathered, 3, 50331648 + 256 * 5},
    {&preview_all, world_gathered, 0, 16777216 + 1},
    {&game, world_ready, 127, 83886080 + 256 + 5},
};

/* Lends a call what it takes: the state alone, or settings, state, desk and what comes after. */
static void lend(const struct entry *entry)
{
    world = before;
    memset(buffer, 0xEE, sizeof buffer);
    if (entry == &fresh) {
        pieces[0] = (struct piece){world.state, sizeof world.state};
        return;
    }
    lend_world(pieces, &world);
    pieces[3] = (struct piece){buffer, sizeof buffer};
    if (entry == &report)
        pieces[3] = (struct piece){message, put_report(message, 4)};
}

/* The call by this role, which may make it or not. */
static void called(const struct entry *entry, uint32_t node, const struct role *role, int allowed,
                   uint32_t accepted)
{
    caller = role->word;
    lend(entry);
    check_call(entry, pieces, node, allowed ? accepted : 15);
    caller = RESTART_PLANNER;
}

/* The same with everything wrong at once, mended row by row; last with states that are none. */
static void climbed(const struct entry *entry, uint32_t node, const struct role *role, int allowed)
{
    size_t state = entry == &fresh ? 0 : 1;
    caller = role->word;
    lend(entry);
    if (entry != &fresh) {
        restart_put_word(world.state, RESTART_STATE_ZEROS, 1);
        restart_put_word(world.settings, 3, 17);
        pieces[2].length--;
        check_call(entry, pieces, node, 1);
        pieces[2].length++;
        check_call(entry, pieces, node, 2);
        restart_put_word(world.settings, 3, 3);
        check_call(entry, pieces, node, allowed ? 3 : 15);
        memset(world.desk, 0xFF, sizeof world.desk);
        check_call(entry, pieces, node, allowed ? 3 : 15);
    }
    pieces[state].length = 639;
    check_call(entry, pieces, node, allowed ? 3 : 15);
    pieces[state].length = 0;
    check_call(entry, pieces, node, allowed ? 3 : 15);
    caller = RESTART_PLANNER;
}

static void events(void)
{
    for (size_t i = 0; i < COUNT(rows); i++) {
        rows[i].phase(&before);
        for (size_t k = 0; k < COUNT(roles); k++)
            called(rows[i].entry, rows[i].node, &roles[k], roles[k].planner, rows[i].accepted);
        for (size_t k = 0; k < CLIMBING; k++)
            climbed(rows[i].entry, rows[i].node, &roles[k], roles[k].planner);
    }
    check_word("every call that takes a role", COUNT(rows) + 1, ENTRIES - FIRST_ROLE);
    for (size_t i = 0; i < COUNT(rows); i++)
        check_word("is here", entries[FIRST_ROLE + i] == rows[i].entry, 1);
}

static int may_read(const struct role *role, uint32_t subgroup)
{
    return subgroup < 4 && (role->planner || role->watched == subgroup);
}

static void pages(void)
{
    static const uint32_t subgroups[] = {0, 1, 2, 3, 4, 255, 256, 4294967295u};
    static phase *const phases[] = {world_gathered, world_committed};
    for (size_t i = 0; i < COUNT(phases); i++) {
        phases[i](&before);
        for (size_t k = 0; k < COUNT(roles); k++)
            for (size_t j = 0; j < COUNT(subgroups); j++)
                called(&page, subgroups[j], &roles[k], may_read(&roles[k], subgroups[j]),
                       16777216 + 72);
        for (size_t k = 0; k < CLIMBING; k++)
            for (uint32_t subgroup = 0; subgroup < 5; subgroup++)
                climbed(&page, subgroup, &roles[k], may_read(&roles[k], subgroup));
    }
}

int main(void)
{
    events();
    pages();
    return summary();
}
