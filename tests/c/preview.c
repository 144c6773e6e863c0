/*
 * What decide would say without one held node, and the nodes whose loss means waiting: restarts with
 * every answer written out, among them one whose kept view or termination the node alone reported, a
 * cap, and 32 nodes. Each preview is compared with drop and decide on a copy, word for word; state
 * and desk are read-only and stay. All memory lies between pages without access.
 */
#include "room.h"

#include <string.h>

#define COUNT(array) (sizeof(array) / sizeof((array)[0]))
#define ONE (16777216u + 1)
#define PLAN 33554432u
#define WAIT(reason, value) (50331648u + 256 * (reason) + (value))

static struct room here, copy;

/* The answer and the buffer that drop and decide give on a copy, while gathering. */
static uint32_t by_events(struct room *room, uint32_t node, uint8_t *expected)
{
    struct piece pieces[MOST_PIECES];
    copy = *room;
    lend_room(pieces, &copy);
    uint32_t answer = call_between(&drop, pieces, node, 0);
    if (restart_is_refusal(answer))
        return answer;
    answer = call_between(&decide, pieces, 0, 0);
    memset(expected, 0, RESTART_BUFFER_BYTES);
    memcpy(expected, copy.state, sizeof copy.state);
    return answer;
}

/* A preview has this answer, and leaves what drop and decide leave in their copy; a refused one
 * leaves its buffer. */
static void check_preview(const char *what, struct room *room, uint32_t node, uint32_t answer)
{
    uint8_t buffer[RESTART_BUFFER_BYTES], expected[RESTART_BUFFER_BYTES];
    struct piece pieces[MOST_PIECES];
    struct room before = *room;
    memset(buffer, 0xEE, sizeof buffer);
    memset(expected, 0xEE, sizeof expected);
    if (restart_get_word(room->state, RESTART_PHASE) == RESTART_GATHERING)
        check_word(what, by_events(room, node, expected), answer);
    lend_room(pieces, room);
    pieces[3] = (struct piece){buffer, sizeof buffer};
    check_call(&preview, pieces, node, answer);
    check_bytes(what, buffer, expected, sizeof expected);
    check_bytes(what, room->state, before.state, sizeof before.state);
    check_bytes(what, room->desk, before.desk, sizeof before.desk);
}

/* The previews of the first nodes, and the mask, which has those that wait. */
static void check_all(const char *what, struct room *room, const uint32_t *answers, uint32_t count)
{
    uint8_t buffer[RESTART_BUFFER_BYTES], expected[RESTART_BUFFER_BYTES];
    struct piece pieces[MOST_PIECES];
    uint32_t mask = 0;
    for (uint32_t node = 0; node < count; node++) {
        check_preview(what, room, node, answers[node]);
        mask |= (uint32_t)restart_is_wait(answers[node]) << node;
    }
    memset(buffer, 0xEE, sizeof buffer);
    memset(expected, 0, sizeof expected);
    restart_put_word(expected, 0, mask);
    lend_room(pieces, room);
    pieces[3] = (struct piece){buffer, sizeof buffer};
    check_call(&preview_all, pieces, 0, ONE);
    check_bytes(what, buffer, expected, sizeof expected);
}

/* Words of the state that would follow. */
static void check_next(const char *what, struct room *room, uint32_t node, size_t first,
                       const uint32_t *words, size_t count)
{
    uint8_t buffer[RESTART_BUFFER_BYTES], expected[RESTART_STATE_BYTES];
    struct piece pieces[MOST_PIECES];
    lend_room(pieces, room);
    pieces[3] = (struct piece){buffer, sizeof buffer};
    call_between(&preview, pieces, node, 0);
    put_words(expected, words, count);
    check_bytes(what, buffer + 4 * first, expected, 4 * count);
}

/* ---- Case A's settings: view 7 with masks 5, 82, 32 ---- */

static const uint32_t settings_a[14] = {7, 3, 4, 3, 0, 0, 1, 1, 1, 2, 2, 2, 3, 1};
static const uint32_t masks_a[3] = {5, 82, 32};
static const uint32_t position_a[6] = {0, 0, 7, 5, 0, 0};

/* A node's report of case A: node 1 has run (7, 5) of shard 1, node 4 has (7, 4). */
static struct told of_case_a(uint32_t node)
{
    struct told told = {node, 7, 127, masks_a, NULL, {{1, 7, 5}}};
    if (node != 1 && node != 4)
        told.runs[0].count = 0;
    if (node == 4)
        told.runs[0].count = 4;
    return told;
}

static void reported(struct room *room, uint32_t nodes)
{
    begin(room, settings_a, 14);
    for (uint32_t node = 0; node < 7; node++) {
        struct told told = of_case_a(node);
        if (nodes >> node & 1)
            take(room, &told);
    }
}

/* All seven: 5 alone has shard 2's log. Without 6 it is case A, whose plan is view 8 with members
 * 63, masks 5, 50, 8 and two moves. */
static void all_seven(void)
{
    static const uint32_t answers[9] = {PLAN, PLAN, PLAN, PLAN, PLAN, WAIT(4, 2), PLAN, 6, 6};
    static const uint32_t plan[6] = {8, 63, 2, 5, 50, 8};
    static const uint32_t holders[3] = {0, 1, 5};
    reported(&here, 127);
    check_all("all seven", &here, answers, 9);
    check_preview("a node from N up", &here, 31, 6);
    check_preview("no node at all", &here, 32, 6);
    check_preview("the greatest word", &here, 4294967295u, 6);
    check_next("case A's plan", &here, 6, RESTART_PLAN_VIEW, plan, 6);
    check_next("its holders", &here, 6, RESTART_PLAN_HOLDERS, holders, 3);
    check_next("its targets", &here, 6, RESTART_PLAN_TARGETS, position_a, 6);
}

/* Case A itself: every node has its place. */
static void case_a(void)
{
    static const uint32_t answers[8] = {WAIT(5, 0), WAIT(5, 0), WAIT(5, 0), WAIT(5, 0),
                                        WAIT(5, 0), WAIT(4, 2), 14,         6};
    reported(&here, 63);
    check_all("case A", &here, answers, 8);
}

/* A machine that reported an older view fills a place. */
static void stale(void)
{
    static const uint32_t answers[7] = {PLAN, PLAN, PLAN, PLAN, PLAN, WAIT(4, 2), PLAN};
    struct told told = of_case_a(6);
    told.view = 6;
    reported(&here, 63);
    take(&here, &told);
    check_all("a stale machine", &here, answers, 7);
}

/* Node 4's log ends at (7, 4), before the termination's (7, 5), which remains though 6 alone
 * reported it. */
static void terminated(void)
{
    static const uint32_t answers[7] = {PLAN, WAIT(4, 1), PLAN, PLAN, PLAN, WAIT(4, 2), PLAN};
    static const uint32_t kept[1] = {1};
    struct told told = of_case_a(6);
    told.positions = position_a;
    reported(&here, 63);
    take(&here, &told);
    check_all("a termination", &here, answers, 7);
    check_next("it remains", &here, 6, RESTART_KEPT_TERMINATION, kept, 1);
    check_next("its positions", &here, 6, RESTART_TERMINATION, position_a, 6);
    check_next("its targets", &here, 6, RESTART_PLAN_TARGETS, position_a, 6);
}

/* The termination (7, 3) that 1 alone reported: without 1 node 4 is the holder, up to (7, 3) and not
 * to its own end. */
static void own_termination(void)
{
    static const uint32_t position[6] = {0, 0, 7, 3, 0, 0};
    static const uint32_t holders[3] = {0, 4, 5};
    static const uint32_t answers[7] = {PLAN, PLAN, PLAN, PLAN, PLAN, WAIT(4, 2), PLAN};
    struct told told = of_case_a(1);
    told.positions = position;
    reported(&here, 125);
    take(&here, &told);
    check_all("a termination of the node itself", &here, answers, 7);
    check_next("the next holder", &here, 1, RESTART_PLAN_HOLDERS, holders, 3);
    check_next("up to the termination", &here, 1, RESTART_PLAN_TARGETS, position, 6);
}

static void alone(void)
{
    static const uint32_t one[7] = {14, 14, 14, WAIT(2, 0), 14, 14, 14};
    static const uint32_t nobody[8] = {14, 14, 14, 14, 14, 14, 14, 6};
    begin(&here, settings_a, 14);
    check_all("fresh", &here, nobody, 8);
    reported(&here, 8);
    check_all("one alone", &here, one, 7);
    call_in(&here, &drop, 3, RESTART_ACCEPTED);
    check_all("nobody any more", &here, nobody, 8);
}

/* View 8 stays kept though 5 alone reported it, and is remembered of 5. */
static void own_view(void)
{
    static const uint32_t answers[7] = {WAIT(4, 0), WAIT(4, 0), WAIT(4, 0), WAIT(4, 0),
                                        WAIT(4, 0), WAIT(4, 0), WAIT(4, 0)};
    static const uint32_t eight[1] = {8};
    struct told told = of_case_a(5);
    told.view = 8;
    reported(&here, 127);
    take(&here, &told);
    check_all("a view of the node itself", &here, answers, 7);
    check_next("it is kept", &here, 5, RESTART_KEPT_VIEW, eight, 1);
    check_next("it is remembered", &here, 5, RESTART_LATEST_VIEWS + 5, eight, 1);
}

/* Each reason: no majority, fewer than the least group, no log, no placement. */
static void reasons(void)
{
    static const uint32_t majority[7] = {WAIT(2, 0), WAIT(2, 0), 14, 14,
                                         WAIT(2, 0), WAIT(2, 0), 14};
    static const uint32_t least[7] = {WAIT(3, 0), WAIT(3, 0), WAIT(3, 0), WAIT(3, 0),
                                      WAIT(3, 0), WAIT(3, 0), WAIT(3, 0)};
    reported(&here, 51);
    check_all("four of seven", &here, majority, 7);
    reported(&here, 127);
    restart_put_word(here.settings, 2, 7);
    check_all("a least group of seven", &here, least, 7);
}

/* In every other phase number 4, whatever the node; an unsound state is number 3 before it. */
static void other_phases(void)
{
    static const struct entry *const marks[] = {&fetched, &prepared};
    reported(&here, 63);
    call_in(&here, &decide, 0, PLAN);
    for (size_t i = 0; i < COUNT(marks); i++)
        for (uint32_t node = 0; node < 6; node++) {
            check_preview("another phase", &here, node, 4);
            call_in(&here, marks[i], node, RESTART_ACCEPTED);
        }
    check_preview("committed", &here, 0, 4);
    check_preview("committed, not held", &here, 6, 4);
    check_preview("committed, no node", &here, 7, 4);
    restart_put_word(here.state, RESTART_PLAN_MOVES, 3);
    check_preview("unsound", &here, 7, 3);
}

/* ---- Other settings ---- */

/* A cap of 4 keeps nodes 1, 2 and 3 where 0 goes; without it 1 and 2 are enough. */
static void capped(void)
{
    static const uint32_t mask = 15;
    static const uint32_t answers[7] = {PLAN, PLAN, PLAN, PLAN, PLAN, PLAN, 6};
    for (uint32_t cap = 0; cap <= 4; cap += 4) {
        const uint32_t words[11] = {6, 3, 3, 1, 0, 0, 1, 1, 2, 2, cap * 65536 + 2};
        const uint32_t plan[4] = {8, 62, 0, cap == 4 ? 14u : 6u};
        begin(&here, words, 11);
        for (uint32_t node = 0; node < 6; node++) {
            struct told told = {node, 7, 63, &mask, NULL, {{0, 0, 0}}};
            take(&here, &told);
        }
        check_all("a cap", &here, answers, 7);
        check_next("who stays", &here, 0, RESTART_PLAN_VIEW, plan, 4);
    }
}

/* Three nodes in two sets, a shard in subgroup 1 and one in subgroup 3, each of both sets: node 0 is
 * its set alone, and the lower subgroup is told. */
static void subgroups(void)
{
    static const uint32_t words[9] = {3, 2, 1, 2, 0, 1, 1, 256 + 2, 3 * 256 + 2};
    static const uint32_t masks[2] = {6, 5};
    static const uint32_t answers[4] = {WAIT(5, 1), PLAN, PLAN, 6};
    begin(&here, words, 9);
    for (uint32_t node = 0; node < 3; node++) {
        struct told told = {node, 7, 7, masks, NULL, {{0, 0, 0}}};
        take(&here, &told);
    }
    check_all("a set of one node", &here, answers, 4);
}

/* 32 nodes of 16 sets in pairs, two shards that take one node of each set: with needs of 16 and 15
 * everybody may go, with twice 16 nobody. */
static void thirty_two(void)
{
    static const uint32_t masks[2] = {0x55555555, 0xAAAAAAAA};
    uint32_t words[38] = {32, 16, 1, 2}, may[32], must[32];
    for (uint32_t node = 0; node < 32; node++) {
        words[4 + node] = node / 2;
        may[node] = PLAN;
        must[node] = WAIT(5, 0);
    }
    for (uint32_t need = 15; need <= 16; need++) {
        words[36] = 16;
        words[37] = need;
        begin(&here, words, 38);
        for (uint32_t node = 0; node < 32; node++) {
            struct told told = {node, 7, UINT32_MAX, masks, NULL, {{0, 0, 0}}};
            take(&here, &told);
        }
        check_all("32 nodes", &here, need == 15 ? may : must, 32);
        check_preview("a node more", &here, 32, 6);
    }
}

int main(void)
{
    all_seven();
    case_a();
    stale();
    terminated();
    own_termination();
    alone();
    own_view();
    reasons();
    other_phases();
    capped();
    subgroups();
    thirty_two();
    return summary();
}
