/*
 * Cuts, as they stand in orders: the end of what a node's log and the holder's, up to the target,
 * share from their beginning. Cases G, H, J and others, each
 * written out by hand, and every pair of small logs, by going through both update by update.
 */
#include "world.h"

#include <string.h>

#define COUNT(array) (sizeof(array) / sizeof((array)[0]))

enum { KEPT = 9, MOST_RUNS = 3 };
#define ALMOST (UINT32_MAX - 1)

struct position {
    uint32_t view, k;
};

/* A log run by run, view and count; zeros after the last. */
struct log {
    struct position runs[MOST_RUNS];
};

static int same(struct position one, struct position other)
{
    return one.view == other.view && one.k == other.k;
}

static int after(struct position one, struct position other)
{
    return one.view > other.view || (one.view == other.view && one.k > other.k);
}

static struct position end_of(const struct log *log)
{
    struct position end = {0, 0};
    for (size_t i = 0; i < MOST_RUNS && log->runs[i].view != 0; i++)
        end = log->runs[i];
    return end;
}

/* ---- Two nodes and their reports ---- */

/*
 * Two nodes in two failure sets, and three shards in three subgroups, each of which needs both. In
 * the kept view all shards are on node 0 alone: its logs are taken, and node 1 moves in.
 */
static const uint32_t settings_words[] = {2, 2, 1, 3, 0, 1, 2, 256 + 2, 512 + 2};

static uint8_t settings[sizeof settings_words], state[RESTART_STATE_BYTES];
static uint8_t desk[RESTART_DESK_BYTES];

#define LENT RESTART_PLANNER, settings, sizeof settings, state, sizeof state, desk, sizeof desk

struct message {
    uint8_t bytes[RESTART_MESSAGE_BYTES];
    uint32_t records;
};

/* Adds a record that names the next one. */
static void add(struct message *message, uint32_t word0, uint32_t word1, uint32_t word2)
{
    const uint32_t words[4] = {word0, word1, word2, message->records + 1};
    put_words(message->bytes + 16 * (size_t)message->records, words, 4);
    message->records++;
}

static void add_log(struct message *message, uint32_t shard, const struct log *log)
{
    for (size_t i = 0; i < MOST_RUNS && log->runs[i].view != 0; i++)
        add(message, RESTART_KIND_RUN * 256 + shard, log->runs[i].view, log->runs[i].k);
}

/* A node's report with this log of shard 1, beside other logs of shards 0 and 2, and where there is
 * a target with a termination that ends shard 1 there. */
static void take_report(uint32_t node, uint32_t view, const struct log *log,
                        const struct position *target)
{
    static const struct log others[2][2] = {{{{{1, 1}, {2, 3}}}, {{{3, 1}}}},
                                            {{{{0, 0}}}, {{{4, 2}, {5, 1}}}}};
    struct message message = {{0}, 0};
    add(&message, node, view, 3);
    for (uint32_t shard = 0; shard < 3; shard++)
        add(&message, RESTART_KIND_MEMBERS * 256 + shard, 1, 0);
    for (uint32_t shard = 0; shard < 3 && target != NULL; shard++)
        add(&message, RESTART_KIND_TERMINATION * 256 + shard, shard == 1 ? target->view : 0,
            shard == 1 ? target->k : 0);
    add_log(&message, 0, &others[node][0]);
    add_log(&message, 1, log);
    add_log(&message, 2, &others[node][1]);
    restart_put_word(message.bytes, 4 * (size_t)message.records - 1, 0);
    check_word("a report", restart_report(LENT, message.bytes, 16 * (size_t)message.records),
               RESTART_ACCEPTED);
}

/* The position of shard 1 in an order's contents, by its kind. */
static struct position position_in(const uint8_t *contents, uint32_t length, uint32_t kind)
{
    struct position found = {UINT32_MAX, UINT32_MAX};
    for (size_t at = 3; at < length; at += 3)
        if (restart_get_word(contents, at) == kind * 256 + 1)
            found = (struct position){restart_get_word(contents, at + 1),
                                      restart_get_word(contents, at + 2)};
    return found;
}

static void check_position(const char *what, struct position found, struct position expected)
{
    check_word(what, found.view, expected.view);
    check_word(what, found.k, expected.k);
}

/* Checks node 1's cut of shard 1 where node 0 is the holder; a target before the holder's end comes
 * from a termination. */
static void check_cut(const char *what, const struct log *holder, struct position target,
                      uint32_t view, const struct log *node, struct position cut)
{
    uint8_t buffer[RESTART_BUFFER_BYTES], contents[RESTART_CONTENTS_BYTES];
    put_words(settings, settings_words, COUNT(settings_words));
    check_word("the fresh state", restart_fresh(RESTART_PLANNER, state, sizeof state),
               RESTART_ACCEPTED);
    take_report(0, KEPT, holder, same(target, end_of(holder)) ? NULL : &target);
    take_report(1, view, node, NULL);
    check_word("a plan", restart_decide(LENT), 33554432);
    uint32_t order = restart_order(LENT, 1, buffer, sizeof buffer);
    uint32_t read =
        restart_read_order(settings, sizeof settings, buffer, 4 * (size_t)restart_length_of(order),
                           contents, sizeof contents);
    uint32_t length = restart_length_of(read);
    check_position("the target", position_in(contents, length, RESTART_KIND_TERMINATION), target);
    check_position(what, position_in(contents, length, RESTART_KIND_CUT), cut);
}

/* ---- Written out ---- */

struct row {
    const char *what;
    struct log holder;
    struct position target;
    uint32_t view; /* that node 1 reports */
    struct log node;
    struct position cut;
};

static const struct row rows[] = {
    {"G: a stale end", {{{5, 3}, {6, 8}}}, {6, 8}, 6, {{{5, 3}, {6, 9}}}, {6, 8}},
    {"H: the holder is in a later view", {{{5, 3}, {7, 2}}}, {7, 2}, 6, {{{5, 3}, {6, 9}}}, {5, 3}},
    {"H: within the holder's run", {{{5, 3}, {7, 2}}}, {7, 2}, 6, {{{5, 2}}}, {5, 2}},
    {"H: an empty log", {{{5, 3}, {7, 2}}}, {7, 2}, 6, {{{0, 0}}}, {0, 0}},
    {"J: older views disagree", {{{5, 3}, {6, 2}}}, {6, 2}, 6, {{{5, 2}, {6, 2}}}, {5, 2}},
    {"J the other way", {{{5, 2}, {6, 2}}}, {6, 2}, 6, {{{5, 3}, {6, 2}}}, {5, 2}},
    {"J under the kept view", {{{5, 3}, {6, 2}}}, {6, 2}, KEPT, {{{5, 2}, {6, 2}}}, {5, 2}},
    {"only the last view", {{{5, 3}, {6, 8}}}, {6, 8}, 6, {{{6, 9}}}, {0, 0}},
    {"a first view that is not the holder's", {{{5, 3}}}, {5, 3}, 6, {{{4, 1}, {5, 3}}}, {0, 0}},
    {"a first view that is the holder's alone", {{{4, 1}, {5, 3}}}, {5, 3}, 6, {{{5, 3}}}, {0, 0}},
    {"a view between", {{{4, 1}, {5, 3}, {6, 1}}}, {6, 1}, 6, {{{4, 1}, {6, 1}}}, {4, 1}},
    {"the same logs", {{{4, 1}, {5, 3}, {6, 1}}}, {6, 1}, 6, {{{4, 1}, {5, 3}, {6, 1}}}, {6, 1}},
    {"a longer holder", {{{4, 1}, {5, 3}, {6, 1}}}, {6, 1}, 6, {{{4, 1}, {5, 3}}}, {5, 3}},
    {"a longer node", {{{4, 1}, {5, 3}}}, {5, 3}, 6, {{{4, 1}, {5, 3}, {6, 1}}}, {5, 3}},
    {"an empty holder", {{{0, 0}}}, {0, 0}, 6, {{{5, 3}}}, {0, 0}},
    {"two empty logs", {{{0, 0}}}, {0, 0}, 6, {{{0, 0}}}, {0, 0}},
    {"a target inside a run, before it", {{{6, 8}}}, {6, 5}, 6, {{{6, 4}}}, {6, 4}},
    {"a target inside a run, at it", {{{6, 8}}}, {6, 5}, 6, {{{6, 5}}}, {6, 5}},
    {"a target inside a run, past it", {{{6, 8}}}, {6, 5}, 6, {{{6, 6}}}, {6, 5}},
    {"a target below later runs", {{{5, 3}, {6, 8}}}, {5, 2}, 6, {{{5, 3}, {6, 8}}}, {5, 2}},
    {"a target at a run's end", {{{5, 3}, {6, 8}}}, {5, 3}, 6, {{{5, 3}, {6, 8}}}, {5, 3}},
    {"a target before all", {{{5, 3}}}, {0, 0}, 6, {{{5, 3}}}, {0, 0}},
    {"counts near their limit",
     {{{5, ALMOST}, {6, 1}}},
     {6, 1},
     6,
     {{{5, UINT32_MAX}, {6, 1}}},
     {5, ALMOST}},
};

/* ---- Every pair of small logs ---- */

/* A log by its number: counts 0 to 2 in views 1 and 2. */
static struct log small_log(unsigned number)
{
    struct log log = {{{0, 0}}};
    const uint32_t counts[2] = {number % 3, number / 3};
    size_t at = 0;
    for (uint32_t view = 1; view <= 2; view++)
        if (counts[view - 1] != 0)
            log.runs[at++] = (struct position){view, counts[view - 1]};
    return log;
}

/* The update with this index, counted from 0; (0, 0) after the last. */
static struct position update(const struct log *log, uint32_t index)
{
    for (size_t i = 0; i < MOST_RUNS && log->runs[i].view != 0; i++) {
        if (index < log->runs[i].k)
            return (struct position){log->runs[i].view, index + 1};
        index -= log->runs[i].k;
    }
    return (struct position){0, 0};
}

static struct position shared(const struct log *node, const struct log *holder,
                              struct position target)
{
    struct position end = {0, 0};
    for (uint32_t index = 0;; index++) {
        struct position one = update(node, index);
        if (one.view == 0 || !same(one, update(holder, index)) || after(one, target))
            return end;
        end = one;
    }
}

static void small_logs(void)
{
    for (unsigned pair = 0; pair < 81; pair++) {
        struct log holder = small_log(pair / 9), node = small_log(pair % 9);
        struct position target = {0, 0};
        for (uint32_t index = 0;; index++) {
            check_cut("small logs", &holder, target, KEPT, &node, shared(&node, &holder, target));
            target = update(&holder, index);
            if (target.view == 0)
                break;
        }
    }
}

int main(void)
{
    for (size_t i = 0; i < COUNT(rows); i++)
        check_cut(rows[i].what, &rows[i].holder, rows[i].target, rows[i].view, &rows[i].node,
                  rows[i].cut);
    small_logs();
    return summary();
}
