/*
 * Every entry point through the header's declaration, on case A: answers and words
 * are written out by hand. Compiled as C and as C++.
 */
#include "world.h"

#include <string.h>

/* ---- The header's constants and small functions ---- */

static void sizes(void)
{
    check_word("the views of the state", RESTART_STATE_ZEROS, RESTART_LATEST_VIEWS + RESTART_NODES);
    check_word("settings bytes", RESTART_SETTINGS_BYTES, 4 * RESTART_SETTINGS_WORDS);
    check_word("settings words", RESTART_SETTINGS_WORDS, 4 + RESTART_NODES + RESTART_SHARDS);
    check_word("state bytes", RESTART_STATE_BYTES, 4 * RESTART_STATE_WORDS);
    check_word("desk bytes", RESTART_DESK_BYTES, 4 * RESTART_DESK_WORDS);
    check_word("desk words", RESTART_DESK_WORDS, RESTART_NODES * RESTART_SLOT_WORDS);
    check_word("slot bytes", RESTART_SLOT_BYTES, 4 * RESTART_SLOT_WORDS);
    check_word("buffer bytes", RESTART_BUFFER_BYTES, 4 * RESTART_BUFFER_WORDS);
    check_word("contents bytes", RESTART_CONTENTS_BYTES, 4 * RESTART_CONTENTS_WORDS);
    check_word("message bytes", RESTART_MESSAGE_BYTES, 4 * RESTART_RECORD_WORDS * RESTART_RECORDS);
    check_word("targets of a page", RESTART_PAGE_TARGETS, RESTART_PAGE_HOLDERS + RESTART_SHARDS);
    check_word("masks of a page", RESTART_PAGE_MASKS, RESTART_PAGE_TARGETS + 2 * RESTART_SHARDS);
    check_word("page words", RESTART_PAGE_WORDS, RESTART_PAGE_MASKS + RESTART_SHARDS);
}

/* The words of roles. A subgroup above 3 has none, also where the sum would come round to the
 * planner's. */
static void roles(void)
{
    static const uint32_t none[4] = {4, 256, 4294967040, 4294967295};
    check_word("the planner", RESTART_PLANNER, 256);
    for (uint32_t subgroup = 0; subgroup < RESTART_SUBGROUPS; subgroup++)
        check_word("a watcher", restart_watcher(subgroup), 512 + subgroup);
    for (size_t i = 0; i < sizeof none / sizeof none[0]; i++)
        check_word("nobody", restart_watcher(none[i]), 516);
}

/* An answer, and what the header's functions must say of it. */
struct taken {
    uint32_t answer;
    uint32_t kind; /* its class */
    int refusal, plan, wait;
    uint32_t number;
    int located; /* whether it has an index */
    uint32_t index, reason, value, length, view;
    int game, outage;
    uint32_t first; /* what the outage begins with */
};

static void answers(void)
{
    static const struct taken rows[] = {
        {0, 0, 0, 0, 0, 0, 0, 0, 0, 0, 0, 0, 0, 0, 32},
        {7, 0, 1, 0, 0, 7, 0, 0, 0, 0, 0, 0, 0, 0, 32},
        {8, 0, 1, 0, 0, 8, 1, 0, 0, 0, 0, 0, 0, 0, 32},
        {9 + 256 * 127, 0, 1, 0, 0, 9, 1, 127, 0, 0, 0, 0, 0, 0, 32},
        {10, 0, 1, 0, 0, 10, 0, 0, 0, 0, 0, 0, 0, 0, 32},
        {14, 0, 1, 0, 0, 14, 0, 0, 0, 0, 0, 0, 0, 0, 32},
        {15, 0, 1, 0, 0, 15, 0, 0, 0, 0, 0, 0, 0, 0, 32},
        {16 + 256 * 5, 0, 1, 0, 0, 16, 1, 5, 0, 0, 0, 0, 0, 0, 32},
        {17, 0, 1, 0, 0, 17, 1, 0, 0, 0, 0, 0, 0, 0, 32},
        {18, 0, 1, 0, 0, 18, 0, 0, 0, 0, 0, 0, 0, 0, 32},
        {19, 0, 1, 0, 0, 19, 0, 0, 0, 0, 0, 0, 0, 0, 32},
        {20, 0, 1, 0, 0, 20, 0, 0, 0, 0, 0, 0, 0, 0, 32},
        {21, 0, 1, 0, 0, 21, 0, 0, 0, 0, 0, 0, 0, 0, 32},
        {22, 0, 1, 0, 0, 22, 0, 0, 0, 0, 0, 0, 0, 0, 32},
        {23, 0, 1, 0, 0, 23, 0, 0, 0, 0, 0, 0, 0, 0, 32},
        {16777216 + 512, 1, 0, 0, 0, 0, 0, 0, 0, 0, 512, 0, 0, 0, 32},
        {16777216 + 8, 1, 0, 0, 0, 0, 0, 0, 0, 0, 8, 0, 0, 0, 32},
        {33554432, 2, 0, 1, 0, 0, 0, 0, 0, 0, 0, 0, 0, 0, 32},
        {50331648 + 256, 3, 0, 0, 1, 0, 0, 0, 1, 0, 0, 0, 0, 0, 32},
        {50331648 + 256 * 4 + 15, 3, 0, 0, 1, 0, 0, 0, 4, 15, 0, 0, 0, 0, 32},
        {67108864 + 1, 4, 0, 0, 0, 0, 0, 0, 0, 0, 0, 1, 0, 0, 32},
        {67108864 + 4, 4, 0, 0, 0, 0, 0, 0, 0, 0, 0, 4, 0, 0, 32},
        {83886080, 5, 0, 0, 0, 0, 0, 0, 0, 0, 0, 0, 1, 0, 32},
        {83886080 + 256, 5, 0, 0, 0, 0, 0, 0, 0, 0, 0, 0, 1, 1, 0},
        {83886080 + 256 + 9, 5, 0, 0, 0, 0, 0, 0, 0, 0, 0, 0, 1, 1, 9},
        {83886080 + 256 + 32, 5, 0, 0, 0, 0, 0, 0, 0, 0, 0, 0, 1, 1, 32},
    };
    for (size_t i = 0; i < sizeof rows / sizeof rows[0]; i++) {
        uint32_t answer = rows[i].answer;
        check_word("class", restart_class_of(answer), rows[i].kind);
        check_word("is a refusal", (uint32_t)restart_is_refusal(answer), (uint32_t)rows[i].refusal);
        check_word("is a plan", (uint32_t)restart_is_plan(answer), (uint32_t)rows[i].plan);
        check_word("is a wait", (uint32_t)restart_is_wait(answer), (uint32_t)rows[i].wait);
        check_word("number", restart_number_of(answer), rows[i].number);
        check_word("has an index", (uint32_t)restart_has_index(answer), (uint32_t)rows[i].located);
        check_word("index", restart_index_of(answer), rows[i].index);
        check_word("reason", restart_reason_of(answer), rows[i].reason);
        check_word("value", restart_value_of(answer), rows[i].value);
        check_word("length", restart_length_of(answer), rows[i].length);
        check_word("open view", restart_view_of(answer), rows[i].view);
        check_word("is a game", (uint32_t)restart_is_game(answer), (uint32_t)rows[i].game);
        check_word("is the outage's", (uint32_t)restart_outage_wins(answer),
                   (uint32_t)rows[i].outage);
        check_word("the first move", restart_first_of(answer), rows[i].first);
        check_word("no gap", restart_gap_of(answer), 0);
    }
    for (uint32_t gap = 0; gap <= 128; gap++) {
        check_word("is a plan", (uint32_t)restart_is_plan(33554432 + gap), 1);
        check_word("its gap", restart_gap_of(33554432 + gap), gap);
        check_word("no refusal", (uint32_t)restart_is_refusal(33554432 + gap), 0);
        check_word("no length", restart_length_of(33554432 + gap), 0);
        check_word("no gap of a length", restart_gap_of(16777216 + gap), 0);
    }
}

static void words(void)
{
    static const uint8_t expected[12] = {9, 9, 9, 9, 1, 2, 3, 252, 9, 9, 9, 9};
    uint8_t bytes[12];
    memset(bytes, 9, sizeof bytes);
    restart_put_word(bytes, 1, UINT32_C(252) * 16777216 + 3 * 65536 + 2 * 256 + 1);
    check_bytes("a stored word", bytes, expected, sizeof expected);
    check_word("a word read", restart_get_word(bytes, 1),
               UINT32_C(252) * 16777216 + 3 * 65536 + 2 * 256 + 1);
}

/* A text that is not empty, and whether it is this one. */
static void check_text(const char *what, const char *found, const char *expected)
{
    check_word(what, strcmp(found, expected) == 0 && found[0] != '\0', 1);
}

/* Every number, reason, phase and finding has a text of its own, and the words after them have
 * one. */
static void texts(void)
{
    check_text("version", restart_version_text(), RESTART_VERSION);
    check_word("version", restart_version(), RESTART_VERSION_NUMBER);
    check_word("version's parts", RESTART_VERSION_NUMBER,
               10000 * RESTART_VERSION_MAJOR + 100 * RESTART_VERSION_MINOR + RESTART_VERSION_PATCH);
    check_word("format", restart_format(), RESTART_FORMAT);
    check_text("number 0", restart_number_text(0), "accepted");
    check_text("number 2", restart_number_text(RESTART_WRONG_SETTINGS), "the settings are wrong");
    check_text("reason 1", restart_reason_text(RESTART_NO_VIEW), "no machine has reported");
    check_text("phase 0", restart_phase_text(RESTART_GATHERING), "gathering");
    check_text("phase 3", restart_phase_text(RESTART_COMMITTED), "committed");
    check_text("number 17", restart_number_text(RESTART_WRONG_SEQUENCE),
               "a record is out of sequence, missing or surplus");
    check_text("number 15", restart_number_text(RESTART_NOT_ALLOWED), "not allowed to this role");
    check_text("number 18", restart_number_text(RESTART_EARLIER_VIEW),
               "the machine has reported a later view before");
    check_text("number 19", restart_number_text(RESTART_FLAT_LENGTH),
               "the flat report's counts do not fit its length");
    check_text("number 20", restart_number_text(RESTART_FLAT_COUNT),
               "a run of the flat report has count 0");
    check_text("number 21", restart_number_text(RESTART_FLAT_RECORDS),
               "the flat report needs over 128 records");
    check_text("number 22", restart_number_text(RESTART_TOO_LARGE),
               "too many machines or rounds, or no such machine");
    check_text("number 23", restart_number_text(RESTART_NOT_READY),
               "no kept view, or a machine has no valid report");
    check_text("number 24", restart_number_text(24), "unknown number");
    check_text("reason 6", restart_reason_text(RESTART_NO_PLACEMENT + 1), "unknown reason");
    check_text("phase 4", restart_phase_text(RESTART_COMMITTED + 1), "unknown phase");
    check_text("finding 1", restart_view_text(RESTART_VIEW_SURE), "the open view counts");
    check_text("finding 4", restart_view_text(RESTART_VIEW_CONTRADICTED),
               "the open view is said to count and not to");
    check_text("finding 5", restart_view_text(RESTART_VIEW_CONTRADICTED + 1), "unknown finding");
    check_text("the last number", restart_number_text(UINT32_MAX), "unknown number");
    for (uint32_t one = 0; one <= RESTART_NOT_READY; one++)
        for (uint32_t other = one + 1; other <= RESTART_NOT_READY + 1; other++)
            check_word("two numbers have two texts",
                       strcmp(restart_number_text(one), restart_number_text(other)) != 0, 1);
    for (uint32_t one = 0; one <= RESTART_VIEW_CONTRADICTED; one++)
        for (uint32_t other = one + 1; other <= RESTART_VIEW_CONTRADICTED + 1; other++)
            check_word("two findings have two texts",
                       strcmp(restart_view_text(one), restart_view_text(other)) != 0, 1);
}

/* ---- Settings and messages ---- */

/* Checks that a buffer of 512 words holds these and zeros. */
static void check_buffer(const char *what, const uint8_t *found, const uint32_t *words,
                         size_t count)
{
    uint8_t expected[RESTART_BUFFER_BYTES];
    memset(expected, 0, sizeof expected);
    put_words(expected, words, count);
    check_bytes(what, found, expected, sizeof expected);
}

/* Node 4's report in case A: its words, its contents and its flat report. */
static const uint32_t report_words[20] = {4, 7, 127, 1,  256, 5, 0,   2, 257, 82,
                                          0, 3, 258, 32, 0,   4, 769, 7, 4,   0};
static const uint32_t report_contents[15] = {4, 7,   127, 256, 5,   0, 257, 82,
                                             0, 258, 32,  0,   769, 7, 4};

static const uint32_t flat_words[12] = {4, 7, 127, 3, 5, 82, 32, 0, 1, 1, 7, 4};

/* Node 4's order: it carries shard 1, whose holder is node 1, and its cut is (7, 4). */
static const uint32_t order_words[36] = {
    4, 8, 63,  1, 256, 5, 0,   2, 257, 50, 0,    3, 258, 8, 0,    4, 512, 0,
    0, 5, 513, 7, 5,   6, 514, 0, 0,   7,  1025, 1, 0,   8, 1281, 7, 4,   0,
};
static const uint32_t order_contents[27] = {
    4, 8,   63, 256, 5,   0, 257, 50,   0, 258, 8,    0, 512, 0,
    0, 513, 7,  5,   514, 0, 0,   1025, 1, 0,   1281, 7, 4,
};

static void messages(struct world *world)
{
    uint8_t message[4 * 36], contents[RESTART_CONTENTS_BYTES], buffer[RESTART_BUFFER_BYTES];
    size_t length;

    world_fresh(world);
    check_word("right settings", restart_check_settings(world->settings, sizeof world->settings),
               RESTART_ACCEPTED);

    length = put_words(message, report_words, 20);
    check_word("read a report",
               restart_read_report(world->settings, sizeof world->settings, message, length,
                                   contents, sizeof contents),
               16777216 + 15);
    check_buffer("contents of a report", contents, report_contents, 15);
    check_word("write a report",
               restart_write_report(world->settings, sizeof world->settings, contents, 4 * 15,
                                    buffer, sizeof buffer),
               16777216 + 20);
    check_buffer("a written report", buffer, report_words, 20);

    check_word("make a flat report",
               restart_to_flat(world->settings, sizeof world->settings, message, length, contents,
                               sizeof contents),
               16777216 + 12);
    check_buffer("a flat report", contents, flat_words, 12);
    check_word("turn it back",
               restart_from_flat(world->settings, sizeof world->settings, contents, 4 * 12, buffer,
                                 sizeof buffer),
               16777216 + 20);
    check_buffer("a report that was flat", buffer, report_words, 20);

    length = put_words(message, order_words, 36);
    check_word("read an order",
               restart_read_order(world->settings, sizeof world->settings, message, length,
                                  contents, sizeof contents),
               16777216 + 27);
    check_buffer("contents of an order", contents, order_contents, 27);
    check_word("write an order",
               restart_write_order(world->settings, sizeof world->settings, contents, 4 * 27,
                                   buffer, sizeof buffer),
               16777216 + 36);
    check_buffer("a written order", buffer, order_words, 36);

    restart_put_word(world->settings, 0, 0);
    check_word("no nodes", restart_check_settings(world->settings, sizeof world->settings),
               RESTART_WRONG_SETTINGS);
}

/* ---- Events ---- */

/* The parts of case A's state: view 7 is kept, and the plan. */
static void put_kept(uint8_t *state)
{
    static const uint32_t masks[3] = {5, 82, 32};
    restart_put_word(state, RESTART_KEPT_VIEW, 7);
    restart_put_word(state, RESTART_KEPT_MEMBERS, 127);
    put_words(state + 4 * RESTART_KEPT_MASKS, masks, 3);
}

static void put_plan(uint8_t *state)
{
    static const uint32_t masks[3] = {5, 50, 8};
    static const uint32_t holders[3] = {0, 1, 5};
    static const uint32_t targets[6] = {0, 0, 7, 5, 0, 0};
    restart_put_word(state, RESTART_PLAN_VIEW, 8);
    restart_put_word(state, RESTART_PLAN_MEMBERS, 63);
    restart_put_word(state, RESTART_PLAN_MOVES, 2);
    put_words(state + 4 * RESTART_PLAN_MASKS, masks, 3);
    put_words(state + 4 * RESTART_PLAN_HOLDERS, holders, 3);
    put_words(state + 4 * RESTART_PLAN_TARGETS, targets, 6);
}

/* Checks all words of a state after a report of case A; outside gathering it has the plan. These
 * nodes have reported, whether they are held or not. */
static void expect_state(const char *what, const struct world *world, enum restart_phase phase,
                         uint32_t reported, uint32_t held, uint32_t fetched_mask,
                         uint32_t prepared_mask)
{
    uint8_t expected[RESTART_STATE_BYTES];
    memset(expected, 0, sizeof expected);
    put_kept(expected);
    if (phase != RESTART_GATHERING)
        put_plan(expected);
    restart_put_word(expected, RESTART_PHASE, (uint32_t)phase);
    restart_put_word(expected, RESTART_HELD, held);
    restart_put_word(expected, RESTART_FETCHED, fetched_mask);
    restart_put_word(expected, RESTART_PREPARED, prepared_mask);
    for (size_t node = 0; node < RESTART_NODES; node++)
        if (reported >> node & 1)
            restart_put_word(expected, RESTART_LATEST_VIEWS + node, 7);
    check_bytes(what, world->state, expected, sizeof expected);
}

#define LENT                                                                                       \
    RESTART_PLANNER, world->settings, sizeof world->settings, world->state, sizeof world->state,   \
        world->desk, sizeof world->desk

static void reporting(struct world *world)
{
    static const uint8_t empty[RESTART_STATE_BYTES] = {0};
    static uint8_t desk[RESTART_DESK_BYTES];
    uint8_t message[RESTART_MESSAGE_BYTES];

    world_fresh(world);
    check_bytes("the fresh state", world->state, empty, sizeof empty);
    check_word("it is sound", restart_check_state(LENT), RESTART_ACCEPTED);
    check_word("no report: wait 1", restart_decide(LENT), 50331648 + 256);
    memcpy(desk, world->desk, sizeof desk);
    memset(desk + 4 * RESTART_SLOT_BYTES, 0, RESTART_SLOT_BYTES);
    size_t length = put_words(message, report_words, 20);
    memcpy(desk + 4 * RESTART_SLOT_BYTES, message, length);
    check_word("a report", restart_report(LENT, message, length), RESTART_ACCEPTED);
    expect_state("the state after a report", world, RESTART_GATHERING, 16, 16, 0, 0);
    check_bytes("the desk after a report", world->desk, desk, sizeof desk);
    check_word("one of seven: wait 2", restart_decide(LENT), 50331648 + 256 * 2);

    world_gathered(world);
    expect_state("the state after six reports", world, RESTART_GATHERING, 63, 63, 0, 0);
    check_word("a drop", restart_drop(LENT, 4), RESTART_ACCEPTED);
    expect_state("the state after a drop", world, RESTART_GATHERING, 63, 47, 0, 0);
    check_word("a drop of what is not held", restart_drop(LENT, 4), RESTART_NOT_HELD);
    check_word("the holder of shard 2", restart_drop(LENT, 5), RESTART_ACCEPTED);
    check_word("shard 2 without holder: wait 4", restart_decide(LENT), 50331648 + 256 * 4 + 2);
    check_word("by rounds too", restart_decide_within(LENT, 0), 50331648 + 256 * 4 + 2);
}

static void carrying_out(struct world *world)
{
    uint8_t buffer[RESTART_BUFFER_BYTES];

    world_ordered(world);
    expect_state("the state with a plan", world, RESTART_ORDERED, 63, 63, 0, 0);
    check_word("it is sound", restart_check_state(LENT), RESTART_ACCEPTED);
    check_word("an order", restart_order(LENT, 4, buffer, sizeof buffer), 16777216 + 36);
    check_buffer("node 4's order", buffer, order_words, 36);
    check_word("fetched", restart_fetched(LENT, 3), RESTART_ACCEPTED);
    expect_state("the state with a mark", world, RESTART_ORDERED, 63, 63, 8, 0);
    check_word("fetched twice", restart_fetched(LENT, 3), RESTART_NOT_HELD);
    check_word("a drop while ordered", restart_drop(LENT, 3), RESTART_ACCEPTED);
    expect_state("the state after it", world, RESTART_GATHERING, 63, 0, 0, 0);

    world_preparing(world);
    expect_state("the state with all fetched", world, RESTART_PREPARING, 63, 63, 63, 0);
    check_word("prepared", restart_prepared(LENT, 2), RESTART_ACCEPTED);
    expect_state("the state with a mark", world, RESTART_PREPARING, 63, 63, 63, 4);
    check_word("a drop while preparing", restart_drop(LENT, 0), RESTART_ACCEPTED);
    expect_state("the state after it", world, RESTART_GATHERING, 63, 0, 0, 0);

    world_committed(world);
    expect_state("the state with all prepared", world, RESTART_COMMITTED, 63, 63, 63, 63);
    check_word("it is sound", restart_check_state(LENT), RESTART_ACCEPTED);
    check_word("prepared after commit", restart_prepared(LENT, 0), RESTART_WRONG_PHASE);
    check_word("a drop after commit", restart_drop(LENT, 0), RESTART_WRONG_PHASE);
}

/* Case A where shard 0 needs one member and may keep two: with the cap it keeps both. */
static void caps(struct world *world)
{
    static const uint32_t right[4] = {65536 + 1, 2 * 65536 + 2, RESTART_CAP * 65536 + 1, 3};
    static const uint32_t wrong[4] = {65536 + 2, (RESTART_CAP + 1) * 65536 + 1,
                                      UINT32_MAX / 65536 * 65536 + 1, 2 * 65536 + 4 * 256 + 1};
    world_gathered(world);
    for (size_t k = 0; k < 4; k++) {
        restart_put_word(world->settings, 11, right[k]);
        check_word("a right cap", restart_check_settings(world->settings, sizeof world->settings),
                   RESTART_ACCEPTED);
        restart_put_word(world->settings, 11, wrong[k]);
        check_word("a wrong cap", restart_decide(LENT), RESTART_WRONG_SETTINGS);
    }
    restart_put_word(world->settings, 11, 1);
    check_word("without a cap", (uint32_t)restart_is_plan(restart_decide(LENT)), 1);
    check_word("it keeps one", restart_get_word(world->state, RESTART_PLAN_MASKS), 1);
    check_word("and moves two", restart_get_word(world->state, RESTART_PLAN_MOVES), 2);

    world_gathered(world);
    restart_put_word(world->settings, 11, 2 * 65536 + 1);
    check_word("with a cap", (uint32_t)restart_is_plan(restart_decide(LENT)), 1);
    expect_state("the state with a plan beyond the need", world, RESTART_ORDERED, 63, 63, 0, 0);
    check_word("it is sound", restart_check_state(LENT), RESTART_ACCEPTED);
    restart_put_word(world->settings, 11, 16 * 65536 + 1);
    check_word("under a greater cap too", restart_check_state(LENT), RESTART_ACCEPTED);
    restart_put_word(world->settings, 11, 65536 + 1);
    check_word("but not under a lower one", restart_check_state(LENT), RESTART_UNSOUND_STATE);
}

/* ---- Rounds ---- */

/* Case A by rounds: the start has masks 5, 42, 16, three moves and a gap of 2; after one round it is
 * decide's plan, with a gap of 1. rounds.c has more. */
static void within(struct world *world)
{
    static const uint32_t start[4] = {3, 5, 42, 16};
    static uint8_t desk[RESTART_DESK_BYTES];
    uint8_t expected[RESTART_STATE_BYTES];

    for (uint32_t rounds = 0; rounds < 3; rounds++) {
        world_gathered(world);
        memcpy(desk, world->desk, sizeof desk);
        memcpy(expected, world->state, sizeof expected);
        restart_put_word(expected, RESTART_PHASE, RESTART_ORDERED);
        put_plan(expected);
        if (rounds == 0)
            put_words(expected + 4 * RESTART_PLAN_MOVES, start, 4);
        check_word("a plan by rounds", restart_decide_within(LENT, rounds),
                   33554432 + (rounds == 0 ? 2u : 1u));
        check_bytes("the state with it", world->state, expected, sizeof expected);
        check_bytes("the same desk", world->desk, desk, sizeof desk);
        check_word("it is sound", restart_check_state(LENT), RESTART_ACCEPTED);
        check_word("not once more", restart_decide_within(LENT, rounds), RESTART_WRONG_PHASE);
    }
}

/* ---- Previews ---- */

/* Case A without node 3, where subgroup 0 has no placement, and without node 5, where shard 2 has no
 * holder: each leaves the state after the drop. With node 6 back all but 5 may go. preview.c has
 * more. */
static void previews(struct world *world)
{
    static uint8_t desk[RESTART_DESK_BYTES];
    uint8_t buffer[RESTART_BUFFER_BYTES], expected[RESTART_BUFFER_BYTES];
    uint8_t message[RESTART_MESSAGE_BYTES];
    uint32_t mask = 63;

    world_gathered(world);
    memcpy(desk, world->desk, sizeof desk);
    memset(expected, 0, sizeof expected);
    memcpy(expected, world->state, RESTART_STATE_BYTES);
    memset(buffer, 0xEE, sizeof buffer);
    restart_put_word(expected, RESTART_HELD, 63 - 8);
    check_word("without node 3: wait 5", restart_preview(LENT, 3, buffer, sizeof buffer),
               50331648 + 256 * 5);
    check_bytes("the state that would follow", buffer, expected, sizeof expected);
    restart_put_word(expected, RESTART_HELD, 63 - 32);
    check_word("without node 5: wait 4", restart_preview(LENT, 5, buffer, sizeof buffer),
               50331648 + 256 * 4 + 2);
    check_bytes("the state that would follow", buffer, expected, sizeof expected);
    check_word("a node that is not held", restart_preview(LENT, 6, buffer, sizeof buffer),
               RESTART_NOT_HELD);
    check_bytes("nothing written", buffer, expected, sizeof expected);
    check_word("all of them", restart_preview_all(LENT, buffer, sizeof buffer), 16777216 + 1);
    check_buffer("every node is needed", buffer, &mask, 1);
    expect_state("the same state", world, RESTART_GATHERING, 63, 63, 0, 0);
    check_bytes("the same desk", world->desk, desk, sizeof desk);

    size_t length = put_report(message, 6);
    check_word("node 6", restart_report(LENT, message, length), RESTART_ACCEPTED);
    memset(expected, 0, sizeof expected);
    memcpy(expected, world->state, RESTART_STATE_BYTES);
    restart_put_word(expected, RESTART_PHASE, RESTART_ORDERED);
    restart_put_word(expected, RESTART_HELD, 63);
    put_plan(expected);
    check_word("without it: case A's plan", restart_preview(LENT, 6, buffer, sizeof buffer),
               33554432);
    check_bytes("the state with case A's plan", buffer, expected, sizeof expected);
    mask = 32;
    check_word("all of them", restart_preview_all(LENT, buffer, sizeof buffer), 16777216 + 1);
    check_buffer("node 5 is needed", buffer, &mask, 1);
}

/* ---- Pages ---- */

/* The page of case A's subgroup, which is all of it: as decide would have it, and then as the plan
 * has it. Subgroup 1 has no shards. A watcher gets its own page and nothing else. */
static void pages(struct world *world)
{
    static const uint32_t head[6] = {0, 7, 7, 7, 1, 2};
    static const uint32_t holders[3] = {0, 1, 5};
    static const uint32_t targets[6] = {0, 0, 7, 5, 0, 0};
    static const uint32_t masks[3] = {5, 50, 8};
    uint8_t buffer[RESTART_BUFFER_BYTES], expected[RESTART_BUFFER_BYTES];
    memset(expected, 0, sizeof expected);
    put_words(expected, head, 6);
    put_words(expected + 4 * RESTART_PAGE_HOLDERS, holders, 3);
    put_words(expected + 4 * RESTART_PAGE_TARGETS, targets, 6);
    put_words(expected + 4 * RESTART_PAGE_MASKS, masks, 3);

    world_gathered(world);
    memset(buffer, 0xEE, sizeof buffer);
    check_word("a page", restart_page(LENT, 0, buffer, sizeof buffer), 16777216 + 72);
    check_bytes("the page of case A", buffer, expected, sizeof expected);
    world_ordered(world);
    restart_put_word(expected, RESTART_PAGE_PHASE, RESTART_ORDERED);
    check_word("a page while ordered", restart_page(LENT, 0, buffer, sizeof buffer), 16777216 + 72);
    check_bytes("the page of case A's plan", buffer, expected, sizeof expected);

#define WATCHED                                                                                    \
    restart_watcher(0), world->settings, sizeof world->settings, world->state,                     \
        sizeof world->state, world->desk, sizeof world->desk
    memset(buffer, 0xEE, sizeof buffer);
    check_word("the watcher's page", restart_page(WATCHED, 0, buffer, sizeof buffer),
               16777216 + 72);
    check_bytes("the same page", buffer, expected, sizeof expected);
    check_word("another page", restart_page(WATCHED, 1, buffer, sizeof buffer),
               RESTART_NOT_ALLOWED);
    check_bytes("nothing written", buffer, expected, sizeof expected);
    check_word("a watcher marks", restart_fetched(WATCHED, 3), RESTART_NOT_ALLOWED);
    expect_state("no mark", world, RESTART_ORDERED, 63, 63, 0, 0);
    check_word("a watcher starts afresh",
               restart_fresh(restart_watcher(0), world->state, sizeof world->state),
               RESTART_NOT_ALLOWED);
    expect_state("the same state", world, RESTART_ORDERED, 63, 63, 0, 0);
}

/* ---- Games ---- */

/* Case A with a report of each node: without node 5 there is no plan, and it may not come back at
 * once; game.c has the others. */
static void games(struct world *world)
{
    world_ready(world);
    check_word("no rounds", restart_game(LENT, 127, 0), 83886080);
    check_word("one round", restart_game(LENT, 127, 1), 83886080 + 256 + 5);
    check_word("nobody held", restart_game(LENT, 0, 1), 83886080 + 256 + 32);
    check_word("node 5 is back in time", restart_game(LENT, 95, 1), 83886080);
    check_word("four rounds", restart_game(LENT, 127, 4), RESTART_TOO_LARGE);
    expect_state("the same state", world, RESTART_GATHERING, 127, 127, 0, 0);
    world_gathered(world);
    check_word("no report of node 6", restart_game(LENT, 63, 1), RESTART_NOT_READY);
}

/* ---- Open views ---- */

/* A view of nodes 0, 1 and 2: one answer of each kind; views.c has the others. */
static void open_views(void)
{
    check_word("sure", restart_open_view(7, 0, 7, 0, 0), 67108865);
    check_word("never served", restart_open_view(7, 0, 5, 2, 0), 67108866);
    check_word("undecided", restart_open_view(7, 0, 5, 0, 0), 67108867);
    check_word("contradicted", restart_open_view(7, 8, 5, 2, 0), 67108868);
}

int main(void)
{
    static struct world world;
    sizes();
    roles();
    answers();
    words();
    texts();
    messages(&world);
    open_views();
    reporting(&world);
    carrying_out(&world);
    caps(&world);
    within(&world);
    previews(&world);
    pages(&world);
    games(&world);
    return summary();
}
