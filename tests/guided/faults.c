/*
 * Stand-ins for the library with one fault each. They show that the fuzzer finds such faults: each
 * answers rightly but for a case of its own, which an input has to come to.
 */
#include "guided.h"
#include "library.h"

#include <string.h>

#define EVENT role, settings, settings_len, state, state_len, desk, desk_len

static const char *const texts[] = {
    "the library itself",
    "read_report: a missing record is told one too early where the chain has gaps",
    "read_order: a holder that is no member is taken for a wrong shard",
    "write_report: two positions of one shard are told at the second's next",
    "from_flat: a shard from 256 up is cut to its lowest byte",
    "to_flat: of a report with a termination a word after the end is not zero",
    "report: what was remembered of a node goes when it is dropped",
    "report: a second report does not add its termination",
    "report: a byte of the next node's slot is written",
    "decide: a move too many is counted where a cap leaves room",
    "order: a cut before the target's view is one too far",
    "order: a long order goes past the buffer",
    "fetched: the last of four or more does not lead to preparing",
    "prepared: a second mark is taken",
    "check_state: zeros at the end are not asked",
    "preview: too few machines are told as no majority",
    "preview_all: the highest node is left out",
    "page: a watcher of subgroup 0 reads the page of subgroup 1",
    "game: a pass is told as node 0",
    "decide_within: the gap after two rounds and more is one too great",
    "open_view: a machine that is no member and lacks the view counts",
    "leader_take: other settings are told as damage",
    "draft_room: a termination's records are forgotten",
};

const unsigned guided_faults = sizeof texts / sizeof texts[0] - 1;

const char *guided_fault_text(unsigned number)
{
    return number <= guided_faults ? texts[number] : "there is no such fault";
}

/* Whether the chain of a message leaves records out. */
static int has_gaps(const uint8_t *message, size_t length)
{
    uint32_t at = 0, next;
    while ((next = restart_get_word(message, 4 * (size_t)at + 3)) != 0 && next > at &&
           next < length / 16) {
        if (next != at + 1)
            return 1;
        at = next;
    }
    return 0;
}

static uint32_t read_report_1(TURNED)
{
    uint32_t answer = restart_read_report(settings, settings_len, from, from_len, to, to_len);
    if (restart_number_of(answer) == RESTART_WRONG_SEQUENCE && restart_index_of(answer) > 2 &&
        has_gaps(from, from_len))
        return answer - 256;
    return answer;
}

static uint32_t read_order_2(TURNED)
{
    uint32_t answer = restart_read_order(settings, settings_len, from, from_len, to, to_len);
    return answer == RESTART_WRONG_POSITION ? (uint32_t)RESTART_WRONG_SHARD : answer;
}

static uint32_t write_report_3(TURNED)
{
    uint32_t answer = restart_write_report(settings, settings_len, from, from_len, to, to_len);
    uint32_t index = restart_index_of(answer);
    int repeat =
        restart_number_of(answer) == RESTART_WRONG_SEQUENCE && index > 1 &&
        restart_get_word(from, 3 * (size_t)index) / 256 == RESTART_KIND_TERMINATION &&
        restart_get_word(from, 3 * (size_t)index) == restart_get_word(from, 3 * (size_t)index - 3);
    return repeat ? answer + 256 : answer;
}

static uint32_t from_flat_4(TURNED)
{
    static uint8_t copy[8192];
    if (from_len >= 36 && from_len <= sizeof copy) {
        size_t shards = restart_get_word(from, 3), words = from_len / 4;
        memcpy(copy, from, from_len);
        for (size_t at = words; at >= 3 + 6 + shards; at -= 3)
            restart_put_word(copy, at - 3, restart_get_word(copy, at - 3) & 255);
        uint32_t cut = restart_from_flat(settings, settings_len, copy, from_len, to, to_len);
        if (!restart_is_refusal(cut))
            return cut;
    }
    return restart_from_flat(settings, settings_len, from, from_len, to, to_len);
}

static uint32_t to_flat_5(TURNED)
{
    uint32_t answer = restart_to_flat(settings, settings_len, from, from_len, to, to_len);
    if (!restart_is_refusal(answer) && restart_get_word(to, 4 + restart_get_word(to, 3)) == 1)
        restart_put_word(to, RESTART_BUFFER_WORDS - 1, 1);
    return answer;
}

static uint32_t drop_6(LENT_STATE, uint32_t node)
{
    uint32_t answer = restart_drop(EVENT, node);
    if (answer == RESTART_ACCEPTED)
        restart_put_word(state, RESTART_LATEST_VIEWS + node, 0);
    return answer;
}

static uint32_t report_7(LENT_BOTH, const uint8_t *message, size_t message_len)
{
    uint8_t before[RESTART_STATE_BYTES];
    memcpy(before, state, state_len < sizeof before ? state_len : sizeof before);
    uint32_t answer = restart_report(EVENT, message, message_len);
    if (answer == RESTART_ACCEPTED &&
        restart_get_word(before, RESTART_KEPT_VIEW) == restart_get_word(state, RESTART_KEPT_VIEW))
        memcpy(state + 4 * RESTART_KEPT_TERMINATION, before + 4 * RESTART_KEPT_TERMINATION,
               4 * (RESTART_HELD - RESTART_KEPT_TERMINATION));
    return answer;
}

static uint32_t report_8(LENT_BOTH, const uint8_t *message, size_t message_len)
{
    uint32_t answer = restart_report(EVENT, message, message_len);
    if (answer == RESTART_ACCEPTED && restart_get_word(message, 0) < 31)
        desk[RESTART_SLOT_BYTES * (restart_get_word(message, 0) + 1)] ^= 1;
    return answer;
}

static uint32_t decide_9(LENT_STATE)
{
    uint32_t answer = restart_decide(EVENT);
    if (!restart_is_plan(answer))
        return answer;
    uint32_t nodes = restart_get_word(settings, 0);
    for (uint32_t s = 0; s < restart_get_word(settings, 3); s++) {
        uint32_t shard = restart_get_word(settings, 4 + nodes + s);
        if (shard >> 16 > (shard & 255)) {
            restart_put_word(state, RESTART_PLAN_MOVES,
                             restart_get_word(state, RESTART_PLAN_MOVES) + 1);
            return answer;
        }
    }
    return answer;
}

static uint32_t order_10(LENT_READ, uint32_t node, uint8_t *buffer, size_t buffer_len)
{
    uint32_t answer = restart_order(EVENT, node, buffer, buffer_len);
    for (uint32_t k = 1; k < restart_length_of(answer) / 4; k++) {
        uint32_t key = restart_get_word(buffer, 4 * k), view = restart_get_word(buffer, 4 * k + 1);
        uint32_t target = restart_get_word(state, RESTART_PLAN_TARGETS + 2 * (key & 15));
        if (key / 256 == RESTART_KIND_CUT && view != 0 && view < target)
            restart_put_word(buffer, 4 * k + 2, restart_get_word(buffer, 4 * k + 2) + 1);
    }
    return answer;
}

static uint32_t order_11(LENT_READ, uint32_t node, uint8_t *buffer, size_t buffer_len)
{
    uint32_t answer = restart_order(EVENT, node, buffer, buffer_len);
    if (restart_length_of(answer) > 48)
        buffer[buffer_len] = 0;
    return answer;
}

static uint32_t fetched_12(LENT_STATE, uint32_t node)
{
    uint32_t answer = restart_fetched(EVENT, node);
    uint32_t held = answer == RESTART_ACCEPTED ? restart_get_word(state, RESTART_HELD) : 0;
    uint32_t count = 0;
    for (; held != 0; held &= held - 1)
        count++;
    if (count > 3 && restart_get_word(state, RESTART_PHASE) == RESTART_PREPARING)
        restart_put_word(state, RESTART_PHASE, RESTART_ORDERED);
    return answer;
}

static uint32_t prepared_13(LENT_STATE, uint32_t node)
{
    uint32_t answer = restart_prepared(EVENT, node);
    int marked =
        answer == RESTART_NOT_HELD && (restart_get_word(state, RESTART_PREPARED) >> node & 1) != 0;
    return marked ? RESTART_ACCEPTED : answer;
}

static uint32_t check_state_14(LENT_READ)
{
    uint8_t copy[RESTART_STATE_BYTES];
    if (state_len != sizeof copy)
        return restart_check_state(EVENT);
    memcpy(copy, state, sizeof copy);
    restart_put_word(copy, RESTART_STATE_WORDS - 1, 0);
    return restart_check_state(role, settings, settings_len, copy, sizeof copy, desk, desk_len);
}

static uint32_t preview_15(LENT_READ, uint32_t node, uint8_t *buffer, size_t buffer_len)
{
    uint32_t answer = restart_preview(EVENT, node, buffer, buffer_len);
    return restart_reason_of(answer) == RESTART_TOO_FEW ? answer - 256 : answer;
}

static uint32_t preview_all_16(LENT_READ, uint8_t *buffer, size_t buffer_len)
{
    uint32_t answer = restart_preview_all(EVENT, buffer, buffer_len);
    uint32_t nodes = restart_length_of(answer) == 1 ? restart_get_word(settings, 0) : 0;
    if (nodes > 1)
        restart_put_word(buffer, 0, restart_get_word(buffer, 0) & ~(1u << (nodes - 1)));
    return answer;
}

static uint32_t page_17(LENT_READ, uint32_t subgroup, uint8_t *buffer, size_t buffer_len)
{
    if (role == restart_watcher(0) && subgroup == 1)
        role = RESTART_PLANNER;
    return restart_page(EVENT, subgroup, buffer, buffer_len);
}

static uint32_t game_18(LENT_READ, uint32_t held, uint32_t rounds)
{
    uint32_t answer = restart_game(EVENT, held, rounds);
    return restart_outage_wins(answer) && restart_first_of(answer) == RESTART_NODES
               ? answer - RESTART_NODES
               : answer;
}

static uint32_t decide_within_19(LENT_STATE, uint32_t rounds)
{
    uint32_t answer = restart_decide_within(EVENT, rounds);
    return restart_is_plan(answer) && rounds > 1 ? answer + 1 : answer;
}

static uint32_t open_view_20(uint32_t members, uint32_t known, uint32_t have, uint32_t lack,
                             uint32_t passed)
{
    return restart_open_view(members, known, have, lack, passed | (lack & ~members));
}

struct library library_with(unsigned number)
{
    struct library library = {
        restart_check_settings, restart_read_report,   restart_read_order,  restart_write_report,
        restart_write_order,    restart_from_flat,     restart_to_flat,     restart_open_view,
        restart_fresh,          restart_check_state,   restart_report,      restart_drop,
        restart_decide,         restart_decide_within, restart_order,       restart_fetched,
        restart_prepared,       restart_preview,       restart_preview_all, restart_page,
        restart_game,
    };
    switch (number) {
    case 1:
        library.read_report = read_report_1;
        break;
    case 2:
        library.read_order = read_order_2;
        break;
    case 3:
        library.write_report = write_report_3;
        break;
    case 4:
        library.from_flat = from_flat_4;
        break;
    case 5:
        library.to_flat = to_flat_5;
        break;
    case 6:
        library.drop = drop_6;
        break;
    case 7:
        library.report = report_7;
        break;
    case 8:
        library.report = report_8;
        break;
    case 9:
        library.decide = decide_9;
        break;
    case 10:
        library.order = order_10;
        break;
    case 11:
        library.order = order_11;
        break;
    case 12:
        library.fetched = fetched_12;
        break;
    case 13:
        library.prepared = prepared_13;
        break;
    case 14:
        library.check_state = check_state_14;
        break;
    case 15:
        library.preview = preview_15;
        break;
    case 16:
        library.preview_all = preview_all_16;
        break;
    case 17:
        library.page = page_17;
        break;
    case 18:
        library.game = game_18;
        break;
    case 19:
        library.decide_within = decide_within_19;
        break;
    case 20:
        library.open_view = open_view_20;
        break;
    default: /* 21 and 22 are put in by extras.c */
        break;
    }
    return library;
}
