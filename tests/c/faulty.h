/*
 * Stand-ins with one fault each, put in front of the library by `-include` and FAULT=n. They show
 * that the tests find such faults; tests/c/run.sh names the test that must find each.
 */
#include <restart.h>

#include <string.h>

#define SETTINGS const uint8_t *settings, size_t settings_len
#define STATE uint8_t *state, size_t state_len
#define ROLE uint32_t role
#define DESK const uint8_t *desk, size_t desk_len
#define EVENT ROLE, SETTINGS, STATE, DESK
#define ONLY_READ ROLE, SETTINGS, const uint8_t *state, size_t state_len, DESK
#define PASSED_ON role, settings, settings_len, state, state_len, desk, desk_len
#define CONVERSION                                                                                 \
    SETTINGS, const uint8_t *input, size_t input_len, uint8_t *output, size_t output_len

#if FAULT == 1 /* a part word at the end is not seen */
static inline uint32_t faulty(SETTINGS)
{
    return restart_check_settings(settings, settings_len / 4 * 4);
}
#define restart_check_settings faulty

#elif FAULT == 2 /* an order is read as a report */
static inline uint32_t faulty(CONVERSION)
{
    return restart_read_report(settings, settings_len, input, input_len, output, output_len);
}
#define restart_read_order faulty

#elif FAULT == 3 /* the length has no class */
static inline uint32_t faulty(CONVERSION)
{
    return restart_length_of(
        restart_write_report(settings, settings_len, input, input_len, output, output_len));
}
#define restart_write_report faulty

#elif FAULT == 4 /* the last word of the fresh state is left */
static inline uint32_t faulty(ROLE, STATE)
{
    uint32_t last = restart_get_word(state, RESTART_STATE_WORDS - 1);
    uint32_t answer = restart_fresh(role, state, state_len);
    restart_put_word(state, RESTART_STATE_WORDS - 1, last);
    return answer;
}
#define restart_fresh faulty

#elif FAULT == 5 /* a byte after the message is read */
static inline uint32_t faulty(ROLE, SETTINGS, STATE, uint8_t *desk, size_t desk_len,
                              const uint8_t *message, size_t message_len)
{
    (void)*(const volatile uint8_t *)(message + message_len);
    return restart_report(PASSED_ON, message, message_len);
}
#define restart_report faulty

#elif FAULT == 6 /* row 14 before row 6 */
static inline uint32_t faulty(EVENT, uint32_t node)
{
    uint32_t answer = restart_drop(PASSED_ON, node);
    return answer == RESTART_WRONG_NODE ? (uint32_t)RESTART_NOT_HELD : answer;
}
#define restart_drop faulty

#elif FAULT == 7 /* memory that is only read is written, with what it held */
static inline uint32_t faulty(EVENT)
{
    *(volatile uint8_t *)(uintptr_t)settings = settings[0];
    return restart_decide(PASSED_ON);
}
#define restart_decide faulty

#elif FAULT == 8 /* a refused order clears the buffer */
static inline uint32_t faulty(ONLY_READ, uint32_t node, uint8_t *buffer, size_t buffer_len)
{
    uint32_t answer = restart_order(PASSED_ON, node, buffer, buffer_len);
    if (restart_is_refusal(answer))
        memset(buffer, 0, buffer_len);
    return answer;
}
#define restart_order faulty

#elif FAULT == 9 /* every held node is marked */
static inline uint32_t faulty(EVENT, uint32_t node)
{
    uint32_t answer = restart_fetched(PASSED_ON, node);
    if (answer == RESTART_ACCEPTED)
        restart_put_word(state, RESTART_FETCHED, restart_get_word(state, RESTART_HELD));
    return answer;
}
#define restart_fetched faulty

#elif FAULT == 10 /* a byte after the state is written */
static inline uint32_t faulty(EVENT, uint32_t node)
{
    *(volatile uint8_t *)(state + state_len) = 0;
    return restart_prepared(PASSED_ON, node);
}
#define restart_prepared faulty

#elif FAULT == 11 /* a wait marks the state */
static inline uint32_t faulty(EVENT)
{
    uint32_t answer = restart_decide(PASSED_ON);
    if (restart_is_wait(answer))
        restart_put_word(state, RESTART_STATE_ZEROS, restart_reason_of(answer));
    return answer;
}
#define restart_decide faulty

#elif FAULT == 12 /* any desk that is long enough is taken */
static inline uint32_t faulty(EVENT)
{
    return restart_decide(role, settings, settings_len, state, state_len, desk,
                          desk_len > RESTART_DESK_BYTES ? RESTART_DESK_BYTES : desk_len);
}
#define restart_decide faulty

#elif FAULT == 13 /* whatever is a state is sound */
static inline uint32_t faulty(ONLY_READ)
{
    uint32_t answer = restart_check_state(PASSED_ON);
    int is_state =
        state_len == RESTART_STATE_BYTES && restart_get_word(state, RESTART_STATE_ZEROS) == 0;
    return answer == RESTART_UNSOUND_STATE && is_state ? RESTART_ACCEPTED : answer;
}
#define restart_check_state faulty

#elif FAULT == 14 /* logs with one end are taken for the same */
static inline uint32_t faulty(ONLY_READ, uint32_t node, uint8_t *buffer, size_t buffer_len)
{
    uint32_t answer = restart_order(PASSED_ON, node, buffer, buffer_len);
    const uint8_t *slot = desk + node * (size_t)RESTART_SLOT_BYTES;
    for (size_t cut = 4; cut < restart_length_of(answer); cut += 4) {
        uint32_t shard = restart_get_word(buffer, cut) % 256;
        const uint8_t *target = state + 4 * (RESTART_PLAN_TARGETS + 2 * (size_t)shard);
        if (restart_get_word(buffer, cut) / 256 != RESTART_KIND_CUT)
            continue;
        size_t end = 0; /* the record of the shard's last run */
        for (size_t at = 4; at < RESTART_SLOT_WORDS; at += 4)
            if (restart_get_word(slot, at) == RESTART_KIND_RUN * 256 + shard)
                end = at;
        if (end != 0 && memcmp(slot + 4 * (end + 1), target, 8) == 0)
            memcpy(buffer + 4 * (cut + 1), target, 8);
    }
    return answer;
}
#define restart_order faulty

#elif FAULT == 15 /* an index counts the records after the head */
static inline uint32_t faulty(CONVERSION)
{
    uint32_t answer =
        restart_read_report(settings, settings_len, input, input_len, output, output_len);
    return restart_has_index(answer) && restart_index_of(answer) != 0 ? answer - 256 : answer;
}
#define restart_read_report faulty

#elif FAULT == 16 /* a drop forgets what the node has reported */
static inline uint32_t faulty(EVENT, uint32_t node)
{
    uint32_t answer = restart_drop(PASSED_ON, node);
    if (answer == RESTART_ACCEPTED)
        restart_put_word(state, RESTART_LATEST_VIEWS + node, 0);
    return answer;
}
#define restart_drop faulty

#elif FAULT == 17 /* a report of the same view is refused as well */
static inline uint32_t faulty(ROLE, SETTINGS, STATE, uint8_t *desk, size_t desk_len,
                              const uint8_t *message, size_t message_len)
{
    if (message_len >= 8 && state_len == RESTART_STATE_BYTES) {
        size_t node = restart_get_word(message, 0) % RESTART_NODES;
        uint32_t view = restart_get_word(state, RESTART_LATEST_VIEWS + node);
        if (view != 0 && view == restart_get_word(message, 1))
            return RESTART_EARLIER_VIEW;
    }
    return restart_report(PASSED_ON, message, message_len);
}
#define restart_report faulty

#elif FAULT == 18 /* a cap above 16 is taken */
static inline uint32_t faulty(SETTINGS)
{
    uint8_t copy[RESTART_SETTINGS_BYTES];
    if (settings_len < 16 || settings_len > sizeof copy)
        return restart_check_settings(settings, settings_len);
    memcpy(copy, settings, settings_len);
    for (size_t at = 4 + restart_get_word(copy, 0); at < settings_len / 4; at++)
        if (restart_get_word(copy, at) >> 16 > 16)
            restart_put_word(copy, at, restart_get_word(copy, at) & 65535);
    return restart_check_settings(copy, settings_len);
}
#define restart_check_settings faulty

#elif FAULT == 19 /* a plan keeps no more members than are needed */
static inline uint32_t faulty(EVENT)
{
    uint8_t copy[RESTART_SETTINGS_BYTES];
    if (settings_len < 16 || restart_check_settings(settings, settings_len) != RESTART_ACCEPTED)
        return restart_decide(PASSED_ON);
    memcpy(copy, settings, settings_len);
    for (size_t at = 4 + restart_get_word(copy, 0); at < settings_len / 4; at++)
        restart_put_word(copy, at, restart_get_word(copy, at) & 65535);
    return restart_decide(role, copy, settings_len, state, state_len, desk, desk_len);
}
#define restart_decide faulty

#elif FAULT == 20 /* most of the members are enough */
static inline uint32_t faulty(uint32_t members, uint32_t known, uint32_t have, uint32_t lack,
                              uint32_t passed)
{
    unsigned all = 0, some = 0;
    for (uint32_t left = members; left != 0; left &= left - 1)
        all++;
    for (uint32_t left = members & have; left != 0; left &= left - 1)
        some++;
    return restart_open_view(members, known, 2 * some > all ? have | members : have, lack, passed);
}
#define restart_open_view faulty

#elif FAULT == 21 /* a machine that is no member says by its lack that it was never served */
static inline uint32_t faulty(uint32_t members, uint32_t known, uint32_t have, uint32_t lack,
                              uint32_t passed)
{
    return restart_open_view(members, known, have, lack, passed | lack);
}
#define restart_open_view faulty

#elif FAULT == 22 /* machine 31 is not looked at */
static inline uint32_t faulty(uint32_t members, uint32_t known, uint32_t have, uint32_t lack,
                              uint32_t passed)
{
    const uint32_t seen = UINT32_MAX >> 1;
    return restart_open_view(members & seen, known & seen, have & seen, lack & seen, passed & seen);
}
#define restart_open_view faulty

#elif FAULT == 23 /* the counts of a flat report are added up in 32 bits */
static inline uint32_t faulty(CONVERSION)
{
    uint32_t answer =
        restart_from_flat(settings, settings_len, input, input_len, output, output_len);
    if (answer != RESTART_FLAT_LENGTH || input_len % 4 != 0 || input_len < 24)
        return answer;
    uint32_t masks = restart_get_word(input, 3);
    if (masks > RESTART_SHARDS || input_len < 4 * (6 + (size_t)masks))
        return answer;
    uint32_t runs = restart_get_word(input, 5 + masks);
    return restart_get_word(input, 4 + masks) == 0 && 6 + masks + 3 * runs == input_len / 4
               ? RESTART_CLASS_UNIT + 4 * (1 + masks + runs)
               : answer;
}
#define restart_from_flat faulty

#elif FAULT == 24 /* a shard is taken modulo 256 */
static inline uint32_t faulty(CONVERSION)
{
    uint32_t answer =
        restart_from_flat(settings, settings_len, input, input_len, output, output_len);
    if (restart_number_of(answer) != RESTART_UNKNOWN_SHARD || input_len != 48)
        return answer;
    uint8_t copy[48];
    memcpy(copy, input, sizeof copy);
    restart_put_word(copy, 9, restart_get_word(copy, 9) % 256);
    return restart_from_flat(settings, settings_len, copy, sizeof copy, output, output_len);
}
#define restart_from_flat faulty

#elif FAULT == 25 /* what follows the flat report is left */
static inline uint32_t faulty(CONVERSION)
{
    uint8_t copy[RESTART_BUFFER_BYTES];
    if (output_len != sizeof copy)
        return restart_to_flat(settings, settings_len, input, input_len, output, output_len);
    uint32_t answer = restart_to_flat(settings, settings_len, input, input_len, copy, sizeof copy);
    memcpy(output, copy, 4 * (size_t)restart_length_of(answer));
    return answer;
}
#define restart_to_flat faulty

#elif FAULT == 26 /* row 21 before row 20 */
static inline uint32_t faulty(CONVERSION)
{
    uint32_t answer =
        restart_from_flat(settings, settings_len, input, input_len, output, output_len);
    if (answer != RESTART_FLAT_COUNT)
        return answer;
    uint32_t masks = restart_get_word(input, 3);
    int few = masks + restart_get_word(input, 5 + (size_t)masks) < RESTART_RECORDS;
    return few ? answer : (uint32_t)RESTART_FLAT_RECORDS;
}
#define restart_from_flat faulty

#elif FAULT == 27 /* a call does not look at the role */
static inline uint32_t faulty(EVENT, uint32_t node)
{
    (void)role;
    return restart_fetched(RESTART_PLANNER, settings, settings_len, state, state_len, desk,
                           desk_len, node);
}
#define restart_fetched faulty

#elif FAULT == 28 /* a role that was never set is the planner's */
static inline uint32_t faulty(ROLE, STATE)
{
    return restart_fresh(role == 0 ? (uint32_t)RESTART_PLANNER : role, state, state_len);
}
#define restart_fresh faulty

#elif FAULT == 29 /* every watcher reads every page */
static inline uint32_t faulty(ONLY_READ, uint32_t subgroup, uint8_t *buffer, size_t buffer_len)
{
    return restart_page(role / 4 == RESTART_WATCHER / 4 ? (uint32_t)RESTART_PLANNER : role,
                        settings, settings_len, state, state_len, desk, desk_len, subgroup, buffer,
                        buffer_len);
}
#define restart_page faulty

#elif FAULT == 30 /* row 15 after row 3 */
static inline uint32_t faulty(ONLY_READ, uint32_t subgroup, uint8_t *buffer, size_t buffer_len)
{
    uint32_t answer = restart_page(PASSED_ON, subgroup, buffer, buffer_len);
    if (answer != RESTART_NOT_ALLOWED)
        return answer;
    uint32_t sound = restart_check_state(RESTART_PLANNER, settings, settings_len, state, state_len,
                                         desk, desk_len);
    return restart_is_refusal(sound) ? sound : answer;
}
#define restart_page faulty

#elif FAULT == 31 /* a page shows in a word without a name how many nodes have fetched */
static inline uint32_t faulty(ONLY_READ, uint32_t subgroup, uint8_t *buffer, size_t buffer_len)
{
    uint32_t answer = restart_page(PASSED_ON, subgroup, buffer, buffer_len);
    if (!restart_is_refusal(answer))
        restart_put_word(buffer, RESTART_PAGE_MOVES + 1, restart_get_word(state, RESTART_FETCHED));
    return answer;
}
#define restart_page faulty

#elif FAULT == 32 /* a page has the moves of the whole plan */
static inline uint32_t faulty(ONLY_READ, uint32_t subgroup, uint8_t *buffer, size_t buffer_len)
{
    uint32_t answer = restart_page(PASSED_ON, subgroup, buffer, buffer_len);
    if (!restart_is_refusal(answer) && restart_get_word(buffer, RESTART_PAGE_PHASE) != 0)
        restart_put_word(buffer, RESTART_PAGE_MOVES, restart_get_word(state, RESTART_PLAN_MOVES));
    return answer;
}
#define restart_page faulty

#elif FAULT == 33 /* a page has a placement only where no wait applies */
static inline uint32_t faulty(ONLY_READ, uint32_t subgroup, uint8_t *buffer, size_t buffer_len)
{
    uint8_t copy[RESTART_STATE_BYTES];
    uint32_t answer = restart_page(PASSED_ON, subgroup, buffer, buffer_len);
    if (restart_is_refusal(answer) || restart_get_word(buffer, RESTART_PAGE_PHASE) != 0)
        return answer;
    memcpy(copy, state, sizeof copy);
    if (restart_is_wait(restart_decide(RESTART_PLANNER, settings, settings_len, copy, sizeof copy,
                                       desk, desk_len)))
        memset(buffer + 4 * RESTART_PAGE_FOUND, 0, 8);
    return answer;
}
#define restart_page faulty

#elif FAULT == 34 /* the node is not dropped */
static inline uint32_t faulty(ONLY_READ, uint32_t node, uint8_t *buffer, size_t buffer_len)
{
    uint32_t answer = restart_preview(PASSED_ON, node, buffer, buffer_len);
    if (restart_is_refusal(answer))
        return answer;
    memcpy(buffer, state, state_len);
    return restart_decide(role, settings, settings_len, buffer, state_len, desk, desk_len);
}
#define restart_preview faulty

#elif FAULT == 35 /* a wait is taken for a plan */
static inline uint32_t faulty(ONLY_READ, uint32_t node, uint8_t *buffer, size_t buffer_len)
{
    uint32_t answer = restart_preview(PASSED_ON, node, buffer, buffer_len);
    return restart_is_wait(answer) ? RESTART_PLAN * RESTART_CLASS_UNIT : answer;
}
#define restart_preview faulty

#elif FAULT == 36 /* a refused preview clears the buffer */
static inline uint32_t faulty(ONLY_READ, uint32_t node, uint8_t *buffer, size_t buffer_len)
{
    uint32_t answer = restart_preview(PASSED_ON, node, buffer, buffer_len);
    if (restart_is_refusal(answer))
        memset(buffer, 0, buffer_len);
    return answer;
}
#define restart_preview faulty

#elif FAULT == 37 /* a view that the node alone reported is not kept: the others report anew */
static inline uint32_t faulty(ONLY_READ, uint32_t node, uint8_t *buffer, size_t buffer_len)
{
    static uint8_t other[RESTART_DESK_BYTES];
    uint32_t answer = restart_preview(PASSED_ON, node, buffer, buffer_len);
    if (restart_is_refusal(answer))
        return answer;
    restart_fresh(role, buffer, RESTART_STATE_BYTES);
    for (uint32_t held = 0; held < RESTART_NODES; held++)
        if (held != node && restart_get_word(state, RESTART_HELD) >> held & 1)
            answer = restart_report(role, settings, settings_len, buffer, RESTART_STATE_BYTES,
                                    other, sizeof other, desk + held * (size_t)RESTART_SLOT_BYTES,
                                    RESTART_SLOT_BYTES);
    memcpy(buffer + 4 * RESTART_LATEST_VIEWS, state + 4 * RESTART_LATEST_VIEWS, 4 * RESTART_NODES);
    return restart_decide(role, settings, settings_len, buffer, RESTART_STATE_BYTES, other,
                          sizeof other);
}
#define restart_preview faulty

#elif FAULT == 38 /* where decide waits, nodes that are not held are in the mask */
static inline uint32_t faulty(ONLY_READ, uint8_t *buffer, size_t buffer_len)
{
    uint32_t answer = restart_preview_all(PASSED_ON, buffer, buffer_len);
    if (!restart_is_refusal(answer) &&
        restart_get_word(buffer, 0) == restart_get_word(state, RESTART_HELD))
        restart_put_word(buffer, 0, (UINT32_C(1) << restart_get_word(settings, 0) % 32) - 1);
    return answer;
}
#define restart_preview_all faulty

#elif FAULT == 39 /* a preview wherever drop is taken */
static inline uint32_t faulty(ONLY_READ, uint32_t node, uint8_t *buffer, size_t buffer_len)
{
    uint8_t copy[RESTART_STATE_BYTES];
    uint32_t answer = restart_preview(PASSED_ON, node, buffer, buffer_len);
    if (answer != RESTART_WRONG_PHASE)
        return answer;
    memcpy(copy, state, sizeof copy);
    uint32_t dropped =
        restart_drop(role, settings, settings_len, copy, sizeof copy, desk, desk_len, node);
    return restart_is_refusal(dropped)
               ? dropped
               : restart_decide(role, settings, settings_len, copy, sizeof copy, desk, desk_len);
}
#define restart_preview faulty

#elif FAULT == 40 /* what follows the mask is left */
static inline uint32_t faulty(ONLY_READ, uint8_t *buffer, size_t buffer_len)
{
    uint8_t copy[RESTART_BUFFER_BYTES];
    if (buffer_len != sizeof copy)
        return restart_preview_all(PASSED_ON, buffer, buffer_len);
    memcpy(copy, buffer, sizeof copy);
    uint32_t answer = restart_preview_all(PASSED_ON, copy, sizeof copy);
    memcpy(buffer, copy, 4);
    return answer;
}
#define restart_preview_all faulty

#elif FAULT == 41 /* watchers get the mask */
static inline uint32_t faulty(ONLY_READ, uint8_t *buffer, size_t buffer_len)
{
    return restart_preview_all(role / 4 == RESTART_WATCHER / 4 ? (uint32_t)RESTART_PLANNER : role,
                               settings, settings_len, state, state_len, desk, desk_len, buffer,
                               buffer_len);
}
#define restart_preview_all faulty

#elif FAULT == 42 /* the mask goes by majority, least group and logs, not by placements */
static inline uint32_t faulty(ONLY_READ, uint8_t *buffer, size_t buffer_len)
{
    uint8_t other[RESTART_BUFFER_BYTES];
    uint32_t answer = restart_preview_all(PASSED_ON, buffer, buffer_len);
    for (uint32_t node = 0; !restart_is_refusal(answer) && node < RESTART_NODES; node++)
        if (restart_reason_of(restart_preview(PASSED_ON, node, other, sizeof other)) ==
            RESTART_NO_PLACEMENT)
            restart_put_word(buffer, 0, restart_get_word(buffer, 0) & ~(UINT32_C(1) << node));
    return answer;
}
#define restart_preview_all faulty

#elif FAULT == 43 /* what the node has reported is forgotten */
static inline uint32_t faulty(ONLY_READ, uint32_t node, uint8_t *buffer, size_t buffer_len)
{
    uint32_t answer = restart_preview(PASSED_ON, node, buffer, buffer_len);
    if (!restart_is_refusal(answer))
        restart_put_word(buffer, RESTART_LATEST_VIEWS + node, 0);
    return answer;
}
#define restart_preview faulty

#elif FAULT == 44 /* row 23 before row 22 */
static inline uint32_t faulty(ONLY_READ, uint32_t held, uint32_t rounds)
{
    uint32_t answer = restart_game(PASSED_ON, held, rounds);
    uint32_t ready = restart_game(PASSED_ON, 0, 0);
    return answer == RESTART_TOO_LARGE && ready == RESTART_NOT_READY ? ready : answer;
}
#define restart_game faulty

#elif FAULT == 45 /* the state's own nodes are held */
static inline uint32_t faulty(ONLY_READ, uint32_t held, uint32_t rounds)
{
    uint32_t answer = restart_game(PASSED_ON, held, rounds);
    return restart_is_game(answer)
               ? restart_game(PASSED_ON, restart_get_word(state, RESTART_HELD), rounds)
               : answer;
}
#define restart_game faulty

#elif FAULT == 46 /* the start has to have a plan */
static inline uint32_t faulty(ONLY_READ, uint32_t held, uint32_t rounds)
{
    uint32_t answer = restart_game(PASSED_ON, held, rounds);
    uint8_t copy[RESTART_STATE_BYTES];
    if (!restart_is_game(answer) || restart_outage_wins(answer) || rounds == 0)
        return answer;
    memcpy(copy, state, sizeof copy);
    restart_put_word(copy, RESTART_HELD, held);
    return restart_is_wait(
               restart_decide(role, settings, settings_len, copy, sizeof copy, desk, desk_len))
               ? answer + 256
               : answer;
}
#define restart_game faulty

#elif FAULT == 47 /* a game has one round at most */
static inline uint32_t faulty(ONLY_READ, uint32_t held, uint32_t rounds)
{
    uint32_t answer = restart_game(PASSED_ON, held, rounds);
    return restart_is_game(answer) ? restart_game(PASSED_ON, held, rounds < 2 ? rounds : 1)
                                   : answer;
}
#define restart_game faulty

#elif FAULT == 48 /* passing is node 0 */
static inline uint32_t faulty(ONLY_READ, uint32_t held, uint32_t rounds)
{
    uint32_t answer = restart_game(PASSED_ON, held, rounds);
    return restart_outage_wins(answer) && restart_first_of(answer) == RESTART_NODES
               ? answer - RESTART_NODES
               : answer;
}
#define restart_game faulty

#elif FAULT == 49 /* the gap is not told */
static inline uint32_t faulty(EVENT, uint32_t rounds)
{
    uint32_t answer = restart_decide_within(PASSED_ON, rounds);
    return answer - restart_gap_of(answer);
}
#define restart_decide_within faulty

#elif FAULT == 50 /* decides in full, whatever the rounds */
static inline uint32_t faulty(EVENT, uint32_t rounds)
{
    (void)rounds;
    return restart_decide_within(PASSED_ON, 128);
}
#define restart_decide_within faulty

#elif FAULT == 51 /* a round more than given */
static inline uint32_t faulty(EVENT, uint32_t rounds)
{
    return restart_decide_within(PASSED_ON, rounds == UINT32_MAX ? rounds : rounds + 1);
}
#define restart_decide_within faulty

#elif FAULT == 52 /* the rounds are kept in a byte */
static inline uint32_t faulty(EVENT, uint32_t rounds)
{
    return restart_decide_within(PASSED_ON, rounds % 256);
}
#define restart_decide_within faulty

#elif FAULT == 53 /* at most 31 rounds */
static inline uint32_t faulty(EVENT, uint32_t rounds)
{
    return restart_decide_within(PASSED_ON, rounds > 31 ? 31 : rounds);
}
#define restart_decide_within faulty

#elif FAULT == 54 /* a wait's value has something added */
static inline uint32_t faulty(EVENT, uint32_t rounds)
{
    uint32_t answer = restart_decide_within(PASSED_ON, rounds);
    return restart_reason_of(answer) == RESTART_NO_PLACEMENT ? answer + 1 : answer;
}
#define restart_decide_within faulty

#elif FAULT == 55 /* the moves are those of the full plan */
static inline uint32_t faulty(EVENT, uint32_t rounds)
{
    uint8_t copy[RESTART_STATE_BYTES];
    if (state_len == sizeof copy)
        memcpy(copy, state, sizeof copy);
    uint32_t answer = restart_decide_within(PASSED_ON, rounds);
    if (restart_is_plan(answer) &&
        restart_is_plan(
            restart_decide(role, settings, settings_len, copy, sizeof copy, desk, desk_len)))
        restart_put_word(state, RESTART_PLAN_MOVES, restart_get_word(copy, RESTART_PLAN_MOVES));
    return answer;
}
#define restart_decide_within faulty

#elif FAULT == 56 /* any desk that is long enough is taken */
static inline uint32_t faulty(EVENT, uint32_t rounds)
{
    return restart_decide_within(role, settings, settings_len, state, state_len, desk,
                                 desk_len > RESTART_DESK_BYTES ? RESTART_DESK_BYTES : desk_len,
                                 rounds);
}
#define restart_decide_within faulty

#elif FAULT == 57 /* watchers may decide by rounds */
static inline uint32_t faulty(EVENT, uint32_t rounds)
{
    return restart_decide_within(role / 4 == RESTART_WATCHER / 4 ? (uint32_t)RESTART_PLANNER : role,
                                 settings, settings_len, state, state_len, desk, desk_len, rounds);
}
#define restart_decide_within faulty

#elif FAULT == 58 /* a state that is ordered decides anew */
static inline uint32_t faulty(EVENT, uint32_t rounds)
{
    uint32_t answer = restart_decide_within(PASSED_ON, rounds);
    return answer == RESTART_WRONG_PHASE ? RESTART_PLAN * RESTART_CLASS_UNIT : answer;
}
#define restart_decide_within faulty

#elif FAULT == 59 /* memory that is only read is written, with what it held */
static inline uint32_t faulty(EVENT, uint32_t rounds)
{
    *(volatile uint8_t *)(uintptr_t)desk = desk[0];
    return restart_decide_within(PASSED_ON, rounds);
}
#define restart_decide_within faulty

#elif FAULT == 60 /* a run of the same or an earlier view is taken */
static inline uint32_t faulty(struct restart_draft *draft, uint32_t view, uint32_t count)
{
    uint32_t first = draft->first;
    draft->first = draft->runs;
    uint32_t answer = restart_draft_run(draft, view, count);
    draft->first = first;
    return answer;
}
#define restart_draft_run faulty

#elif FAULT == 61 /* the room does not count a termination */
static inline uint32_t faulty(const struct restart_draft *draft)
{
    return restart_draft_room(draft) +
           (draft->ended != 0 ? restart_get_word(draft->settings, 3) : 0);
}
#define restart_draft_room faulty

#elif FAULT == 62 /* a shard that is refused is begun all the same */
static inline uint32_t faulty(struct restart_draft *draft, uint32_t members)
{
    uint32_t answer = restart_draft_shard(draft, members);
    draft->shards += restart_is_refusal(answer) ? 1 : 0;
    return answer;
}
#define restart_draft_shard faulty

#elif FAULT == 63 /* the cut of the holder itself is left out */
static inline uint32_t faulty(SETTINGS, const uint8_t *message, size_t message_len,
                              struct restart_task *task)
{
    uint32_t answer = restart_read_task(settings, settings_len, message, message_len, task);
    for (uint32_t s = 0; answer == RESTART_ACCEPTED && s < task->shards; s++)
        if (task->shard[s].holder == task->node)
            task->shard[s].cut.view = task->shard[s].cut.k = 0;
    return answer;
}
#define restart_read_task faulty

#elif FAULT == 64 /* machines owe something while gathering */
static inline uint32_t faulty(const uint8_t *state)
{
    return restart_get_word(state, RESTART_PHASE) == RESTART_GATHERING
               ? restart_get_word(state, RESTART_HELD)
               : restart_owing(state);
}
#define restart_owing faulty

#elif FAULT == 65 /* a file of other settings is taken */
static inline uint32_t faulty(struct restart_leader *leader, uint8_t *own, size_t own_len,
                              const uint8_t *bytes, size_t bytes_len)
{
    size_t length = leader->settings_len;
    leader->settings_len = 0;
    uint32_t answer = restart_leader_take(leader, own, own_len, bytes, bytes_len);
    leader->settings_len = restart_is_refusal(answer) ? length : leader->settings_len;
    return answer;
}
#define restart_leader_take faulty

#elif FAULT == 66 /* a file that was cut off is told as one that has changed */
static inline uint32_t faulty(struct restart_leader *leader, uint8_t *own, size_t own_len,
                              const uint8_t *bytes, size_t bytes_len)
{
    uint32_t answer = restart_leader_take(leader, own, own_len, bytes, bytes_len);
    return answer == RESTART_FILE_TORN ? (uint32_t)RESTART_FILE_CHANGED : answer;
}
#define restart_leader_take faulty

#elif FAULT == 67 /* half of the tag is saved */
static inline uint32_t faulty(const struct restart_leader *leader, const uint8_t *own,
                              size_t own_len, uint8_t *bytes, size_t bytes_len)
{
    static struct restart_leader half;
    half = *leader;
    half.tag &= UINT32_MAX;
    return restart_leader_save(&half, own, own_len, bytes, bytes_len);
}
#define restart_leader_save faulty

#endif
