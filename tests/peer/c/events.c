/* The events, for the peer; see peer.h. */
#include "parts.h"
#include "peer.h"

/* Rows 1, 2, 15 and 3; 0 if they pass. */
static uint32_t opened(struct restart *restart, uint32_t role, const uint8_t *settings,
                       size_t settings_len, const uint8_t *state, size_t state_len,
                       const uint8_t *desk, size_t desk_len, int deciding)
{
    if (desk_len != DESK_BYTES)
        return 1;
    if (!read_settings(&restart->settings, settings, settings_len))
        return 2;
    if (role != PLANNER)
        return 15;
    restart->state = state;
    restart->desk = desk;
    return state_len == STATE_BYTES && is_sound(restart, deciding) ? 0 : 3;
}

/* Rows 6 and 14 of a node that is named. */
static uint32_t not_held(const struct restart *restart, uint32_t node)
{
    if (node >= restart->settings.nodes)
        return 6;
    return has(restart->held, node) ? 0 : 14;
}

uint32_t peer_fresh(uint32_t role, uint8_t *state, size_t state_len)
{
    if (role != PLANNER)
        return 15;
    if (state_len != STATE_BYTES)
        return 3;
    memset(state, 0, STATE_BYTES);
    return 0;
}

uint32_t peer_check_state(uint32_t role, const uint8_t *settings, size_t settings_len,
                          const uint8_t *state, size_t state_len, const uint8_t *desk,
                          size_t desk_len)
{
    struct restart restart;
    return opened(&restart, role, settings, settings_len, state, state_len, desk, desk_len, 0);
}

/* The positions of a report without gaps, or NULL. */
static const uint8_t *positions_in(const struct restart *restart, const uint8_t *message)
{
    uint32_t shards = restart->settings.shards;
    int more = word(message, 4 * shards + 3) != 0;
    const uint8_t *after = message + 16 * (shards + 1);
    return more && word(after, 0) >> 8 == POSITION ? after : NULL;
}

/* Rows 18, 12 and 13 of a report without gaps that has passed row 11. */
static uint32_t against_kept(const struct restart *restart, const uint8_t *message)
{
    uint32_t view = word(message, 1), differ = word(message, 2) ^ restart->members;
    if (view < word(restart->state, LATEST + word(message, 0)))
        return 18;
    if (view != restart->kept)
        return 0;
    for (uint32_t s = 0; s < restart->settings.shards; ++s)
        differ |= word(message, 4 * (s + 1) + 1) ^ word(restart->state, KEPT_MASKS + s);
    if (differ)
        return 12;
    const uint8_t *positions = positions_in(restart, message);
    if (!positions || !restart->terminated)
        return 0;
    for (uint32_t s = 0; s < restart->settings.shards; ++s)
        if (position(positions, 4 * s + 1) != restart->target[s])
            return 13;
    return 0;
}

/* Makes a termination of a report without gaps the kept one; without one, none is kept. */
static void keep_termination(const struct restart *restart, uint8_t *state, const uint8_t *message)
{
    const uint8_t *positions = positions_in(restart, message);
    put(state, TERMINATED, positions != NULL);
    memset(state + 4 * TERMINATION, 0, 4 * (HELD - TERMINATION));
    for (uint32_t s = 0; positions && s < restart->settings.shards; ++s) {
        put(state, TERMINATION + 2 * s, word(positions, 4 * s + 1));
        put(state, TERMINATION + 2 * s + 1, word(positions, 4 * s + 2));
    }
}

/* What a report without gaps changes in the state, if its view is not smaller than the kept one. */
static void keep(const struct restart *restart, uint8_t *state, const uint8_t *message)
{
    uint32_t view = word(message, 1);
    if (view > restart->kept) {
        put(state, KEPT, view);
        put(state, KEPT_MEMBERS, word(message, 2));
        for (uint32_t s = 0; s < restart->settings.shards; ++s)
            put(state, KEPT_MASKS + s, word(message, 4 * (s + 1) + 1));
        keep_termination(restart, state, message);
    } else if (view == restart->kept && !restart->terminated && positions_in(restart, message)) {
        keep_termination(restart, state, message);
    }
}

/* Stores an accepted message. */
static uint32_t store(const struct restart *restart, uint8_t *state, uint8_t *desk,
                      const uint8_t *message, size_t length)
{
    uint32_t node = word(message, 0);
    put(state, HELD, restart->held | UINT32_C(1) << node);
    put(state, LATEST + node, word(message, 1));
    memcpy(desk + SLOT_BYTES * node, message, length);
    memset(desk + SLOT_BYTES * node + length, 0, SLOT_BYTES - length);
    return 0;
}

/* A message that is no report without gaps of the kept view. */
static uint32_t other_report(const struct restart *restart, uint8_t *state, uint8_t *desk,
                             const uint8_t *message, size_t length)
{
    uint8_t closed[SLOT_BYTES];
    const uint8_t *report = message;
    uint32_t records = (uint32_t)(length / 16), refusal;
    if (word(message, 0) >= restart->settings.nodes)
        return 6;
    if (!is_report(&restart->settings, message, records)) {
        if ((refusal = refusal_of(&restart->settings, message, records)))
            return refusal;
        closed_up(closed, message, records);
        report = closed;
    }
    if ((refusal = against_kept(restart, report)))
        return refusal;
    keep(restart, state, report);
    return store(restart, state, desk, message, length);
}

uint32_t peer_report(uint32_t role, const uint8_t *settings, size_t settings_len, uint8_t *state,
                     size_t state_len, uint8_t *desk, size_t desk_len, const uint8_t *message,
                     size_t message_len)
{
    struct restart restart;
    uint32_t refusal =
        opened(&restart, role, settings, settings_len, state, state_len, desk, desk_len, 0);
    if (refusal)
        return refusal;
    if (restart.phase != GATHERING)
        return 4;
    if (message_len == 0 || message_len > SLOT_BYTES || message_len % 16 != 0)
        return 5;
    uint32_t node = word(message, 0), view = word(message, 1);
    if (view == restart.kept && view != 0 && node < restart.settings.nodes &&
        has(restart.members, node) && view >= word(state, LATEST + node) &&
        is_kept_report(&restart, message, (uint32_t)(message_len / 16), NULL))
        return store(&restart, state, desk, message, message_len);
    return other_report(&restart, state, desk, message, message_len);
}

uint32_t peer_drop(uint32_t role, const uint8_t *settings, size_t settings_len, uint8_t *state,
                   size_t state_len, const uint8_t *desk, size_t desk_len, uint32_t node)
{
    struct restart restart;
    uint32_t refusal =
        opened(&restart, role, settings, settings_len, state, state_len, desk, desk_len, 0);
    if (refusal)
        return refusal;
    if (restart.phase == COMMITTED)
        return 4;
    if ((refusal = not_held(&restart, node)))
        return refusal;
    if (restart.phase == GATHERING) {
        put(state, HELD, restart.held & ~(UINT32_C(1) << node));
        return 0;
    }
    put(state, PHASE, GATHERING);
    memset(state + 4 * HELD, 0, 4 * (LATEST - HELD));
    return 0;
}

/* A way to place a subgroup. */
typedef int placing(const struct restart *restart, uint32_t *masks, uint32_t group);

static uint32_t decide(uint32_t role, const uint8_t *settings, size_t settings_len, uint8_t *state,
                       size_t state_len, const uint8_t *desk, size_t desk_len, placing *placing)
{
    struct restart restart;
    uint32_t masks[SHARDS], moves = 0, answer;
    if ((answer =
             opened(&restart, role, settings, settings_len, state, state_len, desk, desk_len, 1)))
        return answer;
    if (restart.phase != GATHERING)
        return 4;
    if ((answer = first_wait(&restart)))
        return answer;
    for (uint32_t group = 0; group < GROUPS; ++group) {
        int own = placing(&restart, masks, group);
        if (own < 0)
            return WAIT_FOR(5, group);
        moves += (uint32_t)own;
    }
    put(state, PHASE, ORDERED);
    put(state, PLAN_VIEW, restart.kept + 1);
    put(state, PLAN_MEMBERS, restart.held);
    put(state, PLAN_MOVES, moves);
    for (uint32_t s = 0; s < restart.settings.shards; ++s) {
        uint64_t target = target_of(&restart, s);
        put(state, PLAN_MASKS + s, masks[s]);
        put(state, PLAN_HOLDERS + s, restart.holder[s]);
        put(state, PLAN_TARGETS + 2 * s, (uint32_t)(target >> 32));
        put(state, PLAN_TARGETS + 2 * s + 1, (uint32_t)target);
    }
    return A_PLAN;
}

uint32_t peer_decide(uint32_t role, const uint8_t *settings, size_t settings_len, uint8_t *state,
                     size_t state_len, const uint8_t *desk, size_t desk_len)
{
    return decide(role, settings, settings_len, state, state_len, desk, desk_len, place);
}

uint32_t peer_decide_first(uint32_t role, const uint8_t *settings, size_t settings_len,
                           uint8_t *state, size_t state_len, const uint8_t *desk, size_t desk_len)
{
    return decide(role, settings, settings_len, state, state_len, desk, desk_len, place_first);
}

uint32_t peer_order(uint32_t role, const uint8_t *settings, size_t settings_len,
                    const uint8_t *state, size_t state_len, const uint8_t *desk, size_t desk_len,
                    uint32_t node, uint8_t *buffer, size_t buffer_len)
{
    struct restart restart;
    uint32_t refusal;
    if (buffer_len != BUFFER_BYTES)
        return 1;
    if ((refusal =
             opened(&restart, role, settings, settings_len, state, state_len, desk, desk_len, 0)))
        return refusal;
    if (restart.phase != ORDERED)
        return 4;
    if ((refusal = not_held(&restart, node)))
        return refusal;
    return LENGTH_OF(write_order(&restart, node, buffer));
}

/* Marks a node in its mask; when all held nodes are marked, the next phase follows. */
static uint32_t mark(uint32_t role, const uint8_t *settings, size_t settings_len, uint8_t *state,
                     size_t state_len, const uint8_t *desk, size_t desk_len, uint32_t node,
                     uint32_t phase, uint32_t place)
{
    struct restart restart;
    uint32_t refusal =
        opened(&restart, role, settings, settings_len, state, state_len, desk, desk_len, 0);
    if (refusal)
        return refusal;
    if (restart.phase != phase)
        return 4;
    if ((refusal = not_held(&restart, node)))
        return refusal;
    uint32_t marks = word(state, place);
    if (has(marks, node))
        return 14;
    marks |= UINT32_C(1) << node;
    put(state, place, marks);
    if (marks == restart.held)
        put(state, PHASE, phase + 1);
    return 0;
}

uint32_t peer_fetched(uint32_t role, const uint8_t *settings, size_t settings_len, uint8_t *state,
                      size_t state_len, const uint8_t *desk, size_t desk_len, uint32_t node)
{
    return mark(role, settings, settings_len, state, state_len, desk, desk_len, node, ORDERED,
                FETCHED);
}

uint32_t peer_prepared(uint32_t role, const uint8_t *settings, size_t settings_len, uint8_t *state,
                       size_t state_len, const uint8_t *desk, size_t desk_len, uint32_t node)
{
    return mark(role, settings, settings_len, state, state_len, desk, desk_len, node, PREPARING,
                PREPARED);
}
