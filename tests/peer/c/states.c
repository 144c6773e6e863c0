/* Soundness, holders and waits, for the peer; see peer.h. */
#include "parts.h"

/* Whether words `from` up to `to` of the state are zero. */
static int zero(const uint8_t *state, uint32_t from, uint32_t to)
{
    uint32_t all = 0;
    for (uint32_t k = from; k < to; ++k)
        all |= word(state, k);
    return all == 0;
}

/* What the state does not have is zero. */
static int dead_words_ok(const struct restart *restart)
{
    const uint8_t *state = restart->state;
    uint32_t s = restart->settings.shards, view = restart->kept ? s : 0,
             plan = restart->phase ? s : 0;
    return zero(state, KEPT_MASKS + view, TERMINATION) &
           zero(state, TERMINATION + 2 * (restart->terminated ? s : 0), HELD) &
           (restart->phase || zero(state, PLAN_VIEW, PLAN_MASKS)) &
           zero(state, PLAN_MASKS + plan, PLAN_HOLDERS) &
           zero(state, PLAN_HOLDERS + plan, PLAN_TARGETS) &
           zero(state, PLAN_TARGETS + 2 * plan, LATEST) &
           zero(state, LATEST + restart->settings.nodes, STATE_WORDS);
}

/* Marks lie within held and are those of the phase. */
static int marks_ok(const struct restart *restart)
{
    uint32_t held = restart->held, fetched = word(restart->state, FETCHED),
             prepared = word(restart->state, PREPARED);
    if (held & ~below(restart->settings.nodes) || (fetched | prepared) & ~held)
        return 0;
    switch (restart->phase) {
    case GATHERING:
        return fetched == 0 && prepared == 0;
    case ORDERED:
        return fetched != held && prepared == 0;
    case PREPARING:
        return fetched == held && prepared != held;
    default:
        return fetched == held && prepared == held;
    }
}

/* Rows 7 and 10 of the kept view; its masks as records. */
static int view_ok(struct restart *restart)
{
    uint32_t taken[GROUPS] = {0}, wrong = restart->members & ~below(restart->settings.nodes);
    wrong |= restart->kept == UINT32_MAX;
    for (uint32_t s = 0; s < restart->settings.shards; ++s) {
        uint32_t mask = word(restart->state, KEPT_MASKS + s),
                 *of_group = &taken[restart->settings.group[s]];
        wrong |= (mask & ~restart->members) | (mask & *of_group) | (mask == 0);
        *of_group |= mask;
        restart->mask_records[s][0] = (256 * MEMBERS + s) | (uint64_t)mask << 32;
        restart->mask_records[s][1] = (uint64_t)(s + 2) << 32;
    }
    return !wrong;
}

/* Row 11 of the kept termination; its positions as records. */
static int termination_ok(struct restart *restart)
{
    uint32_t wrong = 0, shards = restart->settings.shards;
    restart->any_log = 0;
    for (uint32_t s = 0; s < shards; ++s) {
        uint32_t view = word(restart->state, TERMINATION + 2 * s),
                 k = word(restart->state, TERMINATION + 2 * s + 1);
        wrong |= (view > restart->kept) | ((view == 0) ^ (k == 0));
        restart->position_records[s][0] = (256 * POSITION + s) | (uint64_t)view << 32;
        restart->position_records[s][1] = k | (uint64_t)(shards + s + 2) << 32;
        restart->target[s] = (uint64_t)view << 32 | k;
        restart->room[s] = UINT32_MAX - k;
        restart->any_log |= (uint32_t)(view == 0) << s;
    }
    return !wrong;
}

/* By node its shards in the kept view, and nobody holds anything yet. */
static void turn_masks(struct restart *restart)
{
    memset(restart->carried, 0, sizeof restart->carried);
    memset(restart->best, 0, sizeof restart->best);
    for (uint32_t s = 0; s < restart->settings.shards; ++s) {
        uint32_t mask = word(restart->state, KEPT_MASKS + s) & restart->held;
        for (; mask; mask &= mask - 1)
            restart->carried[lowest(mask)] |= UINT32_C(1) << s;
    }
}

/* Which of some shards have the kept termination's update in their log, by going through it. */
static uint32_t passed_targets(const struct restart *restart, const uint8_t *slot, uint32_t shards)
{
    uint32_t found = 0;
    for (uint32_t at = word(slot, 3); at != 0; at = word(slot, 4 * at + 3)) {
        uint32_t key = word(slot, 4 * at), s = key % SHARDS;
        if (key >> 8 == RUN)
            found |= (uint32_t)(position(slot, 4 * at + 1) - restart->target[s] <= restart->room[s])
                     << s;
    }
    return found & shards;
}

/* Which of a candidate's shards have the kept termination's update in their log. Only where the log
 * goes on in later views, its end does not tell. */
static uint32_t with_target(const struct restart *restart, const uint8_t *slot, uint32_t shards,
                            const uint64_t *ends)
{
    uint32_t found = shards & restart->any_log, unknown = 0;
    for (uint32_t left = shards & ~found; left; left &= left - 1) {
        uint32_t s = lowest(left);
        if (ends[s] - restart->target[s] <= restart->room[s])
            found |= left & -left;
        else if (ends[s] > restart->target[s])
            unknown |= left & -left;
    }
    return unknown ? found | passed_targets(restart, slot, unknown) : found;
}

/* A candidate may be the holder of its shards. Nodes come in ascending order. */
static void stand(struct restart *restart, uint32_t node, const uint8_t *slot, const uint64_t *ends)
{
    uint32_t shards = restart->carried[node];
    if (restart->terminated)
        shards = with_target(restart, slot, shards, ends);
    for (; shards; shards &= shards - 1) {
        uint32_t s = lowest(shards);
        if (ends[s] + 1 > restart->best[s]) {
            restart->best[s] = ends[s] + 1;
            restart->holder[s] = (uint8_t)node;
        }
    }
}

/* The same as is_kept_report or is_report for a slot with gaps. */
static __attribute__((noinline)) int gapped_ok(const struct restart *restart, const uint8_t *slot,
                                               uint32_t view, uint64_t *ends)
{
    uint8_t closed[SLOT_BYTES];
    uint32_t records = closed_up(closed, slot, RECORDS);
    if (records == 0)
        return 0;
    if (view == restart->kept)
        return is_kept_report(restart, closed, records, ends);
    return is_report(&restart->settings, closed, records);
}

/* A held slot under rows 5 to 9, 16, 17 and 10 to 13, and what is remembered of its node. */
static int slot_ok(struct restart *restart, uint32_t node, int looking)
{
    const uint8_t *slot = restart->desk + SLOT_BYTES * node;
    uint32_t view = word(slot, 1), latest = word(restart->state, LATEST + node);
    uint64_t of_shard[SHARDS], *ends = looking ? of_shard : NULL;
    if (word(slot, 0) != node || view > latest || latest > restart->kept)
        return 0;
    if (view != restart->kept)
        return is_report(&restart->settings, slot, RECORDS) || gapped_ok(restart, slot, view, NULL);
    if (!has(restart->members, node))
        return 0;
    if (!is_kept_report(restart, slot, RECORDS, ends) && !gapped_ok(restart, slot, view, ends))
        return 0;
    if (looking)
        stand(restart, node, slot, ends);
    return 1;
}

uint32_t first_wait(const struct restart *restart)
{
    uint32_t members = restart->members;
    if (restart->kept == 0)
        return WAIT_FOR(1, 0);
    if (2 * bits(restart->held & members) <= bits(members))
        return WAIT_FOR(2, 0);
    if (bits(restart->held) < restart->settings.least)
        return WAIT_FOR(3, 0);
    for (uint32_t s = 0; s < restart->settings.shards; ++s)
        if (restart->best[s] == 0)
            return WAIT_FOR(4, s);
    return 0;
}

/* The plan follows from the held reports; least moves are not asked. */
static int plan_ok(const struct restart *restart)
{
    const uint8_t *state = restart->state;
    uint32_t wrong = 0;
    if (first_wait(restart) != 0 || word(state, PLAN_VIEW) != restart->kept + 1)
        return 0;
    for (uint32_t s = 0; s < restart->settings.shards; ++s) {
        wrong |= word(state, PLAN_HOLDERS + s) != restart->holder[s];
        wrong |= position(state, PLAN_TARGETS + 2 * s) != target_of(restart, s);
    }
    int moves = moves_of(restart, state + 4 * PLAN_MASKS);
    return !wrong && word(state, PLAN_MEMBERS) == restart->held && moves >= 0 &&
           word(state, PLAN_MOVES) == (uint32_t)moves;
}

int is_sound(struct restart *restart, int deciding)
{
    const uint8_t *state = restart->state;
    restart->phase = word(state, PHASE);
    restart->kept = word(state, KEPT);
    restart->members = word(state, KEPT_MEMBERS);
    restart->terminated = word(state, TERMINATED);
    restart->held = word(state, HELD);
    if (restart->phase > COMMITTED || restart->terminated > 1 || !dead_words_ok(restart) ||
        !marks_ok(restart))
        return 0;
    if (restart->kept == 0)
        return restart->phase == GATHERING &&
               !(restart->members | restart->terminated | restart->held);
    if (!view_ok(restart) || (restart->terminated && !termination_ok(restart)))
        return 0;
    int looking = deciding || restart->phase != GATHERING;
    if (looking)
        turn_masks(restart);
    for (uint32_t left = restart->held; left; left &= left - 1)
        if (!slot_ok(restart, lowest(left), looking))
            return 0;
    return restart->phase == GATHERING || plan_ok(restart);
}
