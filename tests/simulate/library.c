#include "library.h"

#include <restart.h>

#include <string.h>

#define WRAPPED(name) __wrap_##name
#define REAL(name) __real_##name

const char *const spoiled_names[SPOILED] = {"right", "cut",    "holder", "target", "majority",
                                            "kept",  "places", "open",   "plan",   "memory"};
const char *const spoiled_texts[SPOILED] = {
    "",
    "a machine keeps its log up to its own end",
    "the log of another member is taken",
    "the last update is left out",
    "those that are back are always enough",
    "a stale machine counts as one of the kept view",
    "machines are in two shards of a subgroup",
    "an open view counts once a member has it",
    "another placement than with the same reports elsewhere",
    "what is left depends on calls before",
};
enum spoiled spoiled;
struct looked_at looked_at;

/* What is lent, by its declared shape. */
#define EVENT                                                                                      \
    uint32_t role, const uint8_t *settings, size_t settings_len, uint8_t *state, size_t state_len
#define READING                                                                                    \
    uint32_t role, const uint8_t *settings, size_t settings_len, const uint8_t *state,             \
        size_t state_len, const uint8_t *desk, size_t desk_len
#define PASSED role, settings, settings_len, state, state_len, desk, desk_len

uint32_t REAL(restart_report)(EVENT, uint8_t *desk, size_t desk_len, const uint8_t *message,
                              size_t message_len);
uint32_t REAL(restart_drop)(EVENT, const uint8_t *desk, size_t desk_len, uint32_t node);
uint32_t REAL(restart_decide)(EVENT, const uint8_t *desk, size_t desk_len);
uint32_t REAL(restart_fetched)(EVENT, const uint8_t *desk, size_t desk_len, uint32_t node);
uint32_t REAL(restart_prepared)(EVENT, const uint8_t *desk, size_t desk_len, uint32_t node);
uint32_t REAL(restart_order)(READING, uint32_t node, uint8_t *buffer, size_t buffer_len);
uint32_t REAL(restart_open_view)(uint32_t members, uint32_t known, uint32_t have, uint32_t lack,
                                 uint32_t passed);
uint32_t WRAPPED(restart_report)(EVENT, uint8_t *desk, size_t desk_len, const uint8_t *message,
                                 size_t message_len);
uint32_t WRAPPED(restart_drop)(EVENT, const uint8_t *desk, size_t desk_len, uint32_t node);
uint32_t WRAPPED(restart_decide)(EVENT, const uint8_t *desk, size_t desk_len);
uint32_t WRAPPED(restart_fetched)(EVENT, const uint8_t *desk, size_t desk_len, uint32_t node);
uint32_t WRAPPED(restart_prepared)(EVENT, const uint8_t *desk, size_t desk_len, uint32_t node);
uint32_t WRAPPED(restart_order)(READING, uint32_t node, uint8_t *buffer, size_t buffer_len);
uint32_t WRAPPED(restart_open_view)(uint32_t members, uint32_t known, uint32_t have, uint32_t lack,
                                    uint32_t passed);

/* ---- What a leader's file says goes on to equal bytes ---- */

#define LEADERS 4

static struct copy {
    bool there;
    uint8_t settings[RESTART_SETTINGS_BYTES];
    size_t settings_len;
    uint8_t state[RESTART_STATE_BYTES], desk[RESTART_DESK_BYTES];
} copies[LEADERS];

void library_saved(unsigned leader, const uint8_t *settings, size_t settings_len,
                   const uint8_t *state, const uint8_t *desk)
{
    struct copy *copy = &copies[leader % LEADERS];
    looked_at.read_back++;
    copy->there = true;
    memcpy(copy->settings, settings, settings_len);
    copy->settings_len = settings_len;
    memcpy(copy->state, state, sizeof copy->state);
    memcpy(copy->desk, desk, sizeof copy->desk);
}

void library_forgets(unsigned leader)
{
    copies[leader % LEADERS].there = false;
}

/* The copy that stands where this state stands, or null. */
static struct copy *copy_of(const uint8_t *state)
{
    struct copy *copy = &copies[seen_from() % LEADERS];
    if (!copy->there || !seen_kept(state) || memcmp(copy->state, state, sizeof copy->state) != 0)
        return NULL;
    return copy;
}

static void compare(struct copy *copy, uint32_t answer, uint32_t again, const uint8_t *state,
                    const uint8_t *desk)
{
    if (!copy)
        return;
    looked_at.gone_on++;
    if (answer != again || memcmp(copy->state, state, sizeof copy->state) != 0)
        seen_wrong("a state read back from disk went on to other bytes");
    for (unsigned node = 0; node < RESTART_NODES; node++)
        if (restart_get_word(state, RESTART_HELD) >> node & 1 &&
            memcmp(copy->desk + RESTART_SLOT_BYTES * node, desk + RESTART_SLOT_BYTES * node,
                   RESTART_SLOT_BYTES) != 0)
            seen_wrong("a desk read back from disk went on to other bytes");
}

#define LENT_COPY(copy)                                                                            \
    RESTART_PLANNER, (copy)->settings, (copy)->settings_len, (copy)->state, sizeof(copy)->state,   \
        (copy)->desk, sizeof(copy)->desk

/* ---- Two leaders with the same reports have the same plan ---- */

static size_t message_bytes(const uint8_t *slot)
{
    size_t records = 1;
    for (size_t at = 0; restart_get_word(slot, 4 * at + 3);) {
        at = restart_get_word(slot, 4 * at + 3);
        if (at >= RESTART_RECORDS)
            break;
        records = at + 1;
    }
    return 16 * records;
}

static void second_leader(const uint8_t *settings, size_t settings_len, const uint8_t *state,
                          const uint8_t *desk, uint32_t answer)
{
    static uint8_t other[RESTART_STATE_BYTES], other_desk[RESTART_DESK_BYTES];
    uint32_t held = restart_get_word(state, RESTART_HELD);
    looked_at.second_leaders++;
    restart_fresh(RESTART_PLANNER, other, sizeof other);
    /* the other way round, and from another desk */
    for (unsigned i = RESTART_NODES; i-- > 0;) {
        const uint8_t *slot = desk + RESTART_SLOT_BYTES * i;
        if (held >> i & 1 &&
            REAL(restart_report)(RESTART_PLANNER, settings, settings_len, other, sizeof other,
                                 other_desk, sizeof other_desk, slot, message_bytes(slot)) != 0)
            return; /* it was told something else */
    }
    /* kept view and termination */
    if (memcmp(state + 4, other + 4, 4 * (RESTART_HELD - 1)) != 0)
        return;
    looked_at.second_plans++;
    if (REAL(restart_decide)(RESTART_PLANNER, settings, settings_len, other, sizeof other,
                             other_desk, sizeof other_desk) != answer ||
        memcmp(state + 4 * RESTART_PLAN_VIEW, other + 4 * RESTART_PLAN_VIEW,
               4 * (RESTART_LATEST_VIEWS - RESTART_PLAN_VIEW)) != 0)
        seen_wrong("two leaders with the same reports have two plans");
}

bool library_without(const struct restart_leader *leader, uint32_t node)
{
    static uint8_t other[RESTART_STATE_BYTES], other_desk[RESTART_DESK_BYTES];
    uint32_t held = restart_get_word(leader->state, RESTART_HELD);
    if (!(held >> node & 1))
        return false;
    restart_fresh(RESTART_PLANNER, other, sizeof other);
    for (uint32_t n = 0; n < RESTART_NODES; n++) {
        const uint8_t *slot = leader->desk + RESTART_SLOT_BYTES * n;
        if (n != node && held >> n & 1 &&
            REAL(restart_report)(RESTART_PLANNER, leader->settings, leader->settings_len, other,
                                 sizeof other, other_desk, sizeof other_desk, slot,
                                 message_bytes(slot)) != 0)
            return false;
    }
    return restart_get_word(other, RESTART_KEPT_VIEW) ==
               restart_get_word(leader->state, RESTART_KEPT_VIEW) &&
           restart_is_plan(REAL(restart_decide)(RESTART_PLANNER, leader->settings,
                                                leader->settings_len, other, sizeof other,
                                                other_desk, sizeof other_desk));
}

/* ---- Wrong libraries ---- */

static uint8_t *record_of(uint8_t *message, uint32_t kind, uint32_t shard)
{
    size_t at = 0;
    while ((at = restart_get_word(message, 4 * at + 3)) != 0 && at < RESTART_RECORDS)
        if (restart_get_word(message, 4 * at) == kind * 256 + shard)
            return message + 16 * at;
    return NULL;
}

/* The last run that the node has reported of the shard, as a position. */
static bool reported_end(const uint8_t *slot, uint32_t shard, uint32_t *view, uint32_t *k)
{
    bool found = false;
    size_t at = 0;
    while ((at = restart_get_word(slot, 4 * at + 3)) != 0 && at < RESTART_RECORDS)
        if (restart_get_word(slot, 4 * at) == RESTART_KIND_RUN * 256 + shard) {
            found = true;
            *view = restart_get_word(slot, 4 * at + 1);
            *k = restart_get_word(slot, 4 * at + 2);
        }
    return found;
}

static uint32_t shards_of(const uint8_t *settings)
{
    return restart_get_word(settings, 3);
}

static void spoil_order(const uint8_t *settings, const uint8_t *state, const uint8_t *desk,
                        uint32_t node, uint8_t *order)
{
    for (uint32_t shard = 0; shard < shards_of(settings); shard++) {
        uint8_t *target = record_of(order, RESTART_KIND_TERMINATION, shard);
        uint8_t *holder = record_of(order, RESTART_KIND_HOLDER, shard);
        uint8_t *cut = record_of(order, RESTART_KIND_CUT, shard);
        uint32_t view, k;
        if (spoiled == WRONG_CUT && cut &&
            reported_end(desk + RESTART_SLOT_BYTES * node, shard, &view, &k)) {
            restart_put_word(cut, 1, view);
            restart_put_word(cut, 2, k);
        }
        if (spoiled == WRONG_TARGET && target && restart_get_word(target, 2) > 1) {
            view = restart_get_word(target, 1);
            k = restart_get_word(target, 2) - 1;
            restart_put_word(target, 2, k);
            if (cut && restart_get_word(cut, 1) == view && restart_get_word(cut, 2) > k)
                restart_put_word(cut, 2, k);
        }
        if (spoiled == WRONG_HOLDER && holder) {
            /* the highest of the held members in place of the one that ends last */
            uint32_t others = restart_get_word(state, RESTART_KEPT_MASKS + shard) &
                              restart_get_word(state, RESTART_HELD);
            for (uint32_t n = 0; n < RESTART_NODES; n++)
                if (others >> n & 1)
                    restart_put_word(holder, 1, n);
        }
        if (spoiled == WRONG_PLACES && shard + 1 < shards_of(settings) &&
            restart_get_word(settings, 4 + restart_get_word(settings, 0) + shard) / 256 % 256 ==
                restart_get_word(settings, 5 + restart_get_word(settings, 0) + shard) / 256 % 256) {
            uint8_t *here = record_of(order, RESTART_KIND_MEMBERS, shard);
            uint8_t *next = record_of(order, RESTART_KIND_MEMBERS, shard + 1);
            if (here && next)
                restart_put_word(here, 1, restart_get_word(here, 1) | restart_get_word(next, 1));
        }
    }
}

/* A wait for more machines, decided as if the kept view had only those that are back. */
static uint32_t decide_anyway(EVENT, uint8_t *desk, size_t desk_len)
{
    uint32_t held = restart_get_word(state, RESTART_HELD);
    uint32_t kept = restart_get_word(state, RESTART_KEPT_VIEW);
    for (uint32_t shard = 0; shard < shards_of(settings); shard++)
        if (!(restart_get_word(state, RESTART_KEPT_MASKS + shard) & held))
            return RESTART_WAIT * RESTART_CLASS_UNIT + 256 * RESTART_NO_MAJORITY;
    for (uint32_t node = 0; node < RESTART_NODES; node++) {
        uint8_t *slot = desk + RESTART_SLOT_BYTES * node;
        if (!(held >> node & 1) || restart_get_word(slot, 1) != kept)
            continue;
        restart_put_word(slot, 2, restart_get_word(slot, 2) & held);
        for (uint32_t shard = 0; shard < shards_of(settings); shard++) {
            uint8_t *record = record_of(slot, RESTART_KIND_MEMBERS, shard);
            restart_put_word(record, 1, restart_get_word(record, 1) & held);
        }
    }
    restart_put_word(state, RESTART_KEPT_MEMBERS,
                     restart_get_word(state, RESTART_KEPT_MEMBERS) & held);
    for (uint32_t shard = 0; shard < shards_of(settings); shard++)
        restart_put_word(state, RESTART_KEPT_MASKS + shard,
                         restart_get_word(state, RESTART_KEPT_MASKS + shard) & held);
    return REAL(restart_decide)(PASSED);
}

/* A stale report, made to one of the kept view. */
static void believe(const uint8_t *settings, const uint8_t *state, uint8_t *report)
{
    uint32_t kept = restart_get_word(state, RESTART_KEPT_VIEW);
    uint32_t members = restart_get_word(state, RESTART_KEPT_MEMBERS);
    uint32_t node = restart_get_word(report, 0);
    if (restart_get_word(report, 1) >= kept || node >= RESTART_NODES || !(members >> node & 1))
        return;
    restart_put_word(report, 1, kept);
    restart_put_word(report, 2, members);
    for (uint32_t shard = 0; shard < shards_of(settings); shard++) {
        uint8_t *record = record_of(report, RESTART_KIND_MEMBERS, shard);
        uint8_t *ended = record_of(report, RESTART_KIND_TERMINATION, shard);
        if (record)
            restart_put_word(record, 1, restart_get_word(state, RESTART_KEPT_MASKS + shard));
        if (ended)
            memcpy(ended + 4, state + 4 * (RESTART_TERMINATION + 2 * shard), 8);
    }
}

/* ---- The calls ---- */

uint32_t WRAPPED(restart_report)(EVENT, uint8_t *desk, size_t desk_len, const uint8_t *message,
                                 size_t message_len)
{
    struct copy *copy = copy_of(state);
    static uint8_t other[RESTART_MESSAGE_BYTES];
    if (spoiled == WRONG_KEPT && message_len <= sizeof other && message_len >= 16) {
        memcpy(other, message, message_len);
        believe(settings, state, other);
        message = other;
    }
    uint32_t answer = REAL(restart_report)(PASSED, message, message_len);
    static uint32_t calls;
    uint32_t held = restart_get_word(state, RESTART_HELD), nodes = restart_get_word(settings, 0);
    if (spoiled == WRONG_MEMORY && ++calls % 4 == 0 && !(held >> (nodes - 1) & 1))
        restart_put_word(state, RESTART_LATEST_VIEWS + nodes - 1, 1);
    if (copy)
        compare(copy, answer, REAL(restart_report)(LENT_COPY(copy), message, message_len), state,
                desk);
    return answer;
}

uint32_t WRAPPED(restart_drop)(EVENT, const uint8_t *desk, size_t desk_len, uint32_t node)
{
    struct copy *copy = copy_of(state);
    uint32_t answer = REAL(restart_drop)(PASSED, node);
    if (copy)
        compare(copy, answer, REAL(restart_drop)(LENT_COPY(copy), node), state, desk);
    return answer;
}

uint32_t WRAPPED(restart_decide)(EVENT, const uint8_t *desk, size_t desk_len)
{
    struct copy *copy = copy_of(state);
    if (spoiled == WRONG_PLAN)
        copy = NULL;
    uint32_t answer =
        spoiled == WRONG_PLAN ? restart_decide_within(PASSED, 0) : REAL(restart_decide)(PASSED);
    if (spoiled == WRONG_PLAN && restart_is_plan(answer))
        answer = RESTART_PLAN * RESTART_CLASS_UNIT; /* without its gap */
    if (copy)
        compare(copy, answer, REAL(restart_decide)(LENT_COPY(copy)), state, desk);
    if (spoiled == WRONG_MAJORITY && restart_is_wait(answer) &&
        restart_reason_of(answer) == RESTART_NO_MAJORITY) {
        /* the library may change what it was lent to read: it is wrong */
        static uint8_t other[RESTART_STATE_BYTES], other_desk[RESTART_DESK_BYTES];
        memcpy(other, state, sizeof other);
        memcpy(other_desk, desk, sizeof other_desk);
        uint32_t anyway = decide_anyway(role, settings, settings_len, other, sizeof other,
                                        other_desk, sizeof other_desk);
        if (restart_is_plan(anyway)) {
            memcpy(state, other, sizeof other);
            if (seen_kept(state))
                memcpy((uint8_t *)(uintptr_t)desk, other_desk, sizeof other_desk);
            answer = anyway;
        }
    }
    if (restart_is_plan(answer) && seen_kept(state)) {
        looked_at.plans++;
        second_leader(settings, settings_len, state, desk, answer);
        seen_plan(state);
    }
    return answer;
}

uint32_t WRAPPED(restart_fetched)(EVENT, const uint8_t *desk, size_t desk_len, uint32_t node)
{
    struct copy *copy = copy_of(state);
    uint32_t answer = REAL(restart_fetched)(PASSED, node);
    if (copy)
        compare(copy, answer, REAL(restart_fetched)(LENT_COPY(copy), node), state, desk);
    return answer;
}

uint32_t WRAPPED(restart_prepared)(EVENT, const uint8_t *desk, size_t desk_len, uint32_t node)
{
    struct copy *copy = copy_of(state);
    uint32_t answer = REAL(restart_prepared)(PASSED, node);
    if (copy)
        compare(copy, answer, REAL(restart_prepared)(LENT_COPY(copy), node), state, desk);
    if (answer == RESTART_ACCEPTED && restart_get_word(state, RESTART_PHASE) == RESTART_COMMITTED)
        seen_committed(state);
    return answer;
}

uint32_t WRAPPED(restart_order)(READING, uint32_t node, uint8_t *buffer, size_t buffer_len)
{
    uint32_t answer = REAL(restart_order)(PASSED, node, buffer, buffer_len);
    if (spoiled != RIGHT && restart_class_of(answer) == RESTART_LENGTH)
        spoil_order(settings, state, desk, node, buffer);
    return answer;
}

uint32_t WRAPPED(restart_open_view)(uint32_t members, uint32_t known, uint32_t have, uint32_t lack,
                                    uint32_t passed)
{
    if (spoiled == WRONG_OPEN && have)
        return RESTART_VIEW * RESTART_CLASS_UNIT + RESTART_VIEW_SURE;
    return REAL(restart_open_view)(members, known, have, lack, passed);
}
