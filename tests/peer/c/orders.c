/* Orders and cuts, for the peer; see peer.h. */
#include "parts.h"

/* The first record of a report at or after a shard's runs; 0 if there is none. */
static uint32_t first_run(const uint8_t *slot, uint32_t shard)
{
    uint32_t at = word(slot, 3);
    while (at != 0 && word(slot, 4 * at) < 256 * RUN + shard)
        at = word(slot, 4 * at + 3);
    return at;
}

/* The run of the shard at a record; (0, 0) if there is none. */
static uint64_t run_at(const uint8_t *slot, uint32_t at, uint32_t shard)
{
    return at != 0 && word(slot, 4 * at) == 256 * RUN + shard ? position(slot, 4 * at + 1) : 0;
}

static uint32_t least(uint32_t a, uint32_t b)
{
    return a < b ? a : b;
}

/* The end of what the node's log and the holder's log up to the target share from their beginning. */
static uint64_t cut_of(const struct restart *restart, uint32_t node, uint32_t shard)
{
    const uint8_t *own = restart->desk + SLOT_BYTES * node;
    const uint8_t *other = restart->desk + SLOT_BYTES * (uint32_t)restart->holder[shard];
    uint64_t target = target_of(restart, shard), shared = 0;
    uint32_t i = first_run(own, shard), j = first_run(other, shard);
    for (;;) {
        uint64_t a = run_at(own, i, shard), b = run_at(other, j, shard);
        uint32_t view = (uint32_t)(b >> 32);
        if (a == 0 || a >> 32 != view || view > target >> 32)
            return shared;
        if (view == target >> 32)
            b = (uint64_t)view << 32 | least((uint32_t)b, (uint32_t)target);
        if (a != b || view == target >> 32)
            return (uint64_t)view << 32 | least((uint32_t)a, (uint32_t)b);
        shared = a;
        i = word(own, 4 * i + 3);
        j = word(other, 4 * j + 3);
    }
}

/* Puts record `at` and gives the place after it. */
static uint32_t record(uint8_t *buffer, uint32_t at, uint32_t first, uint32_t second,
                       uint32_t third)
{
    put(buffer, 4 * at, first);
    put(buffer, 4 * at + 1, second);
    put(buffer, 4 * at + 2, third);
    put(buffer, 4 * at + 3, at + 1);
    return at + 1;
}

uint32_t write_order(const struct restart *restart, uint32_t node, uint8_t *buffer)
{
    const uint8_t *state = restart->state;
    uint32_t shards = restart->settings.shards, own = 0, at = 0;
    at = record(buffer, at, node, word(state, PLAN_VIEW), restart->held);
    for (uint32_t s = 0; s < shards; ++s) {
        uint32_t mask = word(state, PLAN_MASKS + s);
        own |= (uint32_t)has(mask, node) << s;
        at = record(buffer, at, 256 * MEMBERS + s, mask, 0);
    }
    for (uint32_t s = 0; s < shards; ++s)
        at = record(buffer, at, 256 * POSITION + s, word(state, PLAN_TARGETS + 2 * s),
                    word(state, PLAN_TARGETS + 2 * s + 1));
    for (uint32_t left = own; left; left &= left - 1)
        at = record(buffer, at, 256 * HOLDER + lowest(left), restart->holder[lowest(left)], 0);
    for (uint32_t left = own; left; left &= left - 1) {
        uint64_t cut = cut_of(restart, node, lowest(left));
        at = record(buffer, at, 256 * CUT + lowest(left), (uint32_t)(cut >> 32), (uint32_t)cut);
    }
    put(buffer, 4 * at - 1, 0);
    memset(buffer + 16 * at, 0, BUFFER_BYTES - 16 * (size_t)at);
    return 4 * at;
}
