/* Reports in slots and messages, for the peer; see peer.h. A report without gaps is read in one walk. */
#include "parts.h"

#define INLINE static inline __attribute__((always_inline))

/* The chain has come to record `at`, which names `next`: the records go on, end or have a gap. */
INLINE int goes_on(uint32_t at, uint32_t next, uint32_t records)
{
    return next == at + 1 && next < records;
}

/* Runs from record `at` to the end of the chain. */
INLINE int runs_ok(const uint8_t *message, uint32_t at, uint32_t records, uint32_t view,
                   uint32_t shards, uint64_t *ends)
{
    const uint8_t *run = message + 16 * at, *end = message + 16 * records;
    uint64_t before = (uint64_t)(256 * RUN) << 32; /* kind, shard and view of the run before */
    uint64_t usual = ((uint64_t)at + 1) << 32 | 1; /* words 2 and 3: one update, no gap */
    for (; run < end; run += 16, usual += UINT64_C(1) << 32) {
        uint64_t front = pair(run, 0), back = pair(run, 2), key = front << 32 | front >> 32;
        if (key <= before || (uint32_t)key - 1 >= view)
            return 0;
        before = key;
        if (ends)
            ends[(uint32_t)front % SHARDS] = key << 32 | (uint32_t)back;
        if (back - usual >= UINT32_MAX)
            return back - 1 < UINT32_MAX && key >> 32 < 256 * RUN + shards;
    }
    return 0;
}

/* Whether records from `at` on are the given ones, the last one's next index aside. */
INLINE int are_records(const uint8_t *message, uint32_t at, const uint64_t (*given)[2],
                       uint32_t count)
{
    uint64_t differ = 0;
    for (uint32_t s = 0; s < count - 1; ++s) {
        differ |= pair(message, 4 * (at + s)) ^ given[s][0];
        differ |= pair(message, 4 * (at + s) + 2) ^ given[s][1];
    }
    uint32_t last = at + count - 1;
    differ |= pair(message, 4 * last) ^ given[count - 1][0];
    differ |= word(message, 4 * last + 2) ^ (uint32_t)given[count - 1][1];
    return differ == 0;
}

INLINE int kept_report(const struct restart *restart, const uint8_t *message, uint32_t records,
                       uint64_t *ends)
{
    uint32_t shards = restart->settings.shards;
    if (records <= shards || pair(message, 2) != (restart->members | UINT64_C(1) << 32))
        return 0;
    if (!are_records(message, 1, restart->mask_records, shards))
        return 0;
    uint32_t at = shards, next = word(message, 4 * at + 3);
    if (next == 0)
        return 1;
    if (!goes_on(at, next, records))
        return 0;
    if (word(message, 4 * next) >> 8 == POSITION) {
        if (!restart->terminated || records <= 2 * shards)
            return 0;
        if (!are_records(message, next, restart->position_records, shards))
            return 0;
        at = 2 * shards, next = word(message, 4 * at + 3);
        if (next == 0)
            return 1;
        if (!goes_on(at, next, records))
            return 0;
    }
    return runs_ok(message, next, records, restart->kept, shards, ends);
}

int is_kept_report(const struct restart *restart, const uint8_t *message, uint32_t records,
                   uint64_t *ends)
{
    if (!ends)
        return kept_report(restart, message, records, NULL);
    memset(ends, 0, SHARDS * sizeof *ends);
    return kept_report(restart, message, records, ends);
}

/* Records 1 to S are the masks of the shards in their order, under row 10. */
static int masks_ok(const struct settings *settings, const uint8_t *message)
{
    uint32_t members = word(message, 2), taken[GROUPS] = {0}, wrong = 0;
    for (uint32_t s = 0; s < settings->shards; ++s) {
        const uint8_t *record = message + 16 * (s + 1);
        uint32_t mask = word(record, 1), *of_group = &taken[settings->group[s]];
        wrong |= word(record, 0) ^ (256 * MEMBERS + s);
        wrong |= word(record, 2);
        wrong |= (mask & ~members) | (mask & *of_group) | (mask == 0);
        *of_group |= mask;
    }
    return !wrong;
}

/* Records `at` on are positions of the shards in their order, under row 11. */
static int positions_ok(const struct settings *settings, const uint8_t *message, uint32_t at)
{
    uint32_t view = word(message, 1), wrong = 0;
    for (uint32_t s = 0; s < settings->shards; ++s) {
        const uint8_t *record = message + 16 * (at + s);
        uint32_t own = word(record, 1), k = word(record, 2);
        wrong |= word(record, 0) ^ (256 * POSITION + s);
        wrong |= (own == 0) ^ (k == 0);
        wrong |= own > view;
    }
    return !wrong;
}

/* The next index of the last of `count` records from `at` on, if those before go on. */
static uint32_t next_after(const uint8_t *message, uint32_t at, uint32_t count)
{
    uint32_t wrong = 0;
    for (uint32_t k = 0; k + 1 < count; ++k)
        wrong |= word(message, 4 * (at + k) + 3) ^ (at + k + 1);
    return wrong ? RECORDS : word(message, 4 * (at + count - 1) + 3);
}

int is_report(const struct settings *settings, const uint8_t *message, uint32_t records)
{
    uint32_t node = word(message, 0), view = word(message, 1), members = word(message, 2);
    uint32_t shards = settings->shards;
    if (view - 1 >= UINT32_MAX - 1 || members & ~below(settings->nodes) || !has(members, node))
        return 0;
    if (records <= shards || !masks_ok(settings, message))
        return 0;
    uint32_t at = shards, next = next_after(message, 0, shards + 1);
    if (next == 0)
        return 1;
    if (!goes_on(at, next, records))
        return 0;
    if (word(message, 4 * next) >> 8 == POSITION) {
        if (records <= 2 * shards || !positions_ok(settings, message, next))
            return 0;
        at = 2 * shards, next = next_after(message, next, shards);
        if (next == 0)
            return 1;
        if (!goes_on(at, next, records))
            return 0;
    }
    return runs_ok(message, next, records, view, shards, NULL);
}

uint32_t closed_up(uint8_t *to, const uint8_t *message, uint32_t records)
{
    uint32_t at = 0, count = 0, gaps = 0;
    for (;;) {
        uint32_t next = word(message, 4 * at + 3);
        memcpy(to + 16 * count, message + 16 * at, 12);
        put(to, 4 * count + 3, next ? count + 1 : 0);
        ++count;
        if (next == 0)
            return gaps ? count : 0;
        if (next <= at || next >= records)
            return 0;
        gaps |= next - at - 1;
        at = next;
    }
}
