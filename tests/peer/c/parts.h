/* What the files of the peer share. Nothing is proved of any of it. */
#ifndef PARTS_H
#define PARTS_H

#include <stddef.h>
#include <stdint.h>
#include <string.h>

#if __BYTE_ORDER__ != __ORDER_LITTLE_ENDIAN__
#error "words are read as they lie in memory, lowest byte first"
#endif

enum { NODES = 32, SETS = 16, SHARDS = 16, GROUPS = 4, RECORDS = 128, MOST_CAP = 16 };
enum { STATE_BYTES = 640, DESK_BYTES = 65536, SLOT_BYTES = 2048, BUFFER_BYTES = 2048 };
enum { GATHERING, ORDERED, PREPARING, COMMITTED };
enum { PLANNER = 256 }; /* the role's word that may call events */
enum { MEMBERS = 1, POSITION, RUN, HOLDER, CUT };

/* Words of the state. */
enum {
    PHASE = 0,
    KEPT = 1,
    KEPT_MEMBERS = 2,
    TERMINATED = 3,
    KEPT_MASKS = 4,
    TERMINATION = 20,
    HELD = 52,
    FETCHED = 53,
    PREPARED = 54,
    PLAN_VIEW = 55,
    PLAN_MEMBERS = 56,
    PLAN_MOVES = 57,
    PLAN_MASKS = 58,
    PLAN_HOLDERS = 74,
    PLAN_TARGETS = 90,
    LATEST = 122,
    ZEROS = 154,
    STATE_WORDS = 160
};

/* Answers. */
#define LENGTH_OF(words) (UINT32_C(16777216) + (words))
#define A_PLAN UINT32_C(33554432)
#define WAIT_FOR(reason, value) (UINT32_C(50331648) + 256 * (reason) + (value))

/* ---- words ---- */

static inline uint32_t word(const uint8_t *bytes, size_t index)
{
    uint32_t value;
    memcpy(&value, bytes + 4 * index, 4);
    return value;
}

static inline void put(uint8_t *bytes, size_t index, uint32_t value)
{
    memcpy(bytes + 4 * index, &value, 4);
}

/* Words index and index + 1, the first in the lower half. */
static inline uint64_t pair(const uint8_t *bytes, size_t index)
{
    uint64_t value;
    memcpy(&value, bytes + 4 * index, 8);
    return value;
}

/* A position as a number that grows with it. */
static inline uint64_t position(const uint8_t *bytes, size_t index)
{
    uint64_t value = pair(bytes, index);
    return value << 32 | value >> 32;
}

static inline uint32_t bits(uint32_t mask)
{
    mask -= mask >> 1 & 0x55555555;
    mask = (mask & 0x33333333) + (mask >> 2 & 0x33333333);
    return ((mask + (mask >> 4)) & 0x0f0f0f0f) * 0x01010101 >> 24;
}

static inline uint32_t lowest(uint32_t mask)
{
    return (uint32_t)__builtin_ctz(mask);
}

static inline uint32_t below(uint32_t count)
{
    return count > 31 ? UINT32_MAX : (UINT32_C(1) << count) - 1;
}

static inline int has(uint32_t mask, uint32_t bit)
{
    return mask >> bit & 1;
}

/* ---- settings ---- */

struct settings {
    uint32_t nodes, sets, least, shards;
    uint8_t set[NODES], group[SHARDS], need[SHARDS], cap[SHARDS];
    uint32_t capped; /* subgroups with a shard that may have more nodes than it needs */
};

/* Whether the settings are right; fills in what they say. */
int read_settings(struct settings *to, const uint8_t *bytes, size_t length);

/* ---- a restart that was lent ---- */

struct restart {
    struct settings settings;
    const uint8_t *state, *desk;
    uint32_t phase, kept, members, terminated, held;
    /* The records of the kept view's masks and termination, as they stand in a report without gaps. */
    uint64_t mask_records[SHARDS][2], position_records[SHARDS][2];
    /* By shard the kept termination, and how far a run's position may be above it in the same view. */
    uint64_t target[SHARDS], room[SHARDS];
    uint32_t any_log; /* shards whose kept termination is (0, 0) */
    /* The shards of each node in the kept view. */
    uint32_t carried[NODES];
    /* By shard the greatest end of a candidate that has the target, plus 1; 0: there is none. */
    uint64_t best[SHARDS];
    uint8_t holder[SHARDS];
};

/* Whether the state is sound. With `deciding` the holders are found in gathering too. */
int is_sound(struct restart *restart, int deciding);

/* The first of waits 1 to 4 as an answer, 0 if there is none. */
uint32_t first_wait(const struct restart *restart);

/* The target of a shard that has a holder. */
static inline uint64_t target_of(const struct restart *restart, uint32_t shard)
{
    return restart->terminated ? restart->target[shard] : restart->best[shard] - 1;
}

/* ---- slots and messages ---- */

/* Whether records one after another are a report of the kept view with the kept masks, and with the
 * kept termination or none. Where `ends` is given, it gets the end of each shard's log. */
int is_kept_report(const struct restart *restart, const uint8_t *message, uint32_t records,
                   uint64_t *ends);

/* Whether records one after another are a report under rows 7, 9, 16, 17, 10 and 11. */
int is_report(const struct settings *settings, const uint8_t *message, uint32_t records);

/* Puts the records of a chain one after another; 0 if the chain is broken or has no gaps. */
uint32_t closed_up(uint8_t *to, const uint8_t *message, uint32_t records);

/* The refusal of a message by rows 6 to 9, 16, 17, 10 and 11, 0 if there is none. */
uint32_t refusal_of(const struct settings *settings, const uint8_t *message, uint32_t records);

/* ---- plans ---- */

/* The moves of the masks that stand in these words, or -1 if they are no valid placement. */
int moves_of(const struct restart *restart, const uint8_t *masks);

/* Puts a placement of least moves and, of those, most stays into the masks; its moves, or -1 if there
 * is none. The second is for any subgroup, the first quicker where it is not capped. */
int place(const struct restart *restart, uint32_t *masks, uint32_t group);
int place_capped(const struct restart *restart, uint32_t *masks, uint32_t group);

/* The same for the first of them in order. */
int place_first(const struct restart *restart, uint32_t *masks, uint32_t group);

/* Writes a node's order; its length in words. */
uint32_t write_order(const struct restart *restart, uint32_t node, uint8_t *buffer);

#endif
