/* A restart of any settings, made by the library's own calls, between pages without access. */
#ifndef ROOM_H
#define ROOM_H

#include "world.h"

#ifdef __cplusplus
extern "C" {
#endif

struct room {
    uint8_t settings[RESTART_SETTINGS_BYTES], state[RESTART_STATE_BYTES];
    uint8_t desk[RESTART_DESK_BYTES];
    size_t settings_len;
};

/* A run of a shard. */
struct run {
    uint32_t shard, view, count;
};

enum { MOST_RUNS = 6 };

/* What a node reports: its view, the masks of the shards, positions of a termination or none, and
 * runs up to one with count 0. */
struct told {
    uint32_t node, view, members;
    const uint32_t *masks, *positions;
    struct run runs[MOST_RUNS];
};

/* The fresh state under these settings. */
void begin(struct room *room, const uint32_t *words, size_t count);

/* The pieces of a call that is lent settings, state and desk. */
void lend_room(struct piece *pieces, struct room *room);

/* Makes a call that is lent no more, and checks its answer. */
void call_in(struct room *room, const struct entry *entry, uint32_t node, uint32_t expected);

/* Stores the report's words; gives its length in bytes. */
size_t put_told(uint8_t *message, const struct told *told, uint32_t shards);

/* Takes a report. */
void take(struct room *room, const struct told *told);

#ifdef __cplusplus
}
#endif

#endif
