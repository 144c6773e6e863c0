/*
 * Case A, the run that restart(1) shows, as the tests lend it. Everything is written out by
 * hand: seven machines in three failure sets, three shards in subgroup 0, view 7 with masks
 * 127; 5, 82, 32, nodes 0 to 5 report.
 */
#ifndef WORLD_H
#define WORLD_H

#include "harness.h"

#ifdef __cplusplus
extern "C" {
#endif

struct world {
    uint8_t settings[4 * 14];
    uint8_t state[RESTART_STATE_BYTES];
    uint8_t desk[RESTART_DESK_BYTES];
};

/* Stores words as bytes; gives the length in bytes. */
size_t put_words(uint8_t *bytes, const uint32_t *words, size_t count);

/* The report of a node of case A; gives its length in bytes. */
size_t put_report(uint8_t *message, uint32_t node);

/* Case A in each phase, reached through the library. Nothing held yet; nodes 0 to 5 held; */
void world_fresh(struct world *world);
void world_gathered(struct world *world);
/* node 6 has reported as well, and all seven are held; */
void world_ready(struct world *world);
/* the plan made; all fetched; all prepared. */
void world_ordered(struct world *world);
void world_preparing(struct world *world);
void world_committed(struct world *world);

/* The pieces of an event that is lent settings, state and desk. */
void lend_world(struct piece *pieces, struct world *world);

#ifdef __cplusplus
}
#endif

#endif
