/*
 * Between the cluster and the library: every call of a leader passes here (the linker's --wrap), is
 * looked at and handed on. Two promises of the library are tried on each restart, and for the
 * sake of the checks an answer can be spoiled.
 */
#ifndef LIBRARY_H
#define LIBRARY_H

#include <stdbool.h>
#include <stddef.h>
#include <stdint.h>

/* A library that is wrong in one way. */
enum spoiled {
    RIGHT,
    WRONG_CUT,      /* a machine keeps its log up to its own end */
    WRONG_HOLDER,   /* another member's log is taken */
    WRONG_TARGET,   /* the last update is left out */
    WRONG_MAJORITY, /* those that are back are always enough */
    WRONG_KEPT,     /* a stale machine counts as one of the kept view */
    WRONG_PLACES,   /* a machine is in two shards of a subgroup */
    WRONG_OPEN,     /* an open view counts once a member has it */
    WRONG_PLAN,     /* the placement is another one than with the same reports elsewhere */
    WRONG_MEMORY,   /* what is left depends on calls before */
    SPOILED
};

extern const char *const spoiled_names[SPOILED], *const spoiled_texts[SPOILED];
extern enum spoiled spoiled;

struct looked_at {
    uint64_t plans, second_leaders, second_plans, read_back, gone_on;
};
extern struct looked_at looked_at;

/* The leader's file as it stands on its disk: what follows must go on from it to equal bytes. */
void library_saved(unsigned leader, const uint8_t *settings, size_t settings_len,
                   const uint8_t *state, const uint8_t *desk);
/* Whether the leader would have a plan without this held machine. */
struct restart_leader;
bool library_without(const struct restart_leader *leader, uint32_t node);
/* The leader has stopped. */
void library_forgets(unsigned leader);

/* Told to the simulation. */
void seen_plan(const uint8_t *state);
void seen_committed(const uint8_t *state);
unsigned seen_from(void);             /* whose call it is */
bool seen_kept(const uint8_t *state); /* whether it is the leader's own state, and no trial */
void seen_wrong(const char *what);

#endif
