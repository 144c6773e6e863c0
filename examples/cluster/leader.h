/* What leader.c (restarts) and keep.c (the leader's disk) share. */
#ifndef LEADER_H
#define LEADER_H

#include "cluster.h"

#include <stdarg.h>
#include <stdio.h>

/* keep.c */
extern void leader_save(struct leader *l);
extern int leader_load(struct leader *l); /* 1, or 0 if there is nothing that can be used */
extern void leader_moves(struct leader *l);
extern void leader_metrics(struct leader *l);

static inline void say(const struct leader *l, const char *format, ...)
{
    char line[300];
    va_list arguments;
    va_start(arguments, format);
    vsnprintf(line, sizeof line, format, arguments);
    va_end(arguments);
    l->world.say(l->world.self, line);
}

static inline void at(const struct leader *l, int place)
{
    l->world.at(l->world.self, place);
}

static inline uint64_t now(const struct leader *l)
{
    return l->world.now(l->world.self);
}

static inline uint32_t state(const struct leader *l, size_t word)
{
    return restart_leader_word(&l->kept, word);
}

static inline uint32_t node_count(const struct leader *l)
{
    return restart_get_word(l->kept.settings, 0);
}

static inline uint32_t shard_count(const struct leader *l)
{
    return restart_get_word(l->kept.settings, 3);
}

static inline uint32_t bit(uint32_t node)
{
    return UINT32_C(1) << node;
}

static inline uint32_t count_of(uint32_t mask)
{
    uint32_t count = 0;
    for (; mask != 0; mask &= mask - 1)
        count++;
    return count;
}

#endif
