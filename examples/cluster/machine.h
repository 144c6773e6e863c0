/* What machine.c (restarts) and serve.c (the running service) share. */
#ifndef MACHINE_H
#define MACHINE_H

#include "cluster.h"

#include <stdarg.h>
#include <stdio.h>

#ifdef CLUSTER_SWITCHES
#include "switches.h"
#endif

/* serve.c */
extern void serve_message(struct machine *m, uint32_t from, uint32_t kind, struct reading *words);
extern void serve_synced(struct machine *m); /* syncs what was appended, and tells */
extern void serve_again(struct machine *m);  /* says again what was not answered */

static inline void say(const struct machine *m, const char *format, ...)
{
    char line[200];
    va_list arguments;
    va_start(arguments, format);
    vsnprintf(line, sizeof line, format, arguments);
    va_end(arguments);
    m->world.say(m->world.self, line);
}

/* A step is reached. */
static inline void at(struct machine *m, int place)
{
#ifdef CLUSTER_SWITCHES
    switched(m, place);
#endif
    m->world.at(m->world.self, place);
}

static inline uint32_t shard_count(const struct machine *m)
{
    return restart_get_word(m->settings, 3);
}

static inline int carries(const struct view *view, uint32_t shard)
{
    return view->number != 0 && (view->logs >> shard & 1);
}

/* The file of a shard's log in a view. */
static inline void name_of(char name[LOG_NAME], const struct view *view, uint32_t shard)
{
    log_name(name, shard, view->slots >> shard & 1);
}

/* The member that numbers a shard's updates. */
static inline uint32_t first_of(uint32_t mask)
{
    uint32_t node = 0;
    while (node < RESTART_NODES && !(mask >> node & 1))
        node++;
    return node;
}

/* ---- Messages out ---- */

static inline struct writing begin(struct machine *m, uint32_t kind, uint64_t tag)
{
    struct writing words = writing_to(m->out, sizeof m->out);
    put(&words, kind);
    put(&words, (uint32_t)tag);
    put(&words, (uint32_t)(tag >> 32));
    return words;
}

static inline void finish(struct machine *m, uint32_t to, const struct writing *words)
{
    if (!words->over)
        m->world.send(m->world.self, to, m->out, 4 * words->count);
}

#endif
