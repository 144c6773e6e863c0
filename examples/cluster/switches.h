/* For tests alone: what a machine does at a step where a duty is left out (CLUSTER_SWITCHES, enum leave). */
#ifndef SWITCHES_H
#define SWITCHES_H

#include "cluster.h"

#include <string.h>

/* The log of a shard in the sure view now has this store and nothing else. */
static inline void packed_to(struct machine *m, uint32_t shard, const struct store *store)
{
    char name[LOG_NAME];
    log_name(name, shard, m->sure.slots >> shard & 1);
    log_begin(&m->world, name, shard, store);
    m->world.sync(m->world.self, name);
    m->sure.base[shard] = store->end;
    memset(&m->runs[shard], 0, sizeof m->runs[shard]);
}

/* Long logs 5: the sure view's logs are packed to the base of the open one. */
static inline void pack_sure(struct machine *m)
{
    for (uint32_t s = 0; s < RESTART_SHARDS; s++) {
        struct store store;
        struct log_size size;
        char name[LOG_NAME];
        log_name(name, s, m->open.slots >> s & 1);
        if ((m->open.logs & m->sure.logs) >> s & 1 &&
            log_read(&m->world, name, s, m->open.base[s], m->open.number, &store, &size))
            packed_to(m, s, &store);
    }
}

/* Duty 15: logs of shards that are no longer carried are emptied. */
static inline void empty_not_carried(struct machine *m)
{
    static const struct store nothing;
    for (uint32_t s = 0; s < RESTART_SHARDS; s++)
        if ((m->sure.logs & ~m->next.logs) >> s & 1)
            packed_to(m, s, &nothing);
}

static inline void switched(struct machine *m, int place)
{
    if (place == AT_VIEW_OPEN && !KEEPS(&m->world, LEAVE_PACK_SURE))
        pack_sure(m);
    else if (place == AT_COPY_FINISHED && !KEEPS(&m->world, LEAVE_NOT_CARRIED))
        empty_not_carried(m);
    else if (place == AT_COPY_BEGUN && !KEEPS(&m->world, LEAVE_NO_TARGETS)) {
        m->sure.terminated = 1;
        for (uint32_t s = 0; s < RESTART_SHARDS; s++)
            m->sure.termination[s] = m->task.shard[s].target;
    } else {
        return;
    }
    views_write(&m->world, &m->sure, &m->open, m->open_tag);
}

#endif
