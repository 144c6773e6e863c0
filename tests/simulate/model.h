/*
 * What ought to be: every acknowledgement, every view that counts and the logs with which it began.
 * The model sees the machines' disks, and what is written by clients and told to them, and nothing else.
 */
#ifndef MODEL_H
#define MODEL_H

#include <cluster.h>

#include <stdbool.h>

struct seen {
    uint32_t number, members, masks[RESTART_SHARDS];
};

void model_begin(void);
/* A client has sent an update on its way; a machine tells it that the update is stored. */
void model_written(uint32_t client, uint32_t shard, uint32_t number, uint32_t player,
                   uint32_t score);
void model_acked(uint32_t client, uint32_t shard, uint32_t number);
/* A machine's small file has changed. 1: a view counts since then. */
int model_views(uint32_t machine);
/* A machine has finished the copies that its order asks for. */
void model_copied(uint32_t machine, const struct view *next, const struct restart_task *task);
/* All members' logs of the last view, while nothing fails. */
void model_all(void);

const struct seen *model_last(void); /* the last view that counts */
const struct seen *model_view(uint32_t index);
uint32_t model_count(void);                                 /* of the views that count */
uint32_t model_unlisted(uint32_t number, uint32_t members); /* 1: it does not count */

#endif
