/* The store of a course: settings and first view. */
#ifndef LAYOUT_H
#define LAYOUT_H

#include "chance.h"

#include <restart.h>

struct layout {
    uint32_t nodes, sets, least, shards;
    uint32_t set_of[RESTART_NODES];
    uint32_t need[RESTART_SHARDS], cap[RESTART_SHARDS], subgroup[RESTART_SHARDS];
    uint32_t first[RESTART_SHARDS]; /* each shard's members in view 1 */
    bool crossed;
    uint8_t settings[RESTART_SETTINGS_BYTES];
    size_t settings_len;
};

/* Any layout of `nodes` machines, in which all of them together can carry all shards. */
void layout_draw(struct layout *layout, struct chance *chance, uint32_t nodes);
/* Other failure sets, needs and caps; machines, shards and subgroups stay. */
void layout_change(struct layout *layout, struct chance *chance);
/* Whether these machines have at least as many sets as the shard needs, and no more than its cap. */
int layout_fits(const struct layout *layout, uint32_t shard, uint32_t mask);

#endif
