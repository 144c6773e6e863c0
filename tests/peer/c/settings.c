/* The settings, for the peer; see peer.h. */
#include "parts.h"

int read_settings(struct settings *to, const uint8_t *bytes, size_t length)
{
    if (length < 16)
        return 0;
    uint32_t nodes = word(bytes, 0), sets = word(bytes, 1), least = word(bytes, 2),
             shards = word(bytes, 3);
    if (nodes - 1 >= NODES || sets - 1 >= SETS || least - 1 >= nodes || shards - 1 >= SHARDS)
        return 0;
    if (length != 4 * (4 + (size_t)nodes + shards))
        return 0;
    uint32_t wrong = 0, capped = 0;
    for (uint32_t n = 0; n < nodes; ++n) {
        uint32_t set = word(bytes, 4 + n);
        wrong |= set >= sets;
        to->set[n] = (uint8_t)set;
    }
    for (uint32_t s = 0; s < shards; ++s) {
        uint32_t shard = word(bytes, 4 + nodes + s), need = shard & 255, group = shard >> 8 & 255,
                 cap = shard >> 16 ? shard >> 16 : need;
        wrong |= group >= GROUPS || need - 1 >= sets || cap < need || cap > MOST_CAP;
        to->group[s] = (uint8_t)group;
        to->need[s] = (uint8_t)need;
        to->cap[s] = (uint8_t)cap;
        capped |= (uint32_t)(cap != need) << (group & 31);
    }
    to->nodes = nodes;
    to->sets = sets;
    to->least = least;
    to->shards = shards;
    to->capped = capped;
    return !wrong;
}
