#include "layout.h"

#include <string.h>

static uint32_t sets_in(const struct layout *layout, uint32_t mask)
{
    uint32_t seen = 0, count = 0;
    for (uint32_t n = 0; n < layout->nodes; n++)
        if (mask >> n & 1 && !(seen >> layout->set_of[n] & 1)) {
            seen |= UINT32_C(1) << layout->set_of[n];
            count++;
        }
    return count;
}

int layout_fits(const struct layout *layout, uint32_t shard, uint32_t mask)
{
    uint32_t count = 0;
    for (uint32_t n = 0; n < RESTART_NODES; n++)
        count += mask >> n & 1;
    return sets_in(layout, mask) >= layout->need[shard] &&
           count <= (layout->cap[shard] ? layout->cap[shard] : layout->need[shard]);
}

/* Puts every shard of a subgroup on machines that no other shard of it has; 0 where that fails. */
static int place(struct layout *layout, struct chance *chance)
{
    uint32_t used[RESTART_SUBGROUPS] = {0};
    for (uint32_t s = 0; s < layout->shards; s++) {
        uint32_t *taken = &used[layout->subgroup[s]], mask = 0, sets = 0;
        for (uint32_t tries = 0; sets < layout->need[s]; tries++) {
            if (tries == 8 * layout->nodes)
                return 0;
            uint32_t n = below(chance, layout->nodes);
            if (!(*taken >> n & 1) && sets_in(layout, mask | UINT32_C(1) << n) > sets) {
                mask |= UINT32_C(1) << n;
                *taken |= UINT32_C(1) << n;
                sets++;
            }
        }
        layout->first[s] = mask;
    }
    /* who is left may be with a shard that has room */
    for (uint32_t i = 0; i < 2 * layout->nodes; i++) {
        uint32_t s = below(chance, layout->shards);
        uint32_t *taken = &used[layout->subgroup[s]];
        uint32_t n = below(chance, layout->nodes), with = layout->first[s] | UINT32_C(1) << n;
        if (!(*taken >> n & 1) && layout_fits(layout, s, with)) {
            *taken |= UINT32_C(1) << n;
            layout->first[s] = with;
        }
    }
    return 1;
}

/* A layout in which machine 0, the holder of shard 0, goes over to shard 1 when machine 3 is away: no
 * other is of another set than machine 2. */
static void draw_crossed(struct layout *layout)
{
    layout->sets = 3;
    for (uint32_t n = 0; n < layout->nodes; n++)
        layout->set_of[n] = n == 0 ? 0 : n == 3 ? 2 : 1;
    layout->least = 1;
    layout->shards = 2;
    layout->need[0] = 1;
    layout->cap[0] = 2;
    layout->need[1] = 2;
    layout->first[0] = 3;
    layout->first[1] = 12;
}

static void draw(struct layout *layout, struct chance *chance)
{
    uint32_t nodes = layout->nodes;
    /* in a tight layout shards of one subgroup take machines from one another */
    bool tight = below(chance, 3) == 0;
    layout->sets = !tight && below(chance, 3) ? nodes : 1 + below(chance, nodes);
    if (layout->sets > RESTART_SETS)
        layout->sets = RESTART_SETS;
    for (uint32_t n = 0; n < nodes; n++)
        layout->set_of[n] = n < layout->sets ? n : below(chance, layout->sets);
    layout->least = below(chance, 4) ? 1 : 1 + below(chance, nodes / 2 + 1);
    layout->shards = 1 + below(chance, nodes < 9 ? 4 : 8);
    uint32_t groups = tight || below(chance, 3) ? 1 : 1 + below(chance, 3);
    for (uint32_t s = 0; s < layout->shards; s++) {
        uint32_t most = layout->sets < 3 ? layout->sets : tight ? 2 : 3;
        layout->subgroup[s] = below(chance, groups);
        layout->need[s] = most < 2 || below(chance, 4) == 0 ? 1 + below(chance, most)
                                                            : 2 + below(chance, most - 1);
        layout->cap[s] = !tight && below(chance, 2) ? 0 : layout->need[s] + below(chance, 3);
    }
}

static void write_settings(struct layout *layout)
{
    uint8_t *out = layout->settings;
    uint32_t nodes = layout->nodes;
    restart_put_word(out, 0, nodes);
    restart_put_word(out, 1, layout->sets);
    restart_put_word(out, 2, layout->least);
    restart_put_word(out, 3, layout->shards);
    for (uint32_t n = 0; n < nodes; n++)
        restart_put_word(out, 4 + n, layout->set_of[n]);
    for (uint32_t s = 0; s < layout->shards; s++)
        restart_put_word(out, 4 + nodes + s,
                         layout->cap[s] * 65536 + layout->subgroup[s] * 256 + layout->need[s]);
    layout->settings_len = 4 * (4 + nodes + layout->shards);
}

void layout_change(struct layout *layout, struct chance *chance)
{
    struct layout other;
    if (layout->crossed) {
        /* machine 3 is of machine 2's set, or is so no longer */
        layout->set_of[3] = 3 - layout->set_of[3];
        write_settings(layout);
        return;
    }
    do {
        other = *layout;
        draw(&other, chance);
        other.shards = layout->shards;
        memcpy(other.subgroup, layout->subgroup, sizeof other.subgroup);
        for (uint32_t s = 0; s < other.shards; s++)
            if (!other.need[s])
                other.need[s] = 1;
    } while (!place(&other, chance));
    memcpy(other.first, layout->first, sizeof other.first);
    *layout = other;
    write_settings(layout);
}

void layout_draw(struct layout *layout, struct chance *chance, uint32_t nodes)
{
    bool crossed = nodes >= 4 && nodes < 9 && below(chance, 12) == 0;
    do {
        memset(layout, 0, sizeof *layout);
        layout->nodes = nodes;
        layout->crossed = crossed;
        if (crossed)
            draw_crossed(layout);
        else
            draw(layout, chance);
    } while (!crossed && !place(layout, chance));
    write_settings(layout);
}
