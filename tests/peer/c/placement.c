/*
 * Placements, for the peer; see peer.h. Where a shard may have more nodes than it needs, capped.c
 * finds them; here each has as many as it needs.
 *
 * A node was a member of at most one shard of a subgroup, so nodes of one set differ only in that:
 * it is enough to say which shard takes a node of which set. A shard takes the sets of its old
 * members first, which never crowds a set. Each node that it still lacks is one move where a set has
 * room, and else the end of a cheapest chain of exchanges.
 */
#include "parts.h"

int moves_of(const struct restart *restart, const uint8_t *masks)
{
    const struct settings *settings = &restart->settings;
    uint32_t taken[GROUPS] = {0}, wrong = 0, moves = 0;
    for (uint32_t s = 0; s < settings->shards; ++s) {
        uint32_t mask = word(masks, s), *of_group = &taken[settings->group[s]], sets = 0, count = 0;
        wrong |= (mask & ~restart->held) | (mask & *of_group);
        *of_group |= mask;
        moves += bits(mask & ~word(restart->state, KEPT_MASKS + s));
        for (; mask && !wrong; mask &= mask - 1, ++count)
            sets |= UINT32_C(1) << settings->set[lowest(mask)];
        wrong |= count > settings->cap[s] || bits(sets) < settings->need[s];
    }
    return wrong ? -1 : (int)moves;
}

/* A subgroup under way. */
struct subgroup {
    uint32_t count, sets; /* shards; sets that have a held node */
    uint32_t shard[SHARDS];
    uint32_t old[SHARDS];  /* held old members */
    uint32_t stay[SHARDS]; /* their sets */
    uint32_t used[SHARDS]; /* the sets taken */
    uint32_t lacks[SHARDS];
    uint32_t nodes[SETS]; /* held nodes of a set */
    uint32_t room[SETS];  /* how many of them are left */
    uint32_t full;        /* sets without room */
};

static uint32_t sets_of(const struct settings *settings, uint32_t nodes)
{
    uint32_t sets = 0;
    for (; nodes; nodes &= nodes - 1)
        sets |= UINT32_C(1) << settings->set[lowest(nodes)];
    return sets;
}

static void take(struct subgroup *sub, uint32_t k, uint32_t set)
{
    sub->used[k] |= UINT32_C(1) << set;
    if (--sub->room[set] == 0)
        sub->full |= UINT32_C(1) << set;
}

static void open_sets(struct subgroup *sub, const struct restart *restart)
{
    const struct settings *settings = &restart->settings;
    memset(sub->nodes, 0, sizeof sub->nodes);
    for (uint32_t left = restart->held; left; left &= left - 1)
        sub->nodes[settings->set[lowest(left)]] |= left & -left;
    sub->sets = sub->full = sub->count = 0;
    for (uint32_t f = 0; f < settings->sets; ++f) {
        sub->room[f] = bits(sub->nodes[f]);
        sub->sets |= (uint32_t)(sub->room[f] != 0) << f;
    }
}

/* Each shard of the subgroup takes sets of its old members, as many as it needs. */
static void stay(struct subgroup *sub, const struct restart *restart, uint32_t group)
{
    const struct settings *settings = &restart->settings;
    open_sets(sub, restart);
    for (uint32_t s = 0; s < settings->shards; ++s) {
        if (settings->group[s] != group)
            continue;
        uint32_t k = sub->count++, need = settings->need[s];
        sub->shard[k] = s;
        sub->old[k] = word(restart->state, KEPT_MASKS + s) & restart->held;
        sub->stay[k] = sets_of(settings, sub->old[k]);
        sub->used[k] = 0;
        for (uint32_t left = sub->stay[k]; left && need; left &= left - 1, --need)
            take(sub, k, lowest(left));
        sub->lacks[k] = need;
    }
}

/* Chains of exchanges: prices of the cheapest ones that reach each shard and set, and the way back. */
struct chains {
    int shard_price[SHARDS], set_price[SETS];
    uint8_t shard_from[SHARDS], set_from[SETS];
};

enum { FAR = 1000 };

static int price(const struct subgroup *sub, uint32_t k, uint32_t set)
{
    return !has(sub->stay[k], set);
}

/* A set is reached: those that use it may give it up. The shards whose price fell. */
static uint32_t given_up(const struct subgroup *sub, struct chains *chains, uint32_t set)
{
    uint32_t fell = 0;
    for (uint32_t q = 0; q < sub->count; ++q) {
        int own = chains->set_price[set] - price(sub, q, set);
        if (has(sub->used[q], set) && own < chains->shard_price[q]) {
            chains->shard_price[q] = own;
            chains->shard_from[q] = (uint8_t)set;
            fell |= UINT32_C(1) << q;
        }
    }
    return fell;
}

static void find_chains(const struct subgroup *sub, struct chains *chains, uint32_t start)
{
    for (uint32_t k = 0; k < sub->count; ++k)
        chains->shard_price[k] = FAR;
    for (uint32_t f = 0; f < SETS; ++f)
        chains->set_price[f] = FAR;
    chains->shard_price[start] = 0;
    for (uint32_t open = UINT32_C(1) << start; open;) {
        uint32_t k = lowest(open);
        open &= open - 1;
        for (uint32_t left = sub->sets & ~sub->used[k]; left; left &= left - 1) {
            uint32_t set = lowest(left);
            int own = chains->shard_price[k] + price(sub, k, set);
            if (own < chains->set_price[set]) {
                chains->set_price[set] = own;
                chains->set_from[set] = (uint8_t)k;
                open |= given_up(sub, chains, set);
            }
        }
    }
}

/* Exchanges along the cheapest chain that ends at a set with room. */
static int exchange(struct subgroup *sub, uint32_t start)
{
    struct chains chains;
    uint32_t end = SETS;
    find_chains(sub, &chains, start);
    for (uint32_t left = sub->sets & ~sub->full; left; left &= left - 1)
        if (chains.set_price[lowest(left)] < (end < SETS ? chains.set_price[end] : FAR))
            end = lowest(left);
    if (end == SETS)
        return 0;
    if (--sub->room[end] == 0)
        sub->full |= UINT32_C(1) << end;
    for (uint32_t set = end;;) {
        uint32_t k = chains.set_from[set];
        sub->used[k] |= UINT32_C(1) << set;
        if (k == start)
            return 1;
        set = chains.shard_from[k];
        sub->used[k] &= ~(UINT32_C(1) << set);
    }
}

/* A move into a set with room is the cheapest that a shard can get beyond its old members. */
static int move(struct subgroup *sub, uint32_t k)
{
    uint32_t open = sub->sets & ~(sub->used[k] | sub->full);
    if (open == 0)
        return exchange(sub, k);
    take(sub, k, lowest(open));
    return 1;
}

/* The nodes of each shard by the sets it took: first those that stay, then the others. */
static int name_nodes(struct subgroup *sub, uint32_t *masks)
{
    uint32_t moves = 0, of_shard[SHARDS] = {0};
    for (uint32_t k = 0; k < sub->count; ++k)
        for (uint32_t left = sub->used[k] & sub->stay[k]; left; left &= left - 1) {
            uint32_t *nodes = &sub->nodes[lowest(left)], own = *nodes & sub->old[k];
            of_shard[k] |= own & -own;
            *nodes &= ~(own & -own);
        }
    for (uint32_t k = 0; k < sub->count; ++k) {
        for (uint32_t left = sub->used[k] & ~sub->stay[k]; left; left &= left - 1, ++moves) {
            uint32_t *nodes = &sub->nodes[lowest(left)], own = *nodes & -*nodes;
            of_shard[k] |= own;
            *nodes &= ~own;
        }
        masks[sub->shard[k]] = of_shard[k];
    }
    return (int)moves;
}

int place(const struct restart *restart, uint32_t *masks, uint32_t group)
{
    if (has(restart->settings.capped, group))
        return place_capped(restart, masks, group);
    struct subgroup sub;
    stay(&sub, restart, group);
    for (uint32_t k = 0; k < sub.count; ++k)
        for (; sub.lacks[k]; --sub.lacks[k])
            if (!move(&sub, k))
                return -1;
    return name_nodes(&sub, masks);
}
