/*
 * Placements of a subgroup in which a shard may have more nodes than it needs, for the peer; see
 * peer.h.
 *
 * A node was a member of at most one shard of a subgroup. Each shard first keeps its old members: one
 * of each set for its need, then others for what its cap leaves beyond the need. That is the most that
 * can stay. Each node that a shard still lacks comes by the cheapest chain of exchanges: at its end is
 * a node that nobody has, or one that a shard keeps beyond its need and lets go.
 */
#include "parts.h"

/* Places of a chain: nodes, then each shard's need, each shard's room beyond it, and each shard's sets. */
enum { NEED_AT = NODES, ROOM_AT = NEED_AT + SHARDS, SET_AT = ROOM_AT + SHARDS };
enum { PLACES = SET_AT + SHARDS * SETS };
enum { A_MOVE = 64, A_STAY = -1, FAR = 30000 };

/* A subgroup under way. */
struct capped {
    const uint8_t *set;   /* of each node */
    uint32_t count, sets; /* shards; sets that have a held node */
    uint32_t shard[SHARDS];
    uint32_t old[SHARDS];  /* held old members */
    uint32_t stay[SHARDS]; /* their sets */
    uint32_t used[SHARDS]; /* the sets of those that it has for its need */
    uint32_t need[SHARDS]; /* nodes that it has for its need */
    uint32_t room[SHARDS]; /* nodes that it has beyond */
    uint32_t nodes[SETS];  /* held nodes of a set */
    uint32_t free;         /* held nodes that nobody has */
    uint8_t owner[NODES];  /* NEED_AT or ROOM_AT and the shard */
};

static void open_nodes(struct capped *sub, const struct restart *restart)
{
    memset(sub->nodes, 0, sizeof sub->nodes);
    sub->set = restart->settings.set;
    sub->free = restart->held;
    sub->count = sub->sets = 0;
    for (uint32_t left = restart->held; left; left &= left - 1) {
        uint32_t set = sub->set[lowest(left)];
        sub->nodes[set] |= left & -left;
        sub->sets |= UINT32_C(1) << set;
    }
}

static void give(struct capped *sub, uint32_t node, uint32_t owner)
{
    sub->free &= ~(UINT32_C(1) << node);
    sub->owner[node] = (uint8_t)owner;
}

/* The shard keeps its old members, one of each set first. How many nodes it lacks. */
static uint32_t keep(struct capped *sub, uint32_t k, uint32_t need, uint32_t room)
{
    uint32_t beyond = 0;
    sub->stay[k] = sub->used[k] = sub->need[k] = sub->room[k] = 0;
    for (uint32_t left = sub->old[k]; left; left &= left - 1) {
        uint32_t node = lowest(left), set = sub->set[node];
        if (need && !has(sub->used[k], set)) {
            give(sub, node, NEED_AT + k);
            sub->used[k] |= UINT32_C(1) << set;
            sub->need[k] |= left & -left;
            --need;
        } else
            beyond |= left & -left;
        sub->stay[k] |= UINT32_C(1) << set;
    }
    for (; beyond && room; beyond &= beyond - 1, --room) {
        give(sub, lowest(beyond), ROOM_AT + k);
        sub->room[k] |= beyond & -beyond;
    }
    return need;
}

/* Prices of the cheapest chains that reach each place, and the way back. */
struct chains {
    int16_t price[PLACES];
    uint16_t from[PLACES];
    uint16_t open[PLACES];
    uint8_t waits[PLACES];
    uint32_t first, count;
};

static void reach(struct chains *chains, uint32_t place, int price, uint32_t from)
{
    if (price >= chains->price[place])
        return;
    chains->price[place] = (int16_t)price;
    chains->from[place] = (uint16_t)from;
    if (!chains->waits[place]) {
        chains->waits[place] = 1;
        chains->open[(chains->first + chains->count++) % PLACES] = (uint16_t)place;
    }
}

static int price(const struct capped *sub, uint32_t k, uint32_t node)
{
    return has(sub->old[k], node) ? A_STAY : A_MOVE;
}

/* From a place to those that an exchange leads to. */
static void go_on(const struct capped *sub, struct chains *chains, uint32_t at)
{
    int so_far = chains->price[at];
    if (at < NEED_AT) {
        if (has(sub->free, at))
            return;
        uint32_t owner = sub->owner[at];
        if (owner >= ROOM_AT)
            reach(chains, owner, so_far - A_STAY, at);
        else
            reach(chains, SET_AT + SETS * (owner - NEED_AT) + sub->set[at],
                  so_far - price(sub, owner - NEED_AT, at), at);
    } else if (at < ROOM_AT) {
        uint32_t k = at - NEED_AT;
        for (uint32_t left = sub->sets & ~sub->used[k]; left; left &= left - 1)
            reach(chains, SET_AT + SETS * k + lowest(left), so_far, at);
    } else if (at < SET_AT) {
        uint32_t k = at - ROOM_AT;
        for (uint32_t left = sub->old[k] & ~sub->room[k]; left; left &= left - 1)
            reach(chains, lowest(left), so_far + A_STAY, at);
    } else {
        uint32_t k = (at - SET_AT) / SETS, set = (at - SET_AT) % SETS;
        for (uint32_t left = sub->nodes[set] & ~sub->need[k]; left; left &= left - 1)
            reach(chains, lowest(left), so_far + price(sub, k, lowest(left)), at);
        if (has(sub->used[k], set))
            reach(chains, NEED_AT + k, so_far, at);
    }
}

/* The place at which the cheapest chain from a shard's need ends; PLACES if there is none. */
static uint32_t find_chain(const struct capped *sub, struct chains *chains, uint32_t k)
{
    for (uint32_t place = 0; place < PLACES; ++place)
        chains->price[place] = FAR;
    memset(chains->waits, 0, sizeof chains->waits);
    chains->first = chains->count = 0;
    reach(chains, NEED_AT + k, 0, PLACES);
    while (chains->count) {
        uint32_t at = chains->open[chains->first];
        chains->first = (chains->first + 1) % PLACES;
        --chains->count;
        chains->waits[at] = 0;
        go_on(sub, chains, at);
    }
    uint32_t end = PLACES;
    int least = FAR;
    for (uint32_t left = sub->free; left; left &= left - 1)
        if (chains->price[lowest(left)] < least)
            least = chains->price[end = lowest(left)];
    for (uint32_t place = ROOM_AT; place < SET_AT; ++place)
        if (chains->price[place] < least)
            least = chains->price[end = place];
    return end;
}

/* Exchanges along the chain. A node on it goes to the place before it. */
static void exchange(struct capped *sub, const struct chains *chains, uint32_t end)
{
    for (uint32_t at = end; chains->from[at] != PLACES;) {
        uint32_t before = chains->from[at];
        if (at < NEED_AT) {
            uint32_t k = before < SET_AT ? before - ROOM_AT : (before - SET_AT) / SETS;
            uint32_t *had = before < SET_AT ? &sub->room[k] : &sub->need[k];
            *had |= UINT32_C(1) << at;
            give(sub, at, before < SET_AT ? before : NEED_AT + k);
        } else if (before < NEED_AT) {
            uint32_t k = at < SET_AT ? at - ROOM_AT : (at - SET_AT) / SETS;
            uint32_t *had = at < SET_AT ? &sub->room[k] : &sub->need[k];
            *had &= ~(UINT32_C(1) << before);
        } else if (before < ROOM_AT)
            sub->used[before - NEED_AT] |= UINT32_C(1) << (at - SET_AT) % SETS;
        else
            sub->used[at - NEED_AT] &= ~(UINT32_C(1) << (before - SET_AT) % SETS);
        at = before;
    }
}

/* While a shard has all sets of its old members, nothing is cheaper than a node that nobody has. */
static int move(struct capped *sub, uint32_t k)
{
    if (!(sub->stay[k] & ~sub->used[k]))
        for (uint32_t left = sub->sets & ~sub->used[k]; left; left &= left - 1) {
            uint32_t own = sub->nodes[lowest(left)] & sub->free;
            if (own) {
                give(sub, lowest(own), NEED_AT + k);
                sub->need[k] |= own & -own;
                sub->used[k] |= left & -left;
                return 1;
            }
        }
    struct chains chains;
    uint32_t end = find_chain(sub, &chains, k);
    if (end == PLACES)
        return 0;
    exchange(sub, &chains, end);
    return 1;
}

int place_capped(const struct restart *restart, uint32_t *masks, uint32_t group)
{
    const struct settings *settings = &restart->settings;
    struct capped sub;
    uint32_t lacks[SHARDS], moves = 0;
    open_nodes(&sub, restart);
    for (uint32_t s = 0; s < settings->shards; ++s) {
        if (settings->group[s] != group)
            continue;
        uint32_t k = sub.count++, need = settings->need[s];
        sub.shard[k] = s;
        sub.old[k] = word(restart->state, KEPT_MASKS + s) & restart->held;
        lacks[k] = keep(&sub, k, need, settings->cap[s] - need);
    }
    for (uint32_t k = 0; k < sub.count; ++k)
        for (; lacks[k]; --lacks[k])
            if (!move(&sub, k))
                return -1;
    for (uint32_t k = 0; k < sub.count; ++k) {
        masks[sub.shard[k]] = sub.need[k] | sub.room[k];
        moves += bits(sub.need[k] & ~sub.old[k]);
    }
    return (int)moves;
}
