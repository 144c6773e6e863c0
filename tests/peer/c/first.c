/*
 * The placement that the library takes, for the peer; see peer.h: of those of least moves the ones of
 * most stays, and of those the first in order.
 *
 * A node was a member of at most one shard of a subgroup. Each shard first keeps its first old
 * members. Where none lacks a node, that is the answer. Else each node that a shard lacks is one that
 * nobody has, or comes by the cheapest chain of exchanges. Then shard by shard and node by node the
 * first is chosen: a node joins where a chain of exchanges that costs nothing makes room for it. What
 * the cheapest chains to each node cost, found once, says which exchanges can be part of such a chain.
 */
#include "parts.h"

/* Places of a chain: nodes, and the pool of those that nobody has. */
enum { POOL = NODES, PLACES, START = PLACES };
enum { NOBODY = SHARDS };
enum { A_MOVE = 64, A_STAY = -1, UNIT = 64, FAR = 1 << 24 };

struct first {
    const uint8_t *set;   /* of each node */
    uint32_t count, held; /* shards; nodes */
    uint32_t nodes[SETS]; /* held nodes of a set */
    uint32_t shard[SHARDS], need[SHARDS], cap[SHARDS];
    uint32_t old[SHARDS];     /* held old members */
    uint32_t own[SHARDS + 1]; /* nodes that it has; at last those that nobody has */
    uint32_t used[SHARDS];    /* their sets */
    uint32_t outside[SHARDS]; /* held nodes of other sets */
    uint8_t owner[NODES];
    /* Chains: what the cheapest ones to each place cost, the way back, places to go on from. */
    int price[PLACES];
    uint8_t from[PLACES];
    uint64_t open;
    /* Choosing: nodes that are in no list yet, the shard whose list is made, what may still join it,
     * places from which nothing else can be reached. */
    uint32_t live, now, after, back; /* back: the first shard that may take from the pool */
    uint64_t dead;
    uint32_t levels, level[NODES]; /* nodes of equal price */
    int level_price[NODES];
};

static uint32_t lowest_place(uint64_t places)
{
    return (uint32_t)__builtin_ctzll(places);
}

static uint32_t bit(uint32_t node)
{
    return UINT32_C(1) << node;
}

static uint64_t place_bit(uint32_t place)
{
    return UINT64_C(1) << place;
}

/* ---- what each shard has ---- */

static void count_sets(struct first *sub, uint32_t k)
{
    uint32_t used = 0, outside = sub->held;
    for (uint32_t left = sub->own[k]; left; left &= left - 1) {
        uint32_t set = sub->set[lowest(left)];
        used |= bit(set);
        outside &= ~sub->nodes[set];
    }
    sub->used[k] = used;
    sub->outside[k] = outside;
}

static void give(struct first *sub, uint32_t node, uint32_t k)
{
    sub->own[sub->owner[node]] &= ~bit(node);
    sub->own[k] |= bit(node);
    sub->owner[node] = (uint8_t)k;
}

/* The shard keeps its first old members: as many as it may, of as many sets as it needs. How many
 * nodes it lacks. */
static uint32_t keep(struct first *sub, uint32_t k)
{
    uint32_t sets = 0, outside = sub->held;
    for (uint32_t left = sub->old[k]; left; left &= left - 1) {
        uint32_t set = sub->set[lowest(left)];
        sets |= bit(set);
        outside &= ~sub->nodes[set];
    }
    uint32_t of = bits(sets), lacks = of < sub->need[k] ? sub->need[k] - of : 0;
    uint32_t missing = sub->need[k] - lacks, room = sub->cap[k] - lacks, own = 0, used = 0;
    for (uint32_t left = sub->old[k]; left && room; left &= left - 1) {
        uint32_t node = lowest(left), set = sub->set[node];
        if (has(used, set) && room == missing)
            continue;
        missing -= missing && !has(used, set);
        used |= bit(set);
        own |= bit(node);
        --room;
        sub->owner[node] = (uint8_t)k;
    }
    sub->own[k] = own;
    sub->own[NOBODY] &= ~own;
    sub->used[k] = used;
    sub->outside[k] = outside;
    if (used != sets)
        count_sets(sub, k);
    return lacks;
}

static void open_subgroup(struct first *sub, const struct restart *restart)
{
    memset(sub->nodes, 0, sizeof sub->nodes);
    memset(sub->owner, NOBODY, sizeof sub->owner);
    sub->set = restart->settings.set;
    sub->count = 0;
    sub->held = sub->live = sub->after = sub->own[NOBODY] = restart->held;
    sub->now = NOBODY;
    for (uint32_t left = restart->held; left; left &= left - 1)
        sub->nodes[sub->set[lowest(left)]] |= left & -left;
}

/* ---- exchanges ---- */

static int cost(const struct first *sub, uint32_t k, uint32_t node)
{
    if (k == NOBODY)
        return 0;
    return has(sub->old[k], node) ? A_STAY : A_MOVE;
}

/* Nodes without which the shard has sets enough, or as many as before. */
static uint32_t spares(const struct first *sub, uint32_t k)
{
    uint32_t own = sub->own[k], sets = bits(sub->used[k]), spare = 0;
    if (sets > sub->need[k])
        return own;
    if (bits(own) > sets)
        for (uint32_t left = sub->used[k]; left; left &= left - 1) {
            uint32_t like = own & sub->nodes[lowest(left)];
            spare |= like & (like - 1) ? like : 0;
        }
    return spare;
}

static int is_spare(const struct first *sub, uint32_t k, uint32_t node)
{
    uint32_t like = sub->own[k] & sub->nodes[sub->set[node]];
    return (like & (like - 1)) != 0 || bits(sub->used[k]) > sub->need[k];
}

/* Nodes that a shard may take in place of its node. */
static uint32_t instead(const struct first *sub, uint32_t k, uint32_t node, int spare)
{
    uint32_t may = spare ? sub->held : sub->outside[k] | sub->nodes[sub->set[node]];
    return may & ~sub->own[k] & (k == sub->now ? sub->after : sub->live);
}

/* Each place on the way back gets the owner of the one before, the first the given shard. */
static void exchange(struct first *sub, uint32_t k, uint32_t end)
{
    uint32_t changed = 0;
    for (uint32_t at = end; at != START; at = sub->from[at]) {
        uint32_t before = sub->from[at], to = k;
        if (at == POOL)
            continue;
        if (before == POOL) {
            to = NOBODY;
            for (uint32_t q = 0; sub->price[at] != sub->price[POOL] && q < sub->count; ++q)
                to = has(sub->old[q], at) ? q : to;
        } else if (before != START)
            to = sub->owner[before];
        changed |= bit(to) | bit(sub->owner[at]);
        give(sub, at, to);
    }
    for (changed &= ~bit(NOBODY); changed; changed &= changed - 1)
        count_sets(sub, lowest(changed));
}

static void reach(struct first *sub, uint32_t place, int price, uint32_t from)
{
    if (price >= sub->price[place])
        return;
    sub->price[place] = price;
    sub->from[place] = (uint8_t)from;
    sub->open |= place_bit(place);
}

static void reach_all(struct first *sub, uint32_t nodes, int price, uint32_t from)
{
    for (; nodes; nodes &= nodes - 1)
        reach(sub, lowest(nodes), price, from);
}

/* From a node: its owner takes another or goes without. No place has a price above `most`. */
static void go_on(struct first *sub, uint32_t at, int unit, int step, int most)
{
    uint32_t k = sub->owner[at];
    int price = sub->price[at] - unit * cost(sub, k, at) + step;
    if (k == NOBODY) {
        reach(sub, POOL, price, at);
        return;
    }
    int spare = is_spare(sub, k, at);
    if (spare)
        reach(sub, POOL, price, at);
    uint32_t may = instead(sub, k, at, spare);
    if (price + unit * A_STAY < most)
        reach_all(sub, may & sub->old[k], price + unit * A_STAY, at);
    if (price + unit * A_MOVE < most)
        reach_all(sub, may & ~sub->old[k], price + unit * A_MOVE, at);
}

/* ---- least moves, most stays ---- */

/* One node more for a shard, by the cheapest chain that ends at the pool; of those a shortest. */
static int fill_by_chain(struct first *sub, uint32_t k)
{
    for (uint32_t place = 0; place < PLACES; ++place)
        sub->price[place] = FAR;
    sub->open = 0;
    reach_all(sub, sub->outside[k] & sub->old[k], UNIT * A_STAY, START);
    reach_all(sub, sub->outside[k] & ~sub->old[k], UNIT * A_MOVE, START);
    while (sub->open & (place_bit(POOL) - 1)) {
        uint32_t at = lowest_place(sub->open);
        sub->open &= sub->open - 1;
        go_on(sub, at, UNIT, 1, FAR);
    }
    if (sub->price[POOL] == FAR)
        return 0;
    exchange(sub, k, POOL);
    return 1;
}

/* While a shard has all sets of its old members, nothing is cheaper than a node that nobody has. */
static int fill(struct first *sub, uint32_t k)
{
    uint32_t open = sub->outside[k] & sub->own[NOBODY];
    if (!open || sub->outside[k] & sub->old[k])
        return fill_by_chain(sub, k);
    uint32_t node = lowest(open), set = sub->set[node];
    give(sub, node, k);
    sub->used[k] |= bit(set);
    sub->outside[k] &= ~sub->nodes[set];
    return 1;
}

/* ---- first in order ---- */

/* From the pool: a node goes into it, or back where it was and there is room. */
static void leave_pool(struct first *sub)
{
    int price = sub->price[POOL];
    if (price < 0)
        reach_all(sub, sub->held & ~sub->own[NOBODY], price, POOL);
    for (uint32_t k = 0; k < sub->count; ++k)
        if (bits(sub->own[k]) < sub->cap[k])
            reach_all(sub, sub->old[k] & ~sub->own[k], price + A_STAY, POOL);
}

/* What the cheapest chains from anywhere cost: nothing, or less where they begin with a move undone
 * or a node that comes back. */
static void find_prices(struct first *sub)
{
    memset(sub->price, 0, sizeof sub->price);
    sub->open = place_bit(POOL);
    for (uint32_t k = 0; k < sub->count; ++k)
        sub->open |= sub->own[k] & ~sub->old[k];
    while (sub->open) {
        uint32_t at = lowest_place(sub->open);
        sub->open &= sub->open - 1;
        if (at == POOL)
            leave_pool(sub);
        else
            go_on(sub, at, 1, 0, 0);
    }
    sub->levels = 0;
    for (uint32_t left = sub->held; left;) {
        int price = sub->price[lowest(left)];
        uint32_t same = 0;
        for (uint32_t more = left; more; more &= more - 1)
            same |= sub->price[lowest(more)] == price ? more & -more : 0;
        sub->level_price[sub->levels] = price;
        sub->level[sub->levels++] = same;
        left &= ~same;
    }
}

static uint32_t at_price(const struct first *sub, int price)
{
    uint32_t nodes = 0;
    for (uint32_t l = 0; l < sub->levels; ++l)
        nodes |= sub->level_price[l] == price ? sub->level[l] : 0;
    return nodes;
}

/* Nodes whose price less what the shard pays for them is this: it may exchange them for nothing. */
static uint32_t even(const struct first *sub, uint32_t k, int price)
{
    return (at_price(sub, price + A_STAY) & sub->old[k]) |
           (at_price(sub, price + A_MOVE) & ~sub->old[k]);
}

/* The places to which an exchange leads that can be part of a chain that costs nothing. */
static uint64_t onward(const struct first *sub, uint32_t at)
{
    int price = sub->price[at], pool = sub->price[POOL];
    if (at == POOL) {
        uint32_t to = sub->live & ~sub->own[NOBODY] & at_price(sub, price);
        for (uint32_t k = sub->back; k < sub->count; ++k)
            if (bits(sub->own[k]) < sub->cap[k])
                to |= sub->old[k] & ~sub->own[k] & (k == sub->now ? sub->after : sub->live) &
                      at_price(sub, price + A_STAY);
        return to;
    }
    uint32_t k = sub->owner[at];
    price -= cost(sub, k, at);
    if (k == NOBODY)
        return price == pool ? place_bit(POOL) : 0;
    int spare = is_spare(sub, k, at);
    uint64_t to = instead(sub, k, at, spare) & even(sub, k, price);
    return spare && price == pool ? to | place_bit(POOL) : to;
}

/* The nearest goal to which a chain leads; PLACES if there is none. */
static uint32_t lead(struct first *sub, uint32_t at, uint64_t goals)
{
    uint64_t seen = place_bit(at), front = seen;
    if (!goals || (sub->dead & seen && !(sub->dead & goals)))
        return PLACES;
    sub->from[at] = START;
    while (front) {
        uint64_t next = 0;
        for (; front; front &= front - 1) {
            uint64_t found = onward(sub, lowest_place(front)) & ~seen;
            for (uint64_t left = found; left; left &= left - 1)
                sub->from[lowest_place(left)] = (uint8_t)lowest_place(front);
            if (found & goals)
                return lowest_place(found & goals);
            seen |= found;
            next |= found;
        }
        front = next;
    }
    sub->dead = seen;
    return PLACES;
}

static int exchanged(struct first *sub, uint32_t at, uint64_t goals)
{
    uint32_t end = lead(sub, at, goals);
    if (end == PLACES)
        return 0;
    exchange(sub, sub->now, end);
    sub->dead = 0;
    return 1;
}

/* The node joins the shard, if that costs nothing: another one leaves it, or there is room. */
static int joins(struct first *sub, uint32_t node, uint32_t fixed)
{
    uint32_t k = sub->now, leave = sub->own[k] & ~fixed;
    int price = sub->price[node] - cost(sub, k, node);
    leave &= even(sub, k, price);
    if (leave && !has(sub->outside[k], node))
        leave &= sub->nodes[sub->set[node]] | spares(sub, k);
    uint64_t goals = leave;
    if (has(sub->old[k], node) && price == sub->price[POOL] && bits(sub->own[k]) < sub->cap[k])
        goals |= place_bit(POOL);
    return exchanged(sub, node, goals);
}

/* One of the shard's other nodes leaves it, if that costs nothing. */
static int leaves(struct first *sub, uint32_t fixed)
{
    uint32_t k = sub->now, other = sub->own[k] & ~fixed & even(sub, k, sub->price[POOL]);
    sub->back = k + 1;
    int left = exchanged(sub, POOL, other);
    sub->back = k;
    sub->dead = 0;
    return left;
}

/* The shard's nodes and those that may join it: one that is not in its list is even with them. */
static uint32_t candidates(const struct first *sub, uint32_t fixed)
{
    uint32_t k = sub->now, may = sub->own[k];
    for (uint32_t left = may & ~fixed; left;) {
        uint32_t node = lowest(left), same = even(sub, k, sub->price[node] - cost(sub, k, node));
        may |= same;
        left &= ~same;
    }
    return bits(sub->own[k]) < sub->cap[k] ? may | sub->old[k] : may;
}

/* Makes the list of a shard: it ends as soon as it can, and else goes on with the first node. */
static void choose(struct first *sub, uint32_t k)
{
    uint32_t fixed = 0, sets = 0;
    sub->now = sub->back = k;
    sub->after = sub->live;
    sub->dead = 0;
    for (;;) {
        if (bits(sets) >= sub->need[k])
            while (sub->own[k] != fixed && leaves(sub, fixed))
                ;
        if (sub->own[k] == fixed)
            return;
        uint32_t may = candidates(sub, fixed), node;
        do {
            node = lowest(sub->after & may);
            sub->after &= ~((bit(node) << 1) - 1);
        } while (!has(sub->own[k], node) && !joins(sub, node, fixed));
        fixed |= bit(node);
        sets |= bit(sub->set[node]);
        sub->live &= ~bit(node);
    }
}

int place_first(const struct restart *restart, uint32_t *masks, uint32_t group)
{
    const struct settings *settings = &restart->settings;
    struct first sub;
    uint32_t lacks[SHARDS], all = 0, moves = 0;
    open_subgroup(&sub, restart);
    for (uint32_t s = 0; s < settings->shards; ++s) {
        if (settings->group[s] != group)
            continue;
        uint32_t k = sub.count++;
        sub.shard[k] = s;
        sub.need[k] = settings->need[s];
        sub.cap[k] = settings->cap[s];
        sub.old[k] = word(restart->state, KEPT_MASKS + s) & restart->held;
        all += lacks[k] = keep(&sub, k);
    }
    for (uint32_t k = 0; k < sub.count; ++k)
        for (; lacks[k]; --lacks[k])
            if (!fill(&sub, k))
                return -1;
    if (all) {
        find_prices(&sub);
        for (uint32_t k = 0; k < sub.count; ++k)
            choose(&sub, k);
    }
    for (uint32_t k = 0; k < sub.count; ++k) {
        masks[sub.shard[k]] = sub.own[k];
        moves += bits(sub.own[k] & ~sub.old[k]);
    }
    return (int)moves;
}
