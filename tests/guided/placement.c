/*
 * Placements, plainly; see plain.h. Which of them have the least weight is a flow of least cost, from
 * shards through sets to nodes; the first one is found node by node, and after each it is asked whether
 * a placement of no more weight still goes on from there.
 */
#include "plain.h"

#include <string.h>

enum {
    SOURCE,
    SINK,
    NODE_AT,
    NEED_AT = NODE_AT + 32,
    ROOM_AT = NEED_AT + 16,
    SET_AT = ROOM_AT + 16
};
enum { PLACES = SET_AT + 16 * 16, EDGES = 8192, NEEDED = -(1 << 16) };

/* What is settled of a shard: the nodes that it has, those that it may still get, and whether it gets
 * no more. */
struct part {
    uint32_t has, may;
    int closed;
};

struct flow {
    int count, head[PLACES];
    struct {
        int to, next, room, cost;
    } edges[EDGES];
};

static void one_way(struct flow *flow, int from, int to, int room, int cost)
{
    int edge = flow->count++;
    flow->edges[edge].to = to;
    flow->edges[edge].next = flow->head[from];
    flow->edges[edge].room = room;
    flow->edges[edge].cost = cost;
    flow->head[from] = edge;
}

static void join(struct flow *flow, int from, int to, int room, int cost)
{
    one_way(flow, from, to, room, cost);
    one_way(flow, to, from, 0, -cost);
}

/* Sends one more along the cheapest way while that lowers the cost; the cost of all. */
static int send_all(struct flow *flow)
{
    static int price[PLACES], by[PLACES], waits[PLACES], queue[PLACES];
    for (int total = 0;;) {
        for (int p = 0; p < PLACES; p++) {
            price[p] = NO_PLACEMENT;
            waits[p] = 0;
        }
        int first = 0, count = 1;
        price[SOURCE] = 0;
        queue[0] = SOURCE;
        while (count > 0) {
            int here = queue[first];
            first = (first + 1) % PLACES;
            count--;
            waits[here] = 0;
            for (int e = flow->head[here]; e >= 0; e = flow->edges[e].next) {
                int to = flow->edges[e].to, cost = price[here] + flow->edges[e].cost;
                if (flow->edges[e].room == 0 || cost >= price[to])
                    continue;
                price[to] = cost;
                by[to] = e;
                if (!waits[to]) {
                    waits[to] = 1;
                    queue[(first + count++) % PLACES] = to;
                }
            }
        }
        if (price[SINK] >= 0)
            return total;
        total += price[SINK];
        for (int p = SINK; p != SOURCE; p = flow->edges[by[p] ^ 1].to) {
            flow->edges[by[p]].room--;
            flow->edges[by[p] ^ 1].room++;
        }
    }
}

static uint32_t sets_of(const struct plan_settings *settings, uint32_t nodes)
{
    uint32_t sets = 0;
    for (uint32_t n = 0; n < settings->nodes; n++)
        if (is_in(nodes, n))
            sets |= 1u << settings->set[n];
    return sets;
}

static int weight_of(const struct layout *layout, enum weight weight, uint32_t shard, uint32_t node)
{
    if (weight == BY_MOVES)
        return !is_in(layout->old[shard], node);
    return is_in(layout->old[shard], node) ? -1 : 64;
}

/* The least weight of the valid placements that have what is settled. */
static int least_of(const struct layout *layout, enum weight weight, const struct part *parts)
{
    static struct flow flow;
    const struct plan_settings *settings = layout->settings;
    uint32_t taken = 0;
    int total = 0, needed = 0;
    flow.count = 0;
    for (int p = 0; p < PLACES; p++)
        flow.head[p] = -1;
    for (uint32_t s = 0; s < settings->shards; s++)
        if (settings->group[s] == layout->group)
            taken |= parts[s].has;
    for (uint32_t s = 0; s < settings->shards; s++) {
        if (settings->group[s] != layout->group)
            continue;
        uint32_t sets = sets_of(settings, parts[s].has), may = parts[s].may & ~taken;
        int own = (int)ones(parts[s].has), lacks = (int)settings->need[s] - (int)ones(sets);
        int room = (int)settings->cap[s] - own - (lacks > 0 ? lacks : 0);
        if (room < 0 || (parts[s].closed && lacks > 0))
            return NO_PLACEMENT;
        for (uint32_t n = 0; n < settings->nodes; n++)
            if (is_in(parts[s].has, n))
                total += weight_of(layout, weight, s, n);
        if (parts[s].closed)
            continue;
        if (lacks > 0) {
            join(&flow, SOURCE, NEED_AT + (int)s, lacks, NEEDED);
            needed += lacks;
        }
        if (room > 0)
            join(&flow, SOURCE, ROOM_AT + (int)s, room, 0);
        for (uint32_t f = 0; f < settings->sets; f++)
            if (lacks > 0 && !is_in(sets, f))
                join(&flow, NEED_AT + (int)s, SET_AT + 16 * (int)s + (int)f, 1, 0);
        for (uint32_t n = 0; n < settings->nodes; n++) {
            int cost = weight_of(layout, weight, s, n);
            if (!is_in(may, n))
                continue;
            if (lacks > 0 && !is_in(sets, settings->set[n]))
                join(&flow, SET_AT + 16 * (int)s + (int)settings->set[n], NODE_AT + (int)n, 1,
                     cost);
            if (room > 0 && cost < 0)
                join(&flow, ROOM_AT + (int)s, NODE_AT + (int)n, 1, cost);
        }
    }
    for (uint32_t n = 0; n < settings->nodes; n++)
        if (is_in(layout->held & ~taken, n))
            join(&flow, NODE_AT + (int)n, SINK, 1, 0);
    /* A need that is not met leaves the cost a whole NEEDED higher than it may be. */
    int rest = send_all(&flow) - needed * NEEDED;
    return rest > -NEEDED / 2 ? NO_PLACEMENT : total + rest;
}

static void open_all(const struct layout *layout, struct part *parts)
{
    for (uint32_t s = 0; s < layout->settings->shards; s++)
        parts[s] = (struct part){0, layout->held, 0};
}

int least_weight(const struct layout *layout, enum weight weight)
{
    struct part parts[16];
    open_all(layout, parts);
    return least_of(layout, weight, parts);
}

/* Settles shard s: its list ends where it can, else goes on with the lowest node that it can. */
static int settle(const struct layout *layout, enum weight weight, int most, struct part *parts,
                  uint32_t s)
{
    uint32_t from = 0;
    for (;;) {
        struct part *part = &parts[s], before = *part;
        part->closed = 1;
        if (least_of(layout, weight, parts) <= most)
            return 1;
        uint32_t n = from;
        for (; n < layout->settings->nodes; n++) {
            if (!is_in(before.may, n))
                continue;
            *part = (struct part){before.has | 1u << n, before.may & ~((2u << n) - 1), 0};
            if (least_of(layout, weight, parts) <= most)
                break;
        }
        if (n == layout->settings->nodes)
            return 0;
        from = n + 1;
    }
}

int first_within(const struct layout *layout, enum weight weight, int most, uint32_t *masks)
{
    struct part parts[16];
    open_all(layout, parts);
    if (least_of(layout, weight, parts) > most)
        return 0;
    for (uint32_t s = 0; s < layout->settings->shards; s++) {
        if (layout->settings->group[s] != layout->group)
            continue;
        if (!settle(layout, weight, most, parts, s))
            return 0;
        for (uint32_t t = 0; t < layout->settings->shards; t++)
            if (t != s && layout->settings->group[t] == layout->group)
                parts[t].may &= ~parts[s].has;
        masks[s] = parts[s].has;
    }
    return 1;
}

uint32_t moves_in(const struct layout *layout, const uint32_t *masks)
{
    uint32_t moves = 0;
    for (uint32_t s = 0; s < layout->settings->shards; s++)
        if (layout->settings->group[s] == layout->group)
            moves += ones(masks[s] & ~layout->old[s]);
    return moves;
}

uint32_t stays_in(const struct layout *layout, const uint32_t *masks)
{
    uint32_t stays = 0;
    for (uint32_t s = 0; s < layout->settings->shards; s++)
        if (layout->settings->group[s] == layout->group)
            stays += ones(masks[s] & layout->old[s]);
    return stays;
}

int valid_in(const struct layout *layout, const uint32_t *masks)
{
    const struct plan_settings *settings = layout->settings;
    uint32_t taken = 0;
    for (uint32_t s = 0; s < settings->shards; s++) {
        if (settings->group[s] != layout->group)
            continue;
        if ((masks[s] & (~layout->held | taken)) != 0 || ones(masks[s]) > settings->cap[s] ||
            ones(sets_of(settings, masks[s])) < settings->need[s])
            return 0;
        taken |= masks[s];
    }
    return 1;
}
