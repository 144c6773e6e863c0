// LEMON's network simplex on one instance: the least weight, or NONE. Graph building included.
// Source to shard, as many units as it needs; shard to each of its sets, one unit; set to its nodes.
// Source to the room of a shard, at most as many units as its cap exceeds its need; room to nodes.
// Node to sink, one unit; source to sink what rooms leave. Costs are less by what nowhere costs, so a
// room has use only for nodes that cost less than that.
#pragma once
#include "instances.hpp"
#include <lemon/network_simplex.h>
#include <lemon/smart_graph.h>

namespace bench
{

constexpr int NONE = 10000;

inline int lemon_least(const Instance &x)
{
    using Graph = lemon::SmartDigraph;
    struct Arc {
        int lower, upper, cost;
    };
    static Arc arcs[NODES + 1 + 2 * SHARDS + SHARDS * SETS + 2 * SHARDS * NODES];
    int count = 0, total = 0, spare = 0;
    Graph g;
    g.reserveNode(2 + NODES + 2 * SHARDS + SHARDS * SETS);
    g.reserveArc(NODES + 1 + 2 * SHARDS + SHARDS * SETS + 2 * SHARDS * NODES);
    auto arc = [&](Graph::Node from, Graph::Node to, int lower, int upper, int cost) {
        g.addArc(from, to);
        arcs[count++] = {lower, upper, cost};
    };
    Graph::Node source = g.addNode(), sink = g.addNode(), node[NODES];
    for (auto &n : node) {
        n = g.addNode();
        arc(n, sink, 0, 1, 0);
    }
    for (int i = 0; i < SHARDS; ++i) {
        if (x.caps[i] == 0)
            continue;
        int need = x.needs[i], more = x.caps[i] - need;
        total += need;
        Graph::Node shard = g.addNode(), room = shard, set[SETS];
        arc(source, shard, need, need, 0);
        uint32_t made = 0;
        for (int n = 0; n < NODES; ++n) {
            int cost = x.costs[i * NODES + n], f = x.sets[n];
            if (cost >= BARRED)
                continue;
            if (!(made >> f & 1)) {
                made |= 1u << f;
                set[f] = g.addNode();
                arc(shard, set[f], 0, 1, 0);
            }
            arc(set[f], node[n], 0, 1, cost - x.idle);
            if (more == 0 || cost >= x.idle)
                continue;
            if (room == shard) {
                room = g.addNode();
                arc(source, room, 0, more, 0);
                spare += more;
            }
            arc(room, node[n], 0, 1, cost - x.idle);
        }
    }
    if (spare > 0)
        arc(source, sink, 0, spare, 0);
    Graph::ArcMap<int> lower(g), upper(g), cost(g);
    for (int a = 0; a < count; ++a) {
        lower[g.arcFromId(a)] = arcs[a].lower;
        upper[g.arcFromId(a)] = arcs[a].upper;
        cost[g.arcFromId(a)] = arcs[a].cost;
    }
    lemon::NetworkSimplex<Graph, int, int> simplex(g);
    simplex.upperMap(upper).costMap(cost).stSupply(source, sink, total + spare);
    if (spare > 0)
        simplex.lowerMap(lower);
    if (simplex.run() != lemon::NetworkSimplex<Graph, int, int>::OPTIMAL)
        return NONE;
    return simplex.totalCost<int>() + NODES * x.idle;
}

} // namespace bench
