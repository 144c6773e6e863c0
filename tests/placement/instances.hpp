// Seeded placement instances of every kind that the benchmark and the fallback test use.
// An instance is one subgroup: 32 nodes, 16 shards, 16 failure sets; a shard without need is no
// shard of the subgroup, and a node that is not held costs 255 everywhere. Costs are those of a
// restart's plan: 0 for a node that stays, for one that moves 1 more than all that caps exceed needs,
// and 1 for a node placed nowhere, so that least weight is least moves and then most stays.
#pragma once
#include <algorithm>
#include <array>
#include <cstdint>
#include <cstring>
#include <string>

namespace bench
{

constexpr int NODES = 32, SHARDS = 16, SETS = 16;
constexpr int BARRED = 255; // the cost of a pair that is not allowed

struct Instance {
    std::array<uint8_t, NODES> sets{};   // failure set of each node
    std::array<uint8_t, SHARDS> needs{}; // from how many sets each shard needs nodes
    std::array<uint8_t, SHARDS> caps{};  // how many nodes each shard may have
    std::array<uint8_t, SHARDS * NODES>
        costs{};      // at shard * 32 + node: 0 stay, below 255 move, 255 not allowed
    uint8_t idle = 1; // the cost of a node placed nowhere
};

class Random
{
  public:
    explicit Random(uint64_t seed) : state_(seed * 0x9E3779B97F4A7C15ull + 0xD1B54A32D192ED03ull)
    {
        next();
        next();
    }
    uint64_t next()
    {
        state_ ^= state_ << 13;
        state_ ^= state_ >> 7;
        state_ ^= state_ << 17;
        return (state_ * 0x2545F4914F6CDD1Dull) >> 16;
    }
    int below(int n)
    {
        return static_cast<int>(next() % static_cast<uint64_t>(n));
    }
    int between(int low, int high)
    {
        return low + below(high - low + 1);
    }
    bool chance(int percent)
    {
        return below(100) < percent;
    }
    template <class T> void shuffle(T &a)
    {
        for (int i = static_cast<int>(a.size()) - 1; i > 0; --i)
            std::swap(a[i], a[below(i + 1)]);
    }

  private:
    uint64_t state_;
};

// What an instance is made of: its sets, needs and caps (0 stands for the need), who is held, who was
// a member of which shard, and which nodes a shard may not have.
struct Draft {
    Instance instance;
    uint32_t held = 0xffffffff;
    std::array<uint32_t, SHARDS> old{}, barred{};
};

inline int total_need(const Instance &x)
{
    int sum = 0;
    for (int need : x.needs)
        sum += need;
    return sum;
}

inline int held_nodes(const Draft &d)
{
    return __builtin_popcount(d.held);
}

inline void drop_one(Random &r, Draft &d)
{
    d.held &= ~(1u << r.below(NODES));
}

inline void drop_some(Random &r, Draft &d, int percent)
{
    for (int n = 0; n < NODES; ++n)
        if (r.chance(percent))
            d.held &= ~(1u << n);
}

inline void even_sets(Random &r, Instance &x, int sets)
{
    for (int n = 0; n < NODES; ++n)
        x.sets[n] = static_cast<uint8_t>(n % sets);
    r.shuffle(x.sets);
}

inline void random_sets(Random &r, Instance &x, int sets)
{
    for (auto &f : x.sets)
        f = static_cast<uint8_t>(r.below(sets));
}

inline void equal_needs(Instance &x, int shards, int need)
{
    for (int i = 0; i < shards; ++i)
        x.needs[i] = static_cast<uint8_t>(need);
}

// At least one node a shard, at most `most`, `total` in all.
inline void random_needs(Random &r, Instance &x, int shards, int total, int most)
{
    equal_needs(x, shards, 1);
    total = std::min(total, shards * most);
    for (int left = total - shards; left > 0;) {
        auto &need = x.needs[r.below(shards)];
        if (need < most)
            ++need, --left;
    }
}

inline std::array<uint8_t, NODES> shuffled_nodes(Random &r)
{
    std::array<uint8_t, NODES> order;
    for (int n = 0; n < NODES; ++n)
        order[n] = static_cast<uint8_t>(n);
    r.shuffle(order);
    return order;
}

// Nodes are dealt to the shards at random, to each as many as it needs, and each was a member with the
// given chance.
inline void deal(Random &r, Draft &d, int percent)
{
    auto order = shuffled_nodes(r);
    int next = 0;
    for (int i = 0; i < SHARDS; ++i)
        for (int j = 0; j < d.instance.needs[i] && next < NODES; ++j, ++next)
            if (r.chance(percent))
                d.old[i] |= 1u << order[next];
}

// The same with each shard's nodes from different sets, where random tries find such nodes.
inline void deal_apart(Random &r, Draft &d, int percent)
{
    uint32_t left = 0xffffffff;
    for (int i = 0; i < SHARDS; ++i) {
        uint32_t sets = 0;
        int got = 0;
        for (int tries = 0; tries < 200 && got < d.instance.needs[i] && left; ++tries) {
            int n = r.below(NODES);
            if (!(left >> n & 1) || (sets >> d.instance.sets[n] & 1))
                continue;
            left &= ~(1u << n);
            sets |= 1u << d.instance.sets[n];
            ++got;
            if (r.chance(percent))
                d.old[i] |= 1u << n;
        }
    }
}

// Each node that was no shard's member was with the given chance one of a shard that had fewer than
// its cap.
inline void deal_more(Random &r, Draft &d, int percent)
{
    uint32_t taken = 0;
    for (uint32_t old : d.old)
        taken |= old;
    for (int n : shuffled_nodes(r)) {
        std::array<int, SHARDS> open;
        int count = 0;
        for (int i = 0; i < SHARDS; ++i)
            if (__builtin_popcount(d.old[i]) < d.instance.caps[i])
                open[count++] = i;
        if (count == 0)
            return;
        int i = open[r.below(count)];
        if (!(taken >> n & 1) && r.chance(percent))
            d.old[i] |= 1u << n;
    }
}

// Any caps from the needs to 16, in half of the shards not far above the need.
inline void random_caps(Random &r, Draft &d)
{
    Instance &x = d.instance;
    for (int i = 0; i < SHARDS; ++i) {
        int need = x.needs[i],
            cap = r.chance(50) ? std::min(need + r.below(3), 16) : r.between(need, 16);
        x.caps[i] = static_cast<uint8_t>(need ? cap : 0);
    }
    deal_more(r, d, r.between(0, 100));
}

// Costs by which moves come first and then stays; or, plainly, moves alone.
inline Instance finished(const Draft &d, bool plain = false)
{
    Instance x = d.instance;
    int move = 1;
    for (int i = 0; i < SHARDS; ++i) {
        if (x.caps[i] == 0)
            x.caps[i] = x.needs[i];
        move += x.caps[i] - x.needs[i];
    }
    if (plain)
        move = 1, x.idle = 0;
    for (int i = 0; i < SHARDS; ++i)
        for (int n = 0; n < NODES; ++n) {
            bool allowed = (d.held & ~d.barred[i]) >> n & 1 && x.needs[i] > 0;
            x.costs[i * NODES + n] = static_cast<uint8_t>(!allowed              ? BARRED
                                                          : (d.old[i] >> n & 1) ? 0
                                                                                : move);
        }
    return x;
}

// The cost of a move, or 1 where none is allowed.
inline int move_cost(const Instance &x)
{
    int most = 1;
    for (int c : x.costs)
        if (c < BARRED)
            most = std::max(most, c);
    return most;
}

// How many units of need can be met, by augmenting paths over shards, sets of a shard, and nodes.
class Flow
{
  public:
    explicit Flow(const Instance &x) : x_(x)
    {
        owner_.fill(-1);
    }
    int most()
    {
        int met = 0;
        for (int i = 0; i < SHARDS; ++i)
            for (int j = 0; j < x_.needs[i]; ++j) {
                seen_ = 0;
                shards_seen_ = 0;
                if (extend(i))
                    ++met;
            }
        return met;
    }

  private:
    bool holds(int i, int set) const
    {
        for (int n = 0; n < NODES; ++n)
            if (owner_[n] == i && x_.sets[n] == set)
                return true;
        return false;
    }
    bool offer(int i, int n)
    {
        if ((seen_ >> n & 1) || x_.costs[i * NODES + n] >= BARRED)
            return false;
        seen_ |= 1u << n;
        int loser = owner_[n];
        if (loser >= 0 && !replace(loser, n))
            return false;
        owner_[n] = i;
        return true;
    }
    // Shard i finds a node in place of n: one of n's set, or one of a set that it does not use.
    bool replace(int i, int n)
    {
        for (int m = 0; m < NODES; ++m)
            if (m != n && x_.sets[m] == x_.sets[n] && owner_[m] != i && offer(i, m))
                return true;
        return extend(i);
    }
    bool extend(int i)
    {
        if (shards_seen_ >> i & 1)
            return false;
        shards_seen_ |= 1u << i;
        for (int m = 0; m < NODES; ++m)
            if (owner_[m] != i && !holds(i, x_.sets[m]) && offer(i, m))
                return true;
        return false;
    }
    const Instance &x_;
    std::array<int, NODES> owner_;
    uint32_t seen_ = 0, shards_seen_ = 0;
};

// One node of a case that needs every node changes its set, until exactly one unit can't be met.
inline Draft barely_infeasible(Random &r)
{
    for (;;) {
        Draft d;
        int sets = r.between(2, 8), shards = r.between(2, 16);
        even_sets(r, d.instance, sets);
        random_needs(r, d.instance, shards, NODES, sets);
        int need = total_need(d.instance);
        while (held_nodes(d) > need)
            drop_one(r, d);
        deal_apart(r, d, r.between(30, 100));
        for (int tries = 0; tries < 8; ++tries) {
            int met = Flow(finished(d)).most();
            if (met == need - 1)
                return d;
            if (met < need - 1)
                break;
            d.instance.sets[r.below(NODES)] = static_cast<uint8_t>(r.below(sets));
        }
    }
}

// Old members crowd into one or two shards, or there are hardly any.
inline Draft many_moves(Random &r)
{
    Draft d;
    int shards = r.between(2, 16);
    even_sets(r, d.instance, r.between(8, 16));
    random_needs(r, d.instance, shards, r.between(shards, NODES), 8);
    if (r.chance(50)) {
        deal(r, d, r.below(30));
    } else {
        for (int n = 0; n < NODES; ++n)
            if (r.chance(60))
                d.old[r.below(2)] |= 1u << n;
    }
    return d;
}

// The old members of each shard crowd into few sets: long chains of exchanges.
inline Draft crowded_sets(Random &r)
{
    Draft d;
    int sets = r.between(4, 8);
    even_sets(r, d.instance, sets);
    int shards = std::min(SHARDS, NODES / (sets / 2 + 1));
    for (int i = 0; i < shards; ++i)
        d.instance.needs[i] = static_cast<uint8_t>(sets / 2 + r.below(2));
    for (int n = 0; n < NODES; ++n)
        if (r.chance(85))
            d.old[(d.instance.sets[n] * shards / sets + r.below(2)) % shards] |= 1u << n;
    return d;
}

// Any table whatever, also such as no settings and reports give.
inline Draft any_table(Random &r)
{
    Draft d;
    int sets = r.between(1, 16), shards = r.between(1, 16);
    random_sets(r, d.instance, sets);
    random_needs(r, d.instance, shards, r.between(shards, shards + 24), sets);
    int stay = r.below(60), blocked = r.below(70);
    for (int i = 0; i < SHARDS; ++i)
        for (int n = 0; n < NODES; ++n) {
            int die = r.below(100);
            if (die < stay)
                d.old[i] |= 1u << n;
            else if (die < stay + blocked)
                d.barred[i] |= 1u << n;
        }
    return d;
}

// Shards of equal need and cap, over sets of equal size, whose members were dealt up to the cap; of a hundred
// nodes so many are gone.
struct Shape {
    int shards, need, cap, sets, gone;
};

constexpr std::array<Shape, 8> SHAPES = {{{4, 8, 8, 10, 0},
                                          {16, 1, 2, 8, 10},
                                          {8, 2, 4, 8, 10},
                                          {10, 2, 3, 8, 10},
                                          {5, 4, 6, 10, 10},
                                          {4, 4, 8, 10, 10},
                                          {2, 4, 16, 8, 10},
                                          {16, 1, 16, 16, 10}}};

inline Draft shaped(Random &r, const Shape &s)
{
    Draft d;
    even_sets(r, d.instance, s.sets);
    equal_needs(d.instance, s.shards, s.need);
    for (int i = 0; i < s.shards; ++i)
        d.instance.caps[i] = static_cast<uint8_t>(s.cap);
    deal_more(r, d, 90);
    drop_some(r, d, s.gone);
    return d;
}

// Kinds in which every cap is the need, kinds of a shape, and the first ones again with any caps.
enum Kind {
    RANDOM,
    TIGHT,
    BARELY_INFEASIBLE,
    MANY_MOVES,
    SIXTEEN_BY_2,
    TWO_BY_16,
    ONE_SHORT,
    SIXTEEN_BY_2_WIDE,
    TEN_BY_3,
    EIGHT_BY_4,
    FOUR_BY_8,
    SIXTEEN_BY_1,
    CROWDED_SETS,
    ANY_TABLE,
    SHAPED
};

constexpr int CAPPED = SHAPED + static_cast<int>(SHAPES.size()), KINDS = CAPPED + SHAPED;

inline std::string name(int kind)
{
    static const char *const names[SHAPED] = {"random, 16 shards, 16 sets",
                                              "tight, every node needed",
                                              "barely infeasible",
                                              "many moves",
                                              "16 shards of 2, 8 sets",
                                              "2 shards of 16, 16 sets",
                                              "one node short",
                                              "16 shards of 2, 16 sets",
                                              "10 shards of 3, 8 sets",
                                              "8 shards of 4, 8 sets",
                                              "4 shards of 8, 10 sets",
                                              "16 shards of 1, 4 sets",
                                              "members crowd into sets",
                                              "any table whatever"};
    if (kind >= CAPPED)
        return std::string(names[kind - CAPPED]) + ", any caps";
    if (kind < SHAPED)
        return names[kind];
    const Shape &s = SHAPES[static_cast<size_t>(kind - SHAPED)];
    std::string most = s.cap > s.need ? " to " + std::to_string(s.cap) : "";
    return std::to_string(s.shards) + " shards of " + std::to_string(s.need) + most + ", " +
           std::to_string(s.sets) + " even sets";
}

inline Draft draft(int kind, Random &r)
{
    Draft d;
    Instance &x = d.instance;
    switch (kind) {
    case RANDOM:
        random_sets(r, x, 16);
        random_needs(r, x, 16, r.between(16, 32), 16);
        deal(r, d, r.between(50, 99));
        drop_some(r, d, r.below(15));
        break;
    case TIGHT:
        even_sets(r, x, 16);
        random_needs(r, x, r.between(2, 16), NODES, 16);
        deal_apart(r, d, r.below(101));
        break;
    case BARELY_INFEASIBLE:
        return barely_infeasible(r);
    case MANY_MOVES:
        return many_moves(r);
    case SIXTEEN_BY_2:
        even_sets(r, x, 8), equal_needs(x, 16, 2), deal(r, d, 70);
        break;
    case TWO_BY_16:
        even_sets(r, x, 16), equal_needs(x, 2, 16), deal(r, d, r.below(101));
        break;
    case ONE_SHORT: {
        even_sets(r, x, r.between(8, 16));
        random_needs(r, x, r.between(4, 16), NODES, 8);
        deal_apart(r, d, r.between(50, 100));
        int need = total_need(x);
        while (held_nodes(d) >= need)
            drop_one(r, d);
        break;
    }
    case SIXTEEN_BY_2_WIDE:
        even_sets(r, x, 16), equal_needs(x, 16, 2), deal(r, d, 70);
        break;
    case TEN_BY_3:
        even_sets(r, x, 8), equal_needs(x, 10, 3), deal(r, d, r.between(70, 100));
        break;
    case EIGHT_BY_4:
        even_sets(r, x, 8), equal_needs(x, 8, 4), deal(r, d, 90);
        break;
    case FOUR_BY_8:
        random_sets(r, x, 10), equal_needs(x, 4, 8), deal(r, d, 80);
        break;
    case SIXTEEN_BY_1:
        random_sets(r, x, 4), equal_needs(x, 16, 1), deal(r, d, 80), drop_some(r, d, 20);
        break;
    case CROWDED_SETS:
        return crowded_sets(r);
    case ANY_TABLE:
        return any_table(r);
    default:
        if (kind < CAPPED)
            return shaped(r, SHAPES[static_cast<size_t>(kind - SHAPED)]);
        d = draft(kind - CAPPED, r);
        random_caps(r, d);
    }
    return d;
}

inline Instance make(int kind, Random &r)
{
    return finished(draft(kind, r));
}

} // namespace bench
