// Median and worst time of the proved placement (least weight and the first in order, or none)
// against LEMON's network simplex (least weight alone), on the same seeded instances in one run.
//     bench [instances a kind] [seed]
//     bench ours | lemon KIND COUNT SEED     solves so many instances once, for a program that counts
//                                            the instructions of `measured`; a kind past the last fails
#include "lemon.hpp"
#include "placement.h"
#include <chrono>
#include <cstdio>
#include <cstdlib>
#include <vector>

using namespace bench;
using Clock = std::chrono::steady_clock;

struct Times {
    std::vector<double> all;
    double median()
    {
        return std::sort(all.begin(), all.end()), all[all.size() / 2];
    }
    double worst()
    {
        return *std::max_element(all.begin(), all.end());
    }
};

template <class F> double microseconds(F f)
{
    auto from = Clock::now();
    f();
    return std::chrono::duration<double, std::micro>(Clock::now() - from).count();
}

static uint32_t least(const Instance &x, std::array<uint8_t, NODES> &owners)
{
    return placement_least(x.sets.data(), x.sets.size(), x.needs.data(), x.needs.size(),
                           x.caps.data(), x.caps.size(), x.costs.data(), x.costs.size(), x.idle,
                           owners.data(), owners.size());
}

// Whether the owners are a valid placement of that weight.
static bool valid(const Instance &x, const std::array<uint8_t, NODES> &owners, int weight)
{
    std::array<int, SHARDS> count{};
    std::array<uint32_t, SHARDS> sets{};
    int paid = 0;
    for (int n = 0; n < NODES; ++n) {
        int i = owners[n];
        if (i >= SHARDS) {
            paid += x.idle;
            continue;
        }
        int cost = x.costs[i * NODES + n];
        if (cost >= BARRED)
            return false;
        sets[i] |= 1u << x.sets[n];
        paid += cost;
        ++count[i];
    }
    for (int i = 0; i < SHARDS; ++i)
        if (count[i] > x.caps[i] || __builtin_popcount(sets[i]) < x.needs[i])
            return false;
    return paid == weight;
}

static int moves_of(const Instance &x, const std::array<uint8_t, NODES> &owners)
{
    int moves = 0;
    for (int n = 0; n < NODES; ++n)
        moves += owners[n] < SHARDS && x.costs[owners[n] * NODES + n] > 0;
    return moves;
}

// Each time is the least of so many runs: what another process took away is not counted.
constexpr int RUNS = 15;

template <class F> double least_time(F f)
{
    double best = microseconds(f);
    for (int again = 1; again < RUNS; ++again)
        best = std::min(best, microseconds(f));
    return best;
}

// The instance with the greatest ratio of times.
struct Slowest {
    double ratio = 0, ours = 0, lemons = 0;
    int kind = 0, index = 0;
    void see(double a, double b, int of_kind, int at)
    {
        if (a / b > ratio)
            *this = {a / b, a, b, of_kind, at};
    }
};

// One call, by its own name for a program that counts instructions.
extern "C" __attribute__((noinline)) int measured(bool ours, const Instance &x,
                                                  std::array<uint8_t, NODES> &owners)
{
    return ours ? static_cast<int>(least(x, owners)) : lemon_least(x);
}

static int once(bool ours, int kind, int count, uint64_t seed)
{
    if (kind >= KINDS)
        return 1;
    Random r(seed * 1000 + static_cast<uint64_t>(kind));
    long sum = 0;
    for (int k = 0; k < count; ++k) {
        Instance x = make(kind, r);
        std::array<uint8_t, NODES> owners{};
        sum += measured(ours, x, owners);
    }
    printf("%s: %d instances, weights %ld\n", name(kind).c_str(), count, sum);
    return 0;
}

int main(int argc, char **argv)
{
    if (argc == 5)
        return once(!strcmp(argv[1], "ours"), atoi(argv[2]), atoi(argv[3]),
                    strtoull(argv[4], nullptr, 10));
    int count = argc > 1 ? atoi(argv[1]) : 1000;
    uint64_t seed = argc > 2 ? strtoull(argv[2], nullptr, 10) : 1;
    printf("seed %llu, %d instances a kind, microseconds, each the least of %d runs\n",
           (unsigned long long)seed, count, RUNS);
    printf("%-38s %6s %6s | %8s %8s | %8s %8s | %6s %6s | %s\n", "kind", "none", "moves", "median",
           "worst", "LEMON", "worst", "ratio", "worst", "differ");
    long differ = 0;
    Slowest slowest;
    for (int kind = 0; kind < KINDS; ++kind) {
        Random r(seed * 1000 + static_cast<uint64_t>(kind));
        Times ours, lemons;
        long none = 0, moves = 0, wrong = 0;
        double worst_ratio = 0;
        for (int k = 0; k < count; ++k) {
            Instance x = make(kind, r);
            std::array<uint8_t, NODES> owners{};
            uint32_t mine = 0;
            int theirs = 0;
            double a = least_time([&] { mine = least(x, owners); });
            double b = least_time([&] { theirs = lemon_least(x); });
            ours.all.push_back(a);
            lemons.all.push_back(b);
            worst_ratio = std::max(worst_ratio, a / b);
            slowest.see(a, b, kind, k);
            if (mine != static_cast<uint32_t>(theirs) ||
                (mine != NONE && !valid(x, owners, theirs)))
                ++wrong;
            if (mine == NONE)
                ++none;
            else
                moves += moves_of(x, owners);
        }
        double a = ours.median(), b = lemons.median();
        printf("%-38s %5.0f%% %6.1f | %8.1f %8.1f | %8.1f %8.1f | %6.2f %6.2f | %ld\n",
               name(kind).c_str(), 100.0 * none / count,
               none == count ? 0.0 : (double)moves / (count - none), a, ours.worst(), b,
               lemons.worst(), a / b, worst_ratio, wrong);
        fflush(stdout);
        differ += wrong;
    }
    printf("greatest ratio %.2f: %.1f to %.1f, seed %llu, instance %d of \"%s\"\n", slowest.ratio,
           slowest.ours, slowest.lemons, (unsigned long long)seed, slowest.index,
           name(slowest.kind).c_str());
    return differ ? 1 : 0;
}
