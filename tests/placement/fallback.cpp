// Counts how often the placement enters its total search: never, over seeded instances of every
// kind, for the least weight and for a weight of at most a random k; for at most a random number of
// moves and for the fewest, where a move costs 1 and a node placed nowhere nothing, as in improving
// rounds; and for any placement, where nothing costs anything, as at their start.
//     fallback [instances a kind] [seed]
// No call tells it, so a trap stands at the total search's first instruction (the Makefile gives that
// place a name): a call that comes there is left at once and counted. That the trap works is tried
// first, with tables that the hints do not serve.
#include "instances.hpp"
#include "placement.h"
#include <array>
#include <atomic>
#include <csetjmp>
#include <csignal>
#include <cstdio>
#include <cstdlib>
#include <sys/mman.h>
#include <thread>
#include <unistd.h>
#include <vector>

using namespace bench;

extern "C" void total_search();

static thread_local sigjmp_buf left;

static void entered(int)
{
    siglongjmp(left, 1);
}

// Puts a trap at the total search.
static bool set_trap()
{
    auto *at = reinterpret_cast<unsigned char *>(&total_search);
    auto page = static_cast<uintptr_t>(sysconf(_SC_PAGESIZE));
    void *from = reinterpret_cast<void *>(reinterpret_cast<uintptr_t>(at) & ~(page - 1));
    if (mprotect(from, page, PROT_READ | PROT_WRITE | PROT_EXEC))
        return false;
    *at = 0xCC;
    struct sigaction action = {};
    action.sa_handler = entered;
    action.sa_flags = SA_NODEFER;
    return !mprotect(from, page, PROT_READ | PROT_EXEC) && !sigaction(SIGTRAP, &action, nullptr);
}

// Whether a call comes to the total search.
template <class F> static bool enters(F call)
{
    if (sigsetjmp(left, 0))
        return true;
    call();
    return false;
}

static bool least_enters(const Instance &x)
{
    std::array<uint8_t, NODES> owners{};
    return enters([&] {
        placement_least(x.sets.data(), x.sets.size(), x.needs.data(), x.needs.size(), x.caps.data(),
                        x.caps.size(), x.costs.data(), x.costs.size(), x.idle, owners.data(),
                        owners.size());
    });
}

static bool within_enters(const Instance &x, uint32_t k)
{
    std::array<uint8_t, NODES> owners{};
    return enters([&] {
        placement_within(x.sets.data(), x.sets.size(), x.needs.data(), x.needs.size(),
                         x.caps.data(), x.caps.size(), x.costs.data(), x.costs.size(), x.idle, k,
                         owners.data(), owners.size());
    });
}

// A failure set from 16 up is none that the hints know.
static bool trap_works()
{
    Random r(1);
    Instance x = make(RANDOM, r);
    x.sets[0] = SETS;
    return least_enters(x) && within_enters(x, NODES) && least_enters(x);
}

// The weight of a random number of moves and of nodes placed nowhere.
static uint32_t random_weight(Random &r, const Instance &x)
{
    return static_cast<uint32_t>(r.below(NODES + 1) * move_cost(x) + r.below(NODES + 1));
}

// The same where a move costs nothing.
static Instance free_of(Instance x)
{
    for (auto &cost : x.costs)
        if (cost != 255)
            cost = 0;
    return x;
}

// What the instances of one kind come to: how often the search is entered, and at which instance first.
struct Entered {
    long times = 0, first = -1;
};

static Entered tried(int kind, long count, uint64_t seed)
{
    Random r(seed * 1000 + 500 + static_cast<uint64_t>(kind));
    Entered e;
    for (long k = 0; k < count; ++k) {
        Draft d = draft(kind, r);
        Instance x = finished(d);
        Instance moves = finished(d, true);
        int missed = least_enters(x) + within_enters(x, random_weight(r, x)) +
                     within_enters(moves, static_cast<uint32_t>(r.below(NODES + 1))) +
                     within_enters(free_of(moves), 0);
        if (k % 2)
            missed += least_enters(moves);
        if (missed && e.times == 0)
            e.first = k;
        e.times += missed;
    }
    return e;
}

int main(int argc, char **argv)
{
    long count = argc > 1 ? atol(argv[1]) : 40000;
    uint64_t seed = argc > 2 ? strtoull(argv[2], nullptr, 10) : 1;
    if (!set_trap() || !trap_works()) {
        printf("fallback: the trap at the total search does not work\n");
        return 1;
    }
    printf("seed %llu\n", (unsigned long long)seed);
    std::array<Entered, KINDS> all;
    std::atomic<int> next{0};
    std::vector<std::thread> workers;
    for (unsigned w = 0; w < std::max(1u, std::thread::hardware_concurrency()); ++w)
        workers.emplace_back([&] {
            for (int kind = next++; kind < KINDS; kind = next++)
                all[static_cast<size_t>(kind)] = tried(kind, count, seed);
        });
    for (auto &w : workers)
        w.join();
    long sum = 0;
    for (int kind = 0; kind < KINDS; ++kind) {
        const Entered &e = all[static_cast<size_t>(kind)];
        if (e.times)
            printf("%s: the search is entered at instance %ld\n", name(kind).c_str(), e.first);
        printf("%-38s %ld instances, %ld times in the search\n", name(kind).c_str(), count,
               e.times);
        sum += e.times;
    }
    printf("fallback: %ld instances, %ld times in the search\n", count * KINDS, sum);
    return sum ? 1 : 0;
}
