/* Chance from a seed: the same seed gives the same numbers on every machine. */
#ifndef CHANCE_H
#define CHANCE_H

#include <stdbool.h>
#include <stdint.h>

struct chance {
    uint64_t at;
};

/* A well mixed number for each count, so that neighbours have nothing in common. */
static inline uint64_t mixed(uint64_t x)
{
    x += UINT64_C(0x9e3779b97f4a7c15);
    x = (x ^ (x >> 30)) * UINT64_C(0xbf58476d1ce4e5b9);
    x = (x ^ (x >> 27)) * UINT64_C(0x94d049bb133111eb);
    return x ^ (x >> 31);
}

static inline struct chance chance_of(uint64_t seed, uint64_t round, uint64_t stream)
{
    return (struct chance){mixed(mixed(mixed(seed) ^ round) ^ stream)};
}

static inline uint64_t any(struct chance *chance)
{
    return mixed(chance->at++);
}

/* From 0 to below n; 0 where n is 0. */
static inline uint32_t below(struct chance *chance, uint32_t n)
{
    return n ? (uint32_t)((any(chance) >> 32) * n >> 32) : 0;
}

/* Whether it happens that happens so often in a thousand. */
static inline bool per_mille(struct chance *chance, uint32_t often)
{
    return below(chance, 1000) < often;
}

#endif
