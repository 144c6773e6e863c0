/* Chance for the mutators: the same of the same seed. */
#ifndef DICE_H
#define DICE_H

#include <stdint.h>

static uint64_t dice;

static inline uint32_t roll(uint64_t *from)
{
    *from ^= *from << 13;
    *from ^= *from >> 7;
    *from ^= *from << 17;
    return (uint32_t)(*from >> 16);
}

static inline uint64_t dice_of(uint64_t seed)
{
    uint64_t made = seed * UINT64_C(0x9E3779B97F4A7C15) + UINT64_C(0xD1B54A32D192ED03);
    roll(&made);
    roll(&made);
    return made;
}

static inline uint32_t under(uint32_t most)
{
    return roll(&dice) % most;
}

static inline int one_in(uint32_t so_many)
{
    return under(so_many) == 0;
}

/* A word at which something may change. */
static inline uint32_t odd_word(void)
{
    static const uint32_t words[] = {
        0,  1,   2,   3,   4,   5,   8,   15,   16,         17,         31,         32,
        33, 127, 128, 129, 255, 256, 512, 4096, 0x7fffffff, 0x80000000, 0xfffffffe, 0xffffffff};
    return one_in(4) ? under(64) : one_in(8) ? roll(&dice) : words[under(24)];
}

#endif
