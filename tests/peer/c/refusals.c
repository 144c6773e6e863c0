/* Why a message is refused, row by row, for the peer; see peer.h. Only bad messages come here. */
#include "parts.h"

struct chain {
    const uint8_t *message;
    uint32_t count;      /* records after the head */
    uint8_t at[RECORDS]; /* where they stand */
};

static uint32_t told(uint32_t number, uint32_t index)
{
    return number + 256 * index;
}

static uint32_t key_word(const struct chain *chain, uint32_t k)
{
    return word(chain->message, 4 * (size_t)chain->at[k]);
}

static uint32_t first_of(const struct chain *chain, uint32_t k)
{
    return word(chain->message, 4 * (size_t)chain->at[k] + 1);
}

static uint32_t second_of(const struct chain *chain, uint32_t k)
{
    return word(chain->message, 4 * (size_t)chain->at[k] + 2);
}

/* Row 8; finds the chain. */
static uint32_t row_8(struct chain *chain, uint32_t records)
{
    uint32_t at = 0;
    chain->count = 0;
    for (;;) {
        uint32_t next = word(chain->message, 4 * (size_t)at + 3);
        if (next == 0)
            return 0;
        if (next <= at || next >= records)
            return told(8, at);
        at = next;
        chain->at[chain->count++] = (uint8_t)at;
    }
}

/* A kind that a report cannot have, or a word 2 that should be zero. */
static uint32_t kinds(const struct chain *chain)
{
    for (uint32_t k = 0; k < chain->count; ++k) {
        uint32_t kind = key_word(chain, k) >> 8;
        if (kind < MEMBERS || kind > RUN || (kind == MEMBERS && second_of(chain, k) != 0))
            return told(9, chain->at[k]);
    }
    return 0;
}

static uint32_t shards(const struct settings *settings, const struct chain *chain)
{
    for (uint32_t k = 0; k < chain->count; ++k)
        if ((key_word(chain, k) & 255) >= settings->shards)
            return told(16, chain->at[k]);
    return 0;
}

/* Wrong sequence or a repeat, then a missing record. */
static uint32_t sequence(const struct settings *settings, const struct chain *chain)
{
    uint64_t before = 0;
    uint32_t of_kind[RUN + 1] = {0}, last = 0;
    for (uint32_t k = 0; k < chain->count; ++k) {
        uint32_t own = key_word(chain, k);
        uint64_t key = (uint64_t)own << 32 | (own >> 8 == RUN ? first_of(chain, k) : 0);
        if (k > 0 && key <= before)
            return told(17, chain->at[k]);
        before = key;
        last = chain->at[k];
        ++of_kind[own >> 8];
    }
    int some = of_kind[POSITION] != 0 && of_kind[POSITION] != settings->shards;
    return of_kind[MEMBERS] != settings->shards || some ? told(17, last) : 0;
}

static uint32_t row_10(const struct settings *settings, const struct chain *chain)
{
    uint32_t members = word(chain->message, 2), taken[GROUPS] = {0};
    for (uint32_t s = 0; s < settings->shards; ++s) {
        uint32_t mask = first_of(chain, s), *of_group = &taken[settings->group[s]];
        if (mask == 0 || mask & ~members || mask & *of_group)
            return 10;
        *of_group |= mask;
    }
    return 0;
}

static uint32_t row_11(const struct settings *settings, const struct chain *chain)
{
    uint32_t view = word(chain->message, 1);
    for (uint32_t k = settings->shards; k < chain->count; ++k) {
        uint32_t own = first_of(chain, k), count = second_of(chain, k);
        int run = key_word(chain, k) >> 8 == RUN;
        if (own > view || (own == 0) != (count == 0) || (run && own == 0))
            return 11;
    }
    return 0;
}

uint32_t refusal_of(const struct settings *settings, const uint8_t *message, uint32_t records)
{
    uint32_t node = word(message, 0), view = word(message, 1), members = word(message, 2), refusal;
    struct chain chain = {.message = message};
    if (node >= settings->nodes)
        return 6;
    if (view == 0 || view == UINT32_MAX || members & ~below(settings->nodes) || !has(members, node))
        return 7;
    if ((refusal = row_8(&chain, records)) || (refusal = kinds(&chain)))
        return refusal;
    if ((refusal = shards(settings, &chain)) || (refusal = sequence(settings, &chain)))
        return refusal;
    if ((refusal = row_10(settings, &chain)))
        return refusal;
    return row_11(settings, &chain);
}
