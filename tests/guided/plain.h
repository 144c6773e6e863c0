/*
 * A plain reading of restart(3), restart(7) and restart-model(7), written for clearness alone: settings,
 * messages, flat reports, open views, holders, pages and placements. With the peer in C
 * (tests/peer/c), which has the events, it says what each call of the library must answer and leave.
 * Both are compiled with coverage, so that the fuzzer sees how far an input gets.
 */
#ifndef PLAIN_H
#define PLAIN_H

#include <stddef.h>
#include <stdint.h>

/* ---- words ---- */

uint32_t word_of(const uint8_t *bytes, size_t index);
void word_to(uint8_t *bytes, size_t index, uint32_t value);
uint32_t ones(uint32_t mask);
int is_in(uint32_t mask, uint32_t number); /* of any number, also from 32 up */

/* ---- settings ---- */

struct plan_settings {
    uint32_t nodes, sets, least, shards;
    uint32_t set[32], group[16], need[16], cap[16];
};

/* Whether they are right; fills in what they say. */
int plain_settings(struct plan_settings *to, const uint8_t *bytes, size_t length);

/* ---- messages ---- */

enum form { A_REPORT, AN_ORDER };

/* A record after the head: where it stands, kind * 256 + shard and two words more. */
struct line {
    uint32_t index, key, first, second;
};

struct letter {
    uint32_t node, view, members, count;
    struct line lines[127];
};

/* Each gives the call's answer; what it would write goes to `to`, 2048 bytes, and only where nothing is
 * refused. The settings' bytes and the lent length are looked at as the call does it. */
uint32_t plain_read(enum form form, const uint8_t *settings, size_t settings_len,
                    const uint8_t *message, size_t message_len, uint8_t *to, size_t to_len);
uint32_t plain_write(enum form form, const uint8_t *settings, size_t settings_len,
                     const uint8_t *contents, size_t contents_len, uint8_t *to, size_t to_len);
uint32_t plain_from_flat(const uint8_t *settings, size_t settings_len, const uint8_t *flat,
                         size_t flat_len, uint8_t *to, size_t to_len);
uint32_t plain_to_flat(const uint8_t *settings, size_t settings_len, const uint8_t *message,
                       size_t message_len, uint8_t *to, size_t to_len);

/* The message as a letter; the refusal by rows 5 to 9, 16, 17, 10 and 11, or 0. */
uint32_t plain_letter(struct letter *to, enum form form, const struct plan_settings *settings,
                      const uint8_t *message, size_t length);

/* ---- open views ---- */

uint32_t plain_open_view(uint32_t members, uint32_t known, uint32_t have, uint32_t lack,
                         uint32_t passed);

/* ---- placements ---- */

/* A subgroup of a layout: who is held, and each shard's members in the kept view. */
struct layout {
    const struct plan_settings *settings;
    uint32_t held, group;
    const uint32_t *old; /* by shard */
};

enum { NO_PLACEMENT = 1 << 24, ANY_PLACEMENT = 1 << 22 };

/* What a placement is judged by: moves alone, or moves first and then stays. */
enum weight { BY_MOVES, BY_MOVES_AND_STAYS };

/* The least weight of a valid placement; NO_PLACEMENT if there is none. */
int least_weight(const struct layout *layout, enum weight weight);

/* Puts the first of the valid placements with at most this weight into the subgroup's places of
 * `masks`; whether there is one. */
int first_within(const struct layout *layout, enum weight weight, int most, uint32_t *masks);

uint32_t moves_in(const struct layout *layout, const uint32_t *masks);
uint32_t stays_in(const struct layout *layout, const uint32_t *masks);
int valid_in(const struct layout *layout, const uint32_t *masks);

/* ---- a sound state with its desk ---- */

/* A shard's holder and target by the held reports; whether it has a holder. */
int plain_holder(const struct plan_settings *settings, const uint8_t *state, const uint8_t *desk,
                 uint32_t shard, uint32_t *holder, uint32_t *view, uint32_t *k);

/* Writes a subgroup's page into 2048 bytes. While gathering `masks` has its placement, where there is
 * one. */
void plain_page(const struct plan_settings *settings, const uint8_t *state, const uint8_t *desk,
                uint32_t group, int found, const uint32_t *masks, uint8_t *to);

/* ---- the small functions, one by one ---- */

/* What the header says of this answer's word: each function's result, in the header's order. */
enum { SMALL_FUNCTIONS = 14 };
void plain_small(uint32_t answer, uint32_t *results);

#endif
