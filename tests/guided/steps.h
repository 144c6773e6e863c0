/*
 * The inputs of the fuzzer over the calls: a list of steps, each a head of 12 bytes and then its own
 * bytes. A step is a call on the settings, state and desk that the steps before have left, or changes
 * these itself.
 *   byte 0       what is done, enum step_kind
 *   byte 1       whose role (role_of)
 *   byte 2       enum lent_piece: which piece is lent with another length, if any
 *   byte 3       rounds of a game
 *   bytes 4-7    node, subgroup, rounds, held mask or place, a word
 *   bytes 8-9    how many bytes follow
 *   bytes 10-11  that other length
 */
#ifndef STEPS_H
#define STEPS_H

#include <stddef.h>
#include <stdint.h>

enum step_kind {
    SETTINGS, /* these settings from here on */
    FRESH,
    CHECK_STATE,
    REPORT,
    DROP,
    DECIDE,
    DECIDE_WITHIN,
    ORDER,
    FETCHED,
    PREPARED,
    PREVIEW,
    PREVIEW_ALL,
    PAGE,
    GAME,
    CHECK_SETTINGS,
    READ_REPORT,
    READ_ORDER,
    WRITE_REPORT,
    WRITE_ORDER,
    FROM_FLAT,
    TO_FLAT,
    OPEN_VIEW,
    SMALL,      /* the functions that take an answer apart */
    DRAFT,      /* a report shard by shard */
    TASK,       /* an order shard by shard */
    FILE_KEPT,  /* the leader's file, saved and taken up */
    POKE_STATE, /* overwrite the state from a byte on */
    POKE_DESK,
    STEP_KINDS
};

enum lent_piece { ALL_RIGHT, SETTINGS_LENGTH, STATE_LENGTH, DESK_LENGTH, BUFFER_LENGTH };

enum { STEP_HEAD = 12, MOST_STEPS = 64, MOST_STEP_BYTES = 4096 };

struct step {
    uint8_t kind, role, wrong, rounds;
    uint32_t word;
    uint16_t length, wrong_length;
    const uint8_t *bytes;
};

/* Takes the next step from the input; whether there was one. Its bytes are those that are there. */
int next_step(struct step *to, const uint8_t **input, size_t *left);

/* The role's word that a step's byte stands for. */
uint32_t role_of(uint8_t byte);

#endif
