/* What the tests in C share: counting, and calls on memory between pages that nobody may touch. */
#ifndef HARNESS_H
#define HARNESS_H

#include <restart.h>

#ifdef __cplusplus
extern "C" {
#endif

/* Counts a check, and prints it if it failed. */
void check_word(const char *what, uint32_t found, uint32_t expected);
void check_bytes(const char *what, const uint8_t *found, const uint8_t *expected, size_t length);

/* Prints `N passed, M failed`; what main returns. */
int summary(void);

/* A refusal with the index of a record. */
#define AT(number, index) ((number) + 256 * (index))

/* A piece to be lent: bytes and their length. */
struct piece {
    uint8_t *bytes;
    size_t length;
};

enum { MOST_PIECES = 4 };

/* An entry point: its pieces in order, which of them it writes, and the call, with a node, a
 * subgroup, rounds or a game's held mask where it takes one. */
struct entry {
    const char *name;
    unsigned pieces;
    unsigned written; /* bit i: piece i */
    uint32_t (*call)(const struct piece *pieces, uint32_t node);
};

/* The role in which the entry points below are called; the planner's until a test sets another. */
extern uint32_t caller;

/* The rounds of a game; 1 until a test sets others. */
extern uint32_t rounds;

extern const struct entry check_settings, read_report, read_order, write_report, write_order;
extern const struct entry from_flat, to_flat, open_view;
extern const struct entry fresh, check_state, report, drop, decide, order, fetched, prepared;
extern const struct entry decide_within, preview, preview_all, game, page;

/* All of them; those from FIRST_ROLE on take a role. */
extern const struct entry *const entries[];
enum { ENTRIES = 21, FIRST_ROLE = 8 };

/*
 * Calls with every piece in pages of its own between two pages without access; a piece that the
 * call does not write is read-only. Bit i of `last` puts piece i against the page after it, else
 * against the page before it. Then checks that no byte around a piece has changed and, if the call
 * was refused, no byte of a piece, and where it waits none of settings, state and desk: a preview
 * that waits has written its buffer. What the call wrote is copied back. Touching another byte ends
 * the program with a line that names the call.
 */
uint32_t call_between(const struct entry *entry, const struct piece *pieces, uint32_t node,
                      unsigned last);

/* Calls at both ends and checks that the answer is this one. What the second call wrote is left in
 * the pieces. */
void check_call(const struct entry *entry, const struct piece *pieces, uint32_t node,
                uint32_t expected);

#ifdef __cplusplus
}
#endif

#endif
