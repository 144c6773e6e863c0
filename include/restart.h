/*
 * The restart planner of the score store, for C11 and C++.
 *
 * After all machines have stopped, the planner takes a report from each machine that returns,
 * decides whether enough of them are back, and says where each shard's log ends and which machines
 * carry which shard. The library does this and nothing else: no network, no files, no clock, no
 * memory of its own. Everything that it reads or writes is lent by the caller for the length of a
 * call. restart-model(7) explains the terms, restart(7) the formats.
 *
 * Every lent piece is a pointer, not null, and a length in bytes. It holds words: numbers of 32
 * bits, lowest byte first (restart_get_word, restart_put_word). A piece needs no alignment. A piece
 * that is written must not overlap another piece of the same call. A mask is a word that has bit n
 * for node n.
 *
 * Every call answers with a word: see "Answers". A refused call changes no lent byte, and its
 * number says why: of those that are named at the call the first that applies, in the order of
 * enum restart_number. That order is 1, 2, 15, 3, 4, 22, 23, 19, 20, 21, 5, 6, 7, 8, 9, 16, 17, 10,
 * 11, 18, 12, 13, 14, not the order of their size.
 *
 * Every call over a restart's state has the caller's role as its first argument: see "Roles". The
 * planner may make every call; a watcher of one subgroup may read that subgroup's page and nothing
 * else (restart_page), and gets number 15 from every other call.
 *
 * What is proved: the calls under "Settings and messages", "Open views", "Events", "Previews", "Pages"
 * and "Shifts" are proved functions. For any bytes whatever they end, touch nothing but what was lent,
 * and answer and leave what their definitions say. The functions under "Roles", "Answers", "Words in
 * lent bytes", "Versions and texts", "Reports shard by shard", "Orders shard by shard" and "What a
 * leader keeps" are plain C beside them (c/restart_extra.c): tested, not proved, and never called by
 * a proved one.
 *
 * Stack: a call needs up to RESTART_STACK_BYTES of it. No call allocates memory.
 *
 * Threads: calls may run at the same time if no piece that one of them writes is used by another.
 * So settings, messages and a state with its desk may be shared by any number of calls that only
 * read them (const); a call that writes a state or desk must be the only one that has it.
 *
 * Platform: x86-64 Linux. The lent bytes are the same on every machine and can be sent and stored.
 *
 * What stays: restart(3), COMPATIBILITY.
 */
#ifndef RESTART_H
#define RESTART_H

#include <stddef.h>
#include <stdint.h>

#ifdef __cplusplus
extern "C" {
#endif

/* ---- Version ---- */

#define RESTART_VERSION_MAJOR 0
#define RESTART_VERSION_MINOR 6
#define RESTART_VERSION_PATCH 0
#define RESTART_VERSION "0.6.0"
#define RESTART_VERSION_NUMBER 600 /* major * 10000 + minor * 100 + patch */

/* Of the state. It is raised when a saved state is no longer taken; save it beside a state, and start
 * fresh where it differs. restart(3), COMPATIBILITY, says what else stays. */
#define RESTART_FORMAT 2

/* ---- What the compiler can check ----
 * No pointer is null, and every answer is looked at; restart_fresh alone cannot be refused where
 * the role is the planner's and the length is right.
 */

#if defined(__GNUC__) || defined(__clang__)
#define RESTART_NONNULL __attribute__((nonnull))
#define RESTART_CHECKED __attribute__((warn_unused_result))
#else
#define RESTART_NONNULL
#define RESTART_CHECKED
#endif

/* The small functions are inline here, and the library has each of them under its name for callers
 * from other languages. */
#ifndef RESTART_INLINE
#define RESTART_INLINE static inline
#endif

/* ---- Sizes ---- */

#define RESTART_NODES 32          /* most nodes */
#define RESTART_SETS 16           /* most failure sets */
#define RESTART_SHARDS 16         /* most shards */
#define RESTART_SUBGROUPS 4       /* subgroups are numbered 0 to 3 */
#define RESTART_CAP 16            /* greatest cap of a shard */
#define RESTART_RECORDS 128       /* most records of a message, its head among them */
#define RESTART_RECORD_WORDS 4    /* words of a record */
#define RESTART_SETTINGS_WORDS 52 /* longest settings; their length is 4 + nodes + shards words */
#define RESTART_STATE_WORDS 160
#define RESTART_DESK_WORDS 16384 /* a slot for each of 32 nodes */
#define RESTART_SLOT_WORDS 512
#define RESTART_BUFFER_WORDS 512   /* a buffer that a message, page or preview is written to */
#define RESTART_CONTENTS_WORDS 512 /* a buffer that contents are written to */
#define RESTART_PAGE_WORDS 72      /* a subgroup's page; its buffer has 512 words */
#define RESTART_GAME_NODES 10      /* most nodes of a game */
#define RESTART_GAME_ROUNDS 3      /* most rounds of a game */

#define RESTART_SETTINGS_BYTES 208
#define RESTART_STATE_BYTES 640
#define RESTART_DESK_BYTES 65536
#define RESTART_SLOT_BYTES 2048
#define RESTART_BUFFER_BYTES 2048
#define RESTART_CONTENTS_BYTES 2048
#define RESTART_MESSAGE_BYTES 2048 /* longest message */
#define RESTART_FILE_BYTES 66416   /* longest leader's file, without the caller's own words */
#define RESTART_OWN_BYTES 1048576  /* most that these may have */

#define RESTART_STACK_BYTES 65536 /* stack that is enough for any call */

/* ---- The settings' words ----
 * Nodes, failure sets, least group size, shards; for each node its failure set; for each shard
 *   cap * 65536 + subgroup * 256 + need
 * In a placement the shard has nodes from at least `need` different failure sets, 1 to the number of
 * sets, and at most `cap` nodes, need to RESTART_CAP. A cap of 0 stands for the need: then the shard
 * has exactly as many nodes as it needs. A greater cap lets old members stay that are not needed.
 */

/* ---- Roles ----
 * Who a call is made for, as a word: kind * 256 + subgroup. Every other word, 0 among them, is
 * nobody's and gets number 15 from every call that takes a role. The library believes the word: the
 * service knows who asks it, and passes on to each caller's calls that caller's own word.
 */

enum restart_role {
    /* every call, and the page of every subgroup */
    RESTART_PLANNER = 256,
    /* + subgroup: the page of this subgroup and nothing else */
    RESTART_WATCHER = 512
};

/* The role of a watcher of a subgroup; of a subgroup above 3 a word that is nobody's. */
RESTART_INLINE uint32_t restart_watcher(uint32_t subgroup)
{
    return (uint32_t)RESTART_WATCHER +
           (subgroup < RESTART_SUBGROUPS ? subgroup : (uint32_t)RESTART_SUBGROUPS);
}

/* ---- Numbers of refusals, in the order in which they are checked ----
 * Numbers 8, 9, 16 and 17 have an index, that of the record looked at (restart_has_index). Within
 * one number the first bad record on the chain is told.
 */

enum restart_number {
    /* desk not 65536 bytes; buffer or contents to be written not 2048 */
    RESTART_WRONG_LENT = 1,
    /* the settings, or their length; also a cap that is neither 0 nor from the need to 16 */
    RESTART_WRONG_SETTINGS = 2,
    /* the role may not make this call or read this page; a page of a subgroup above 3 */
    RESTART_NOT_ALLOWED = 15,
    /* state not 640 bytes, words that are no state, or one that settings and desk contradict */
    RESTART_UNSOUND_STATE = 3,
    /* the event is not for this phase */
    RESTART_WRONG_PHASE = 4,
    /* game: more than 10 nodes or 3 rounds, or a held bit from the number of nodes up */
    RESTART_TOO_LARGE = 22,
    /* game: no kept view, or a slot that would be unsound if its node were held */
    RESTART_NOT_READY = 23,
    /* flat report: no whole words, or a length that its counts do not explain; a termination word
     * above 1 */
    RESTART_FLAT_LENGTH = 19,
    /* flat report: a run with count 0 */
    RESTART_FLAT_COUNT = 20,
    /* flat report: more than 128 records would be needed */
    RESTART_FLAT_RECORDS = 21,
    /* message of 0 or more than 512 words, or no whole records */
    RESTART_WRONG_LENGTH = 5,
    /* node not below the number of nodes */
    RESTART_WRONG_NODE = 6,
    /* view out of its limits; members with an unknown node or without the head's */
    RESTART_WRONG_VIEW = 7,
    /* a next index that is not larger than its record's, or not inside the message; has an index */
    RESTART_WRONG_NEXT = 8,
    /* a kind that the message cannot have, or a word 2 that is not zero; has an index */
    RESTART_WRONG_RECORD = 9,
    /* a shard that the settings do not have; has an index */
    RESTART_UNKNOWN_SHARD = 16,
    /* wrong sequence, a repeat, a missing or a surplus record; has an index */
    RESTART_WRONG_SEQUENCE = 17,
    /* a shard empty, outside the members, or sharing a node within its subgroup */
    RESTART_WRONG_SHARD = 10,
    /* a position or run; a holder outside the members */
    RESTART_WRONG_POSITION = 11,
    /* a smaller view than the node has reported before, since the fresh state */
    RESTART_EARLIER_VIEW = 18,
    /* the kept view's number with other masks */
    RESTART_OTHER_MASKS = 12,
    /* another termination of the kept view */
    RESTART_OTHER_TERMINATION = 13,
    /* the node is not held; in fetched and prepared also: it is marked already */
    RESTART_NOT_HELD = 14,

    /* From 32 on, of restart_leader_take alone, and looked at before all others. Bytes that begin as
     * no leader's file does */
    RESTART_FILE_FOREIGN = 32,
    /* a leader's file that was cut off, or is longer than it says */
    RESTART_FILE_TORN = 33,
    /* bytes have changed since it was saved: the sum is wrong */
    RESTART_FILE_CHANGED = 34,
    /* its state is of another RESTART_FORMAT */
    RESTART_FILE_FORMAT = 35,
    /* it was saved under other settings */
    RESTART_FILE_SETTINGS = 36
};

/* ---- Reasons to wait, the first that applies ---- */

enum restart_reason {
    /* no view is kept: no report has come */
    RESTART_NO_VIEW = 1,
    /* not more than half of the kept view's members are held */
    RESTART_NO_MAJORITY = 2,
    /* fewer nodes are held than the least group size */
    RESTART_TOO_FEW = 3,
    /* a shard has no holder; the value is the lowest such shard */
    RESTART_NO_HOLDER = 4,
    /* a subgroup has no valid placement; the value is the lowest such subgroup */
    RESTART_NO_PLACEMENT = 5
};

/* ---- What is found of an open view ---- */

enum restart_view {
    /* it counts */
    RESTART_VIEW_SURE = 1,
    /* it was never served */
    RESTART_VIEW_NEVER = 2,
    /* neither is known */
    RESTART_VIEW_UNDECIDED = 3,
    /* both are said */
    RESTART_VIEW_CONTRADICTED = 4
};

/* ---- The state's words ----
 * What is not there is zero, and so are the places of shards and nodes that the settings do not
 * have.
 */

enum restart_state_word {
    /* one of enum restart_phase */
    RESTART_PHASE = 0,
    /* number of the kept view; 0: none */
    RESTART_KEPT_VIEW = 1,
    /* its members mask */
    RESTART_KEPT_MEMBERS = 2,
    /* 1 if a termination is kept, else 0 */
    RESTART_KEPT_TERMINATION = 3,
    /* 16 words: each shard's members mask in the kept view */
    RESTART_KEPT_MASKS = 4,
    /* 32 words: the kept termination, view and k for each shard */
    RESTART_TERMINATION = 20,
    /* mask of the nodes whose reports are held */
    RESTART_HELD = 52,
    /* mask of those that have fetched */
    RESTART_FETCHED = 53,
    /* mask of those that are prepared */
    RESTART_PREPARED = 54,
    /* the plan (not while gathering): number of the new view */
    RESTART_PLAN_VIEW = 55,
    /* its members mask */
    RESTART_PLAN_MEMBERS = 56,
    /* total of moves; a move is a node in a shard that it did not carry in the kept view */
    RESTART_PLAN_MOVES = 57,
    /* 16 words: each shard's members mask in the new view; which, restart_decide says, or
     * restart_decide_within of its own plan */
    RESTART_PLAN_MASKS = 58,
    /* 16 words: for each shard the node whose log is taken */
    RESTART_PLAN_HOLDERS = 74,
    /* 32 words: for each shard the target, up to which that log is taken, view and k */
    RESTART_PLAN_TARGETS = 90,
    /* 32 words: for each node the greatest view that it has reported since the fresh state; 0: none.
     * Drops leave them */
    RESTART_LATEST_VIEWS = 122,
    /* zeros from here on */
    RESTART_STATE_ZEROS = 154
};

enum restart_phase {
    RESTART_GATHERING = 0,
    RESTART_ORDERED = 1,
    RESTART_PREPARING = 2,
    RESTART_COMMITTED = 3
};

/* ---- The words of a subgroup's page ----
 * What is not there is zero, and so are the places of shards that are not the subgroup's and the
 * words that have no name, up to 512.
 */

enum restart_page_word {
    /* one of enum restart_phase */
    RESTART_PAGE_PHASE = 0,
    /* number of the kept view; 0: none */
    RESTART_PAGE_VIEW = 1,
    /* mask of the subgroup's shards: bit s for shard s */
    RESTART_PAGE_SHARDS = 2,
    /* mask of those that have a holder */
    RESTART_PAGE_KNOWN = 3,
    /* 1 if a placement of the subgroup exists, else 0 */
    RESTART_PAGE_FOUND = 4,
    /* its moves */
    RESTART_PAGE_MOVES = 5,
    /* 16 words: for each shard that has a holder the node whose log is taken */
    RESTART_PAGE_HOLDERS = 8,
    /* 32 words: for each shard that has a holder the target, up to which that log is taken, view
     * and k */
    RESTART_PAGE_TARGETS = 24,
    /* 16 words: each shard's members mask in the placement */
    RESTART_PAGE_MASKS = 56
};

/* ---- Records of a message: word 0 of a record after the head is kind * 256 + shard ---- */

enum restart_kind {
    /* members mask, 0 */
    RESTART_KIND_MEMBERS = 1,
    /* a position: view, k */
    RESTART_KIND_TERMINATION = 2,
    /* reports: view, count */
    RESTART_KIND_RUN = 3,
    /* orders: node, 0 */
    RESTART_KIND_HOLDER = 4,
    /* orders: a position: view, k */
    RESTART_KIND_CUT = 5
};

/* ---- Answers ----
 * An answer is class * 16777216 + rest:
 *   class 0   0: accepted.  number + 256 * index: refused; the index is 0 where the number has none
 *   class 1   accepted; the rest is a length in words
 *   class 2   a plan stands in the state; of a preview: in the state that would follow. The rest is
 *             the gap of restart_decide_within's plan, and 0 of every other
 *   class 3   a wait: 256 * reason + value
 *   class 4   what is found of an open view, enum restart_view
 *   class 5   a game: 0 the crew can hold; 256 + node the outage wins by taking this node first,
 *             256 + 32 by passing
 */

enum restart_class {
    RESTART_PLAIN = 0,
    RESTART_LENGTH = 1,
    RESTART_PLAN = 2,
    RESTART_WAIT = 3,
    RESTART_VIEW = 4,
    RESTART_GAME = 5
};

#define RESTART_ACCEPTED UINT32_C(0)
#define RESTART_CLASS_UNIT UINT32_C(16777216)

RESTART_INLINE uint32_t restart_class_of(uint32_t answer)
{
    return answer / RESTART_CLASS_UNIT;
}

/* Whether the call was refused, with nothing changed. */
RESTART_INLINE int restart_is_refusal(uint32_t answer)
{
    return answer != RESTART_ACCEPTED && restart_class_of(answer) == RESTART_PLAIN;
}

/* Whether decide has put a plan into the state, or would. */
RESTART_INLINE int restart_is_plan(uint32_t answer)
{
    return restart_class_of(answer) == RESTART_PLAN;
}

/* Whether decide waits, or would. */
RESTART_INLINE int restart_is_wait(uint32_t answer)
{
    return restart_class_of(answer) == RESTART_WAIT;
}

/* A refusal's number, enum restart_number; 0 of another answer. */
RESTART_INLINE uint32_t restart_number_of(uint32_t answer)
{
    return restart_is_refusal(answer) ? answer % 256 : 0;
}

/* Whether a refusal has an index. This is a property of its number (8, 9, 16, 17), not of the
 * index: an index 0 is that of the head. */
RESTART_INLINE int restart_has_index(uint32_t answer)
{
    uint32_t number = restart_number_of(answer);
    return number == RESTART_WRONG_NEXT || number == RESTART_WRONG_RECORD ||
           number == RESTART_UNKNOWN_SHARD || number == RESTART_WRONG_SEQUENCE;
}

/* A refusal's index; 0 where there is none. It is the index of the record looked at: word 4 * index
 * is the record's first word. Where a record is missing it is that of the last one on the chain. Of
 * contents to be written it is the record's index in the message as it would stand: word 3 * index
 * of the contents is the record's first word. Of a flat report it is the index in the report that
 * it would become: masks are records 1 to S, positions, if there are any, S + 1 to 2 * S, and runs
 * follow. */
RESTART_INLINE uint32_t restart_index_of(uint32_t answer)
{
    return restart_is_refusal(answer) ? answer / 256 : 0;
}

/* A wait's reason, enum restart_reason; 0 of another answer. */
RESTART_INLINE uint32_t restart_reason_of(uint32_t answer)
{
    return restart_is_wait(answer) ? answer % RESTART_CLASS_UNIT / 256 : 0;
}

/* A wait's shard (reason 4) or subgroup (reason 5); 0 of another answer. */
RESTART_INLINE uint32_t restart_value_of(uint32_t answer)
{
    return restart_is_wait(answer) ? answer % 256 : 0;
}

/* The gap of a plan of restart_decide_within, at most 128: no valid placement has fewer moves than
 * the plan's by more. 0 of another answer. Of restart_decide's plan and of a preview's it is 0 too,
 * and says nothing there: they have the fewest moves, whatever the gap would be. */
RESTART_INLINE uint32_t restart_gap_of(uint32_t answer)
{
    return restart_is_plan(answer) ? answer % RESTART_CLASS_UNIT : 0;
}

/* The length in words of what was read or written; 0 of another answer. */
RESTART_INLINE uint32_t restart_length_of(uint32_t answer)
{
    return restart_class_of(answer) == RESTART_LENGTH ? answer % RESTART_CLASS_UNIT : 0;
}

/* What is found of an open view, enum restart_view; 0 of another answer. */
RESTART_INLINE uint32_t restart_view_of(uint32_t answer)
{
    return restart_class_of(answer) == RESTART_VIEW ? answer % RESTART_CLASS_UNIT : 0;
}

/* Whether a game was played. */
RESTART_INLINE int restart_is_game(uint32_t answer)
{
    return restart_class_of(answer) == RESTART_GAME;
}

/* Whether the outage can force the win of a game. */
RESTART_INLINE int restart_outage_wins(uint32_t answer)
{
    return restart_is_game(answer) && answer % RESTART_CLASS_UNIT != 0;
}

/* The node that the outage takes first where it wins; RESTART_NODES where it wins by passing, and of
 * any other answer. */
RESTART_INLINE uint32_t restart_first_of(uint32_t answer)
{
    return restart_outage_wins(answer) ? answer % 256 : (uint32_t)RESTART_NODES;
}

/* ---- Words in lent bytes ---- */

/* Word `index` of the bytes. */
RESTART_NONNULL RESTART_INLINE uint32_t restart_get_word(const uint8_t *bytes, size_t index)
{
    const uint8_t *at = bytes + 4 * index;
    return (uint32_t)at[0] | (uint32_t)at[1] << 8 | (uint32_t)at[2] << 16 | (uint32_t)at[3] << 24;
}

/* Stores word `index`. */
RESTART_NONNULL RESTART_INLINE void restart_put_word(uint8_t *bytes, size_t index, uint32_t word)
{
    uint8_t *at = bytes + 4 * index;
    at[0] = (uint8_t)(word & 255);
    at[1] = (uint8_t)(word >> 8 & 255);
    at[2] = (uint8_t)(word >> 16 & 255);
    at[3] = (uint8_t)(word >> 24);
}

/* ---- Versions and texts ---- */

/* RESTART_VERSION_NUMBER, RESTART_VERSION and RESTART_FORMAT of the library that is linked. */
extern uint32_t restart_version(void);
extern const char *restart_version_text(void);
extern uint32_t restart_format(void);

/* A short text, in English and without a full stop, for a refusal's number, a wait's reason, a
 * phase, what is found of an open view; of any other word one that says so. The texts are constant
 * and never null. */
extern const char *restart_number_text(uint32_t number);
extern const char *restart_reason_text(uint32_t reason);
extern const char *restart_phase_text(uint32_t phase);
extern const char *restart_view_text(uint32_t view);

/* ---- Settings and messages ---- */

/*
 * Whether settings are right.
 * Answers 0, or number 2.
 * Changes nothing.
 */
uint32_t restart_check_settings(const uint8_t *settings,
                                size_t settings_len) RESTART_NONNULL RESTART_CHECKED;

/*
 * Read a report or an order; a message does not say which of the two it is. Contents are words:
 * node, view, members, then three words of each record of the chain, in the chain's order, then
 * zeros to 512 words.
 * Answers class 1 with the number of words before the zeros, 3 + 3 * records; or one of the
 * numbers 1 (contents not 2048 bytes), 2, 5 to 9, 16, 17, 10, 11.
 * Changes the contents.
 */
uint32_t restart_read_report(const uint8_t *settings, size_t settings_len, const uint8_t *message,
                             size_t message_len, uint8_t *contents,
                             size_t contents_len) RESTART_NONNULL RESTART_CHECKED;
uint32_t restart_read_order(const uint8_t *settings, size_t settings_len, const uint8_t *message,
                            size_t message_len, uint8_t *contents,
                            size_t contents_len) RESTART_NONNULL RESTART_CHECKED;

/*
 * Write a report or an order from contents. Their length says how many records they have: it is
 * 12 * (1 + records) bytes. The buffer then holds the records one after another and zeros to 512
 * words. What is written is read back to the same contents.
 * Answers class 1 with the message's length in words, 4 + 4 * records; or one of the numbers 1
 * (buffer not 2048 bytes), 2, 5 (contents of another length, or more than 127 records), 6, 7, 9,
 * 16, 17, 10, 11.
 * Changes the buffer.
 */
uint32_t restart_write_report(const uint8_t *settings, size_t settings_len, const uint8_t *contents,
                              size_t contents_len, uint8_t *buffer,
                              size_t buffer_len) RESTART_NONNULL RESTART_CHECKED;
uint32_t restart_write_order(const uint8_t *settings, size_t settings_len, const uint8_t *contents,
                             size_t contents_len, uint8_t *buffer,
                             size_t buffer_len) RESTART_NONNULL RESTART_CHECKED;

/*
 * Turn a flat report of the former seller into a report, and a report into a flat one. A flat
 * report is words: node, view, members, S, S masks, a word 0 or 1 and, if 1, S positions of two
 * words (view, k), then a count of runs and as many triples of shard, view and count. S and the
 * count of runs are its own words. What is written has zeros after it, to 512 words; the report has
 * its records one after another. A flat report that is taken comes back word for word, a report with
 * the same contents. Lend a flat report without the zeros after it: no count explains them.
 *
 * restart_from_flat answers class 1 with the report's length in words; or one of the numbers 1
 * (buffer not 2048 bytes), 2, 19, 20, 21, 6, 7, 16, 17, 10, 11. A shard too large for a record is
 * one that the settings do not have (16). Runs are not sorted: one out of sequence is refused (17).
 * A flat report may have any length.
 * restart_to_flat answers class 1 with the flat report's length in words, at most 385; or one of
 * the numbers 1 (buffer not 2048 bytes), 2, 5 to 9, 16, 17, 10, 11, as restart_read_report does.
 * Both change the buffer.
 */
uint32_t restart_from_flat(const uint8_t *settings, size_t settings_len, const uint8_t *flat,
                           size_t flat_len, uint8_t *buffer,
                           size_t buffer_len) RESTART_NONNULL RESTART_CHECKED;
uint32_t restart_to_flat(const uint8_t *settings, size_t settings_len, const uint8_t *message,
                         size_t message_len, uint8_t *buffer,
                         size_t buffer_len) RESTART_NONNULL RESTART_CHECKED;

/* ---- Open views ----
 * A view on a machine's disk is sure, where the machine knows that it was committed, or open, where
 * the machine has prepared it and knows no more. With each view it has the list of all views before
 * it. A view is told by its number and its members.
 */

/*
 * Whether an open view counts. Asked after every machine that is back has sent its views with their
 * lists, once for each open view that one of them has, and before any report is handed to
 * restart_report. Each argument is a mask:
 *   members   the view's members
 *   known     the machines that have it as sure, or sent a view in whose list it stands
 *   have      those that have it as an open view; also those whose disk an operator says is gone
 *             for ever, under the condition in restart(3), PERSISTENCE
 *   lack      those that sent their views, and it is neither among these nor in their lists
 *   passed    those that sent a sure view of its number or a greater one, which is another view and
 *             has it not in its list
 * Answers class 4, and is never refused. What the leader does then:
 *   RESTART_VIEW_SURE          tells the machines that have it that it is sure
 *   RESTART_VIEW_NEVER         lets them forget it with its logs, on disk, before they report
 *   RESTART_VIEW_UNDECIDED     waits for the members that are in none of known, have and lack, and
 *                              plans nothing meanwhile
 *   RESTART_VIEW_CONTRADICTED  plans nothing and calls an operator: a machine went back in time, or
 *                              a duty was broken
 * Changes nothing.
 */
uint32_t restart_open_view(uint32_t members, uint32_t known, uint32_t have, uint32_t lack,
                           uint32_t passed) RESTART_CHECKED;

/* ---- Events ----
 * A restart is a state of 640 bytes and a desk of 65536. The caller keeps both between the calls,
 * uses the same settings throughout and changes neither state nor desk itself. The desk has a slot
 * of 2048 bytes for each node; before the first report its bytes may be any.
 *
 * What is proved supposes that the service keeps its duties: restart(3), DUTIES OF THE CALLER. What is
 * on disk when: restart(3), PERSISTENCE. A leader needs no file.
 */

/*
 * Stores the fresh state: gathering, nothing held, no view kept, none remembered of any node.
 * Answers 0, or one of the numbers 15, 3 (state not 640 bytes).
 * Changes the state.
 */
uint32_t restart_fresh(uint32_t role, uint8_t *state, size_t state_len) RESTART_NONNULL;

/*
 * Whether the bytes are a state that is sound with these settings and this desk, in whatever phase
 * it is. Every event asks the same of its state first; a leader that takes up what it has saved can
 * ask before anything else.
 * Answers 0, or one of the numbers 1, 2, 15, 3.
 * Changes nothing.
 */
uint32_t restart_check_state(uint32_t role, const uint8_t *settings, size_t settings_len,
                             const uint8_t *state, size_t state_len, const uint8_t *desk,
                             size_t desk_len) RESTART_NONNULL RESTART_CHECKED;

/*
 * Takes a node's report, while gathering. The message is copied to the node's slot and the node is
 * held; an older report of the node is replaced. A greater view than the kept one becomes the kept
 * view, with its termination or none; an equal one adds its termination if none is kept. The
 * greatest view that the node has reported is remembered, and a report of a smaller one is refused
 * with number 18.
 * Answers 0, or one of the numbers 1, 2, 15, 3 to 9, 16, 17, 10, 11, 18, 12, 13.
 * Changes state and desk.
 */
uint32_t restart_report(uint32_t role, const uint8_t *settings, size_t settings_len, uint8_t *state,
                        size_t state_len, uint8_t *desk, size_t desk_len, const uint8_t *message,
                        size_t message_len) RESTART_NONNULL RESTART_CHECKED;

/*
 * Gives up a held node. While gathering the node is no longer held. While ordered or preparing
 * nothing is held any more, the plan and all marks go and gathering starts again: every machine
 * has to report anew. Kept view and termination remain, and so do the views that are remembered.
 * Answers 0, or one of the numbers 1, 2, 15, 3, 4, 6, 14.
 * Changes the state.
 */
uint32_t restart_drop(uint32_t role, const uint8_t *settings, size_t settings_len, uint8_t *state,
                      size_t state_len, const uint8_t *desk, size_t desk_len,
                      uint32_t node) RESTART_NONNULL RESTART_CHECKED;

/*
 * Decides, while gathering: a plan, or a wait with its reason. A plan leads to ordered and stands
 * in the state. A wait changes nothing.
 * In each subgroup the placement has the fewest moves; of those with as few, as many old members
 * stay as can; of those with as many, it is the first: shards ascending, each shard's nodes listed
 * ascending, the smaller list in dictionary order wins at the first shard that differs, and a list
 * comes before those that go on from it. So the same settings, kept view, termination and held
 * reports give the same plan.
 * Answers class 2 (a plan) or class 3 (a wait), or one of the numbers 1, 2, 15, 3, 4.
 * Changes the state where there is a plan.
 */
uint32_t restart_decide(uint32_t role, const uint8_t *settings, size_t settings_len, uint8_t *state,
                        size_t state_len, const uint8_t *desk,
                        size_t desk_len) RESTART_NONNULL RESTART_CHECKED;

/*
 * Decides as restart_decide, while gathering, with a placement that a number of improving rounds
 * reaches: a plan sooner, or a better one later. It starts in each subgroup from the first valid
 * placement, in restart_decide's order and whatever its moves. Each round takes, in the lowest
 * subgroup that has a valid placement of fewer moves than the one reached there, the first of
 * those; how many members stay plays no part. It stops early only where no subgroup has one. More
 * than 128 rounds count as 128, and with 128 no valid placement has fewer moves.
 * It waits where restart_decide waits, with the same reason. Its plan differs from restart_decide's
 * in the shards' members and in the moves alone, leads to ordered as that one does, and orders and
 * marks follow as ever.
 * Answers class 2 (a plan) with the gap, restart_gap_of: the plan's moves less the sum, over shards,
 * of m minus the lesser of m and the number of sets among the shard's held old members. No valid
 * placement has fewer moves than the plan's by more than the gap; it may be above 0 where none has
 * fewer. Or class 3 (a wait), or one of the numbers 1, 2, 15, 3, 4.
 * Changes the state where there is a plan.
 */
uint32_t restart_decide_within(uint32_t role, const uint8_t *settings, size_t settings_len,
                               uint8_t *state, size_t state_len, const uint8_t *desk,
                               size_t desk_len, uint32_t rounds) RESTART_NONNULL RESTART_CHECKED;

/*
 * Writes a held node's order, while ordered: the new view with its members, each shard's members
 * and target, and for each shard that the node carries the holder and the node's cut. The node
 * keeps its log up to the cut and fetches what the holder has after it, up to the target. The cut
 * is the end of what its log and the holder's, up to the target, share from their beginning.
 * Answers class 1 with the order's length in words, or one of the numbers 1 (desk or buffer), 2, 15,
 * 3, 4, 6, 14.
 * Changes the buffer: the order, then zeros.
 */
uint32_t restart_order(uint32_t role, const uint8_t *settings, size_t settings_len,
                       const uint8_t *state, size_t state_len, const uint8_t *desk, size_t desk_len,
                       uint32_t node, uint8_t *buffer,
                       size_t buffer_len) RESTART_NONNULL RESTART_CHECKED;

/*
 * Marks a held node as having fetched what its order names, while ordered. When all held nodes are
 * marked, preparing follows.
 * Answers 0, or one of the numbers 1, 2, 15, 3, 4, 6, 14.
 * Changes the state.
 */
uint32_t restart_fetched(uint32_t role, const uint8_t *settings, size_t settings_len,
                         uint8_t *state, size_t state_len, const uint8_t *desk, size_t desk_len,
                         uint32_t node) RESTART_NONNULL RESTART_CHECKED;

/*
 * Marks a held node as prepared (the new view and all that was fetched are on its disk), while
 * preparing. When all held nodes are marked, the new view is committed; a committed state takes no
 * event.
 * Answers 0, or one of the numbers 1, 2, 15, 3, 4, 6, 14.
 * Changes the state.
 */
uint32_t restart_prepared(uint32_t role, const uint8_t *settings, size_t settings_len,
                          uint8_t *state, size_t state_len, const uint8_t *desk, size_t desk_len,
                          uint32_t node) RESTART_NONNULL RESTART_CHECKED;

/* ---- Previews ----
 * What a restart would come to without one machine more, before it is taken out for repair. Neither
 * state nor desk changes.
 */

/*
 * What restart_decide would answer if this held node were dropped first, while gathering: the answer
 * and the state of restart_drop and then restart_decide on a copy of state and desk. Kept view and
 * termination remain, also where the node alone has reported them.
 * Answers class 2 (a plan) or class 3 (a wait), as restart_decide, or one of the numbers 1 (desk or
 * buffer), 2, 15, 3, 4, 6, 14; 4 in every other phase, also where restart_drop is taken.
 * Changes the buffer, for a plan and for a wait: the 160 words of the state that would follow (enum
 * restart_state_word), then zeros.
 */
uint32_t restart_preview(uint32_t role, const uint8_t *settings, size_t settings_len,
                         const uint8_t *state, size_t state_len, const uint8_t *desk,
                         size_t desk_len, uint32_t node, uint8_t *buffer,
                         size_t buffer_len) RESTART_NONNULL RESTART_CHECKED;

/*
 * The held nodes without which restart_decide would wait, for whatever reason, each taken by itself,
 * while gathering. Where it waits already these are all held nodes; where nobody is held there are
 * none.
 * Answers class 1 with length 1, or one of the numbers 1 (desk or buffer), 2, 15, 3, 4.
 * Changes the buffer: word 0 is the mask of these nodes, then zeros.
 */
uint32_t restart_preview_all(uint32_t role, const uint8_t *settings, size_t settings_len,
                             const uint8_t *state, size_t state_len, const uint8_t *desk,
                             size_t desk_len, uint8_t *buffer,
                             size_t buffer_len) RESTART_NONNULL RESTART_CHECKED;

/* ---- Pages ---- */

/*
 * Writes the page of a subgroup, in any phase: how far the restart is, and for each shard of the
 * subgroup its holder and target, or neither where nobody who is held can be its holder; then the
 * subgroup's placement and its moves, or that none exists. Outside gathering the placement is the
 * plan's. While gathering it is the one that restart_decide would give the subgroup from the
 * reports that are held, whether restart_decide waits or not.
 * The page is for the planner and for a watcher of this subgroup. It depends on nothing but the
 * settings' nodes, sets and the subgroup's shards, the phase, the kept view's number and members,
 * the held mask, the views that held nodes reported, whether a termination is kept, and the
 * subgroup's masks, termination positions, runs and plan: where two restarts agree on these, answer
 * and all 2048 bytes are the same, whatever else differs.
 * Answers class 1 with RESTART_PAGE_WORDS, or one of the numbers 1 (desk or buffer), 2, 15, 3.
 * Changes the buffer: the words of enum restart_page_word, then zeros.
 */
uint32_t restart_page(uint32_t role, const uint8_t *settings, size_t settings_len,
                      const uint8_t *state, size_t state_len, const uint8_t *desk, size_t desk_len,
                      uint32_t subgroup, uint8_t *buffer,
                      size_t buffer_len) RESTART_NONNULL RESTART_CHECKED;

/* ---- Shifts ---- */

/*
 * The game of outage and crew, for planning repairs, while gathering: with the nodes of `held` up, in
 * place of those that the state holds, the outage takes one node down, then the crew brings back one
 * that is down, other than that one; so in turn, for 0 to 3 rounds. A side that can move has to, and
 * passes where it cannot. The crew wins if restart_decide would give a plan after each of its turns;
 * so a game of 0 rounds is the crew's. There are up to 10 nodes, and the slot of every one of them,
 * held or not, has a valid report; a node counts as remembered at the view of that report.
 * Answers class 5: who can force the win, and for the outage its first node, the lowest with which it
 * can, or passing, where nobody is held (restart_outage_wins, restart_first_of). Or one of the
 * numbers 1, 2, 15, 3, 4, 22 (more nodes or rounds, or a held bit from the number of nodes up), 23
 * (no kept view, or a slot that would not be sound if its node were held).
 * Changes nothing.
 */
uint32_t restart_game(uint32_t role, const uint8_t *settings, size_t settings_len,
                      const uint8_t *state, size_t state_len, const uint8_t *desk, size_t desk_len,
                      uint32_t held, uint32_t rounds) RESTART_NONNULL RESTART_CHECKED;

/* ---- Reports shard by shard ----
 * A report is drafted from its head on: begin; for each shard in turn its members, its runs by
 * ascending view and, if the view has a termination, the position where it ended; then write. A step
 * is refused at once, with the draft as it was, for what restart_write_report would refuse later.
 */

/* A report in the making. It may be read; the calls alone change it. */
struct restart_draft {
    uint8_t settings[RESTART_SETTINGS_BYTES];
    uint32_t settings_len;
    uint32_t node, view, members;
    uint32_t shards; /* how many are begun; the last of them is at hand */
    uint32_t ended;  /* how many of them have a position of the termination */
    uint32_t runs;   /* how many are there */
    uint32_t first;  /* of them, the number of the first of the shard at hand */
    uint32_t masks[RESTART_SHARDS];
    uint32_t positions[2 * RESTART_SHARDS]; /* view and k */
    uint32_t triples[3 * RESTART_RECORDS];  /* of each run: shard, view, count */
};

/*
 * Begins a report of this node: its latest view that counts, with the view's members.
 * Answers 0, or one of the numbers 2, 6, 7.
 */
extern uint32_t restart_draft_begin(struct restart_draft *draft, const uint8_t *settings,
                                    size_t settings_len, uint32_t node, uint32_t view,
                                    uint32_t members) RESTART_NONNULL RESTART_CHECKED;

/*
 * Goes on to the next shard, the first time to shard 0: its members in the view.
 * Answers 0, or one of the numbers 16 (the settings have no more), 17 (the shard before lacks its
 * position), 10.
 */
extern uint32_t restart_draft_shard(struct restart_draft *draft,
                                    uint32_t members) RESTART_NONNULL RESTART_CHECKED;

/*
 * Where the view's termination ends the shard at hand. Every shard has a position, or none has.
 * Answers 0, or one of the numbers 5 (no room), 17, 11.
 */
extern uint32_t restart_draft_ended(struct restart_draft *draft, uint32_t view,
                                    uint32_t k) RESTART_NONNULL RESTART_CHECKED;

/*
 * Adds a run to the shard at hand: its log has the updates (view, 1) to (view, count).
 * Answers 0, or one of the numbers 5 (no room), 17 (no shard is at hand, or its run before is not of
 * an earlier view), 11.
 */
extern uint32_t restart_draft_run(struct restart_draft *draft, uint32_t view,
                                  uint32_t count) RESTART_NONNULL RESTART_CHECKED;

/* How many runs still fit. With the first position it falls by the number of shards. */
extern uint32_t restart_draft_room(const struct restart_draft *draft) RESTART_NONNULL;

/*
 * Writes the report into the buffer, as restart_write_report, which has the last word. The draft
 * stays, and can go on.
 * Answers class 1 with the report's length in words; or one of the numbers of restart_write_report:
 * 1 (buffer not 2048 bytes), 17 (a shard or a position is missing).
 * Changes the buffer.
 */
extern uint32_t restart_draft_write(const struct restart_draft *draft, uint8_t *buffer,
                                    size_t buffer_len) RESTART_NONNULL RESTART_CHECKED;

/* ---- Orders shard by shard ---- */

/* The end of some log: (0, 0) or view and k. */
struct restart_position {
    uint32_t view, k;
};

/* What an order says of a shard. Holder and cut are there where the order's machine carries it, else
 * zeros. */
struct restart_shard {
    uint32_t members; /* mask in the new view */
    uint32_t carried; /* 1 if the machine is one of them, else 0 */
    uint32_t holder;  /* the node whose log is taken */
    struct restart_position cut, target;
};

/* An order: whose it is, the new view and its shards. */
struct restart_task {
    uint32_t node, view, members;
    uint32_t shards;
    struct restart_shard shard[RESTART_SHARDS]; /* zeros from `shards` on */
};

/*
 * Reads an order.
 * Answers 0, or one of the numbers of restart_read_order: 2, 5 to 9, 16, 17, 10, 11.
 * Changes the task.
 */
extern uint32_t restart_read_task(const uint8_t *settings, size_t settings_len,
                                  const uint8_t *message, size_t message_len,
                                  struct restart_task *task) RESTART_NONNULL RESTART_CHECKED;

/* ---- What a leader keeps ----
 * Settings, state, desk and the attempt's tag in one struct, which lends itself to the calls, goes
 * into a file and comes out of it. All bytes are in the struct: it may be copied and thrown away.
 */

struct restart_leader {
    uint64_t tag;        /* of the attempt: duty 2 */
    size_t settings_len; /* in bytes */
    uint8_t settings[RESTART_SETTINGS_BYTES];
    uint8_t state[RESTART_STATE_BYTES];
    uint8_t desk[RESTART_DESK_BYTES];
};

/*
 * Begins under these settings and this tag: the fresh state, and a desk of zeros.
 * Answers 0, or number 2.
 */
extern uint32_t restart_leader_begin(struct restart_leader *leader, const uint8_t *settings,
                                     size_t settings_len,
                                     uint64_t tag) RESTART_NONNULL RESTART_CHECKED;

/* The held machines that still owe a mark: while ordered those that have not fetched, while preparing
 * those that are not prepared; else none. The state has 640 bytes. */
RESTART_NONNULL RESTART_INLINE uint32_t restart_owing(const uint8_t *state)
{
    uint32_t phase = restart_get_word(state, RESTART_PHASE);
    uint32_t marked = phase == RESTART_ORDERED     ? restart_get_word(state, RESTART_FETCHED)
                      : phase == RESTART_PREPARING ? restart_get_word(state, RESTART_PREPARED)
                                                   : UINT32_MAX;
    return restart_get_word(state, RESTART_HELD) & ~marked;
}

/*
 * The leader's file, restart(7): what the leader keeps, and words of the caller's own behind it (the
 * kept view's list, say), all under a sum. The bytes are for a file that is replaced as a whole:
 * restart(3), PERSISTENCE. `own_len` is a multiple of 4, at most RESTART_OWN_BYTES, and may be 0.
 * Answers class 1 with the file's length in words; or one of the numbers 1 (own words of another
 * length, or fewer bytes than the file needs: RESTART_FILE_BYTES + own_len are enough), 2.
 * Changes the bytes, up to that length.
 */
extern uint32_t restart_leader_save(const struct restart_leader *leader, const uint8_t *own,
                                    size_t own_len, uint8_t *bytes,
                                    size_t bytes_len) RESTART_NONNULL RESTART_CHECKED;

/*
 * Takes up what was saved. Where the leader has settings (settings_len is not 0), the file must have
 * the same. `own_len` says how many bytes of the caller's own words there is room for.
 * Answers class 1 with how many of these words there are; or one of the numbers, in this order: 32,
 * 33, 34, 35, 36, 1 (more own words than there is room for), 2, 3 (restart_check_state). With any
 * number nothing has changed, and starting fresh, under a new tag, is safe.
 * Changes leader and own words.
 */
extern uint32_t restart_leader_take(struct restart_leader *leader, uint8_t *own, size_t own_len,
                                    const uint8_t *bytes,
                                    size_t bytes_len) RESTART_NONNULL RESTART_CHECKED;

/* The calls over what a leader keeps, in the planner's role. Each is that of the same name, above,
 * and answers so. They are inline and in no library. */

#define RESTART_LENT(leader)                                                                       \
    RESTART_PLANNER, (leader)->settings, (leader)->settings_len, (leader)->state,                  \
        sizeof(leader)->state, (leader)->desk, sizeof(leader)->desk

/* Word `index` of the state, enum restart_state_word. */
RESTART_NONNULL static inline uint32_t restart_leader_word(const struct restart_leader *leader,
                                                           size_t index)
{
    return restart_get_word(leader->state, index);
}

/* The fresh state under another tag. */
RESTART_NONNULL static inline void restart_leader_fresh(struct restart_leader *leader, uint64_t tag)
{
    leader->tag = tag;
    (void)restart_fresh(RESTART_PLANNER, leader->state, sizeof leader->state);
}

RESTART_NONNULL static inline uint32_t restart_leader_check(const struct restart_leader *leader)
{
    return restart_check_state(RESTART_LENT(leader));
}

RESTART_NONNULL static inline uint32_t restart_leader_report(struct restart_leader *leader,
                                                             const uint8_t *message,
                                                             size_t message_len)
{
    return restart_report(RESTART_LENT(leader), message, message_len);
}

/* A drop while ordered or preparing gives the plan up: take a new tag (duty 2). */
RESTART_NONNULL static inline uint32_t restart_leader_drop(struct restart_leader *leader,
                                                           uint32_t node)
{
    return restart_drop(RESTART_LENT(leader), node);
}

RESTART_NONNULL static inline uint32_t restart_leader_decide(struct restart_leader *leader)
{
    return restart_decide(RESTART_LENT(leader));
}

RESTART_NONNULL static inline uint32_t restart_leader_decide_within(struct restart_leader *leader,
                                                                    uint32_t rounds)
{
    return restart_decide_within(RESTART_LENT(leader), rounds);
}

/* The buffers below have RESTART_BUFFER_BYTES. */
RESTART_NONNULL static inline uint32_t restart_leader_order(const struct restart_leader *leader,
                                                            uint32_t node, uint8_t *buffer)
{
    return restart_order(RESTART_LENT(leader), node, buffer, RESTART_BUFFER_BYTES);
}

RESTART_NONNULL static inline uint32_t restart_leader_fetched(struct restart_leader *leader,
                                                              uint32_t node)
{
    return restart_fetched(RESTART_LENT(leader), node);
}

RESTART_NONNULL static inline uint32_t restart_leader_prepared(struct restart_leader *leader,
                                                               uint32_t node)
{
    return restart_prepared(RESTART_LENT(leader), node);
}

RESTART_NONNULL static inline uint32_t restart_leader_preview(const struct restart_leader *leader,
                                                              uint32_t node, uint8_t *buffer)
{
    return restart_preview(RESTART_LENT(leader), node, buffer, RESTART_BUFFER_BYTES);
}

RESTART_NONNULL static inline uint32_t restart_leader_preview_all(
    const struct restart_leader *leader, uint8_t *buffer)
{
    return restart_preview_all(RESTART_LENT(leader), buffer, RESTART_BUFFER_BYTES);
}

/* In the role of whoever asks (duty 18). */
RESTART_NONNULL static inline uint32_t restart_leader_page(const struct restart_leader *leader,
                                                           uint32_t role, uint32_t subgroup,
                                                           uint8_t *buffer)
{
    return restart_page(role, leader->settings, leader->settings_len, leader->state,
                        sizeof leader->state, leader->desk, sizeof leader->desk, subgroup, buffer,
                        RESTART_BUFFER_BYTES);
}

RESTART_NONNULL static inline uint32_t restart_leader_game(const struct restart_leader *leader,
                                                           uint32_t held, uint32_t rounds)
{
    return restart_game(RESTART_LENT(leader), held, rounds);
}

#ifdef __cplusplus
}
#endif

#endif
