/*
 * What threads may share: settings and messages, by restarts on states and desks of their own; and a
 * state with its desk, by calls that only read them. Every thread makes every call of the header at the
 * same time as the others, and every answer and every byte must be what one thread alone gets. Run under
 * helgrind, which sees every access of the library.
 *
 *   threads [THREADS [ROUNDS]]   so many threads, each so often
 *   threads written              threads that write one state, which they may not: helgrind must see it
 *   threads read                 one that writes a state while another reads its page: this too
 */
#include "world.h"

#include <pthread.h>
#include <stdio.h>
#include <stdlib.h>
#include <string.h>

enum { MOST_THREADS = 64, NODES = 6, ANSWERS = 256 };

/* What all threads read: case A before the plan with seven machines held, and in each later phase. */
static struct world ready, ordered, preparing, committed;
static uint8_t messages[NODES][RESTART_MESSAGE_BYTES];
static size_t lengths[NODES];
static unsigned rounds_of_each = 1;
static pthread_barrier_t all_there;

/* All that a thread has written. */
struct left {
    struct world own; /* a restart of its own */
    uint8_t within[RESTART_STATE_BYTES];
    uint8_t orders[NODES][RESTART_BUFFER_BYTES], shared_orders[NODES][RESTART_BUFFER_BYTES];
    uint8_t contents[2 * NODES][RESTART_BUFFER_BYTES], written[2 * NODES][RESTART_BUFFER_BYTES];
    uint8_t flat[NODES][RESTART_BUFFER_BYTES], back[NODES][RESTART_BUFFER_BYTES];
    uint8_t pages[4][RESTART_BUFFER_BYTES], preview[2][RESTART_BUFFER_BYTES];
    uint8_t drafted[RESTART_BUFFER_BYTES];
    struct restart_task tasks[NODES];
    struct restart_draft draft;
    struct restart_leader leader;
    uint8_t file[RESTART_FILE_BYTES + 8];
    uint32_t answers[ANSWERS];
};

struct work {
    struct left left;
    unsigned count, refused; /* of answers */
};

static void note_word(struct work *work, uint32_t word)
{
    if (work->count < ANSWERS)
        work->left.answers[work->count++] = word;
}

static uint32_t note(struct work *work, uint32_t answer)
{
    work->refused += restart_is_refusal(answer) != 0;
    note_word(work, answer);
    return answer;
}

#define PLACED(world)                                                                              \
    (world).settings, sizeof(world).settings, (world).state, sizeof(world).state, (world).desk,    \
        sizeof(world).desk
#define SETTINGS ready.settings, sizeof ready.settings
/* Shared settings with a state and desk of the thread's own. */
#define OWN                                                                                        \
    RESTART_PLANNER, SETTINGS, left->own.state, sizeof left->own.state, left->own.desk,            \
        sizeof left->own.desk

/* A length in bytes, of an answer in words. */
static size_t bytes_of(uint32_t answer)
{
    return 4 * (size_t)restart_length_of(answer);
}

/* Readers, writers and converters over shared settings and messages. */
static void turns(struct work *work)
{
    struct left *left = &work->left;
    note(work, restart_check_settings(SETTINGS));
    for (unsigned n = 0; n < NODES; n++) {
        size_t read =
            bytes_of(note(work, restart_read_report(SETTINGS, messages[n], lengths[n],
                                                    left->contents[n], RESTART_CONTENTS_BYTES)));
        note(work, restart_write_report(SETTINGS, left->contents[n], read, left->written[n],
                                        RESTART_BUFFER_BYTES));
        size_t flat = bytes_of(note(work, restart_to_flat(SETTINGS, messages[n], lengths[n],
                                                          left->flat[n], RESTART_BUFFER_BYTES)));
        note(work,
             restart_from_flat(SETTINGS, left->flat[n], flat, left->back[n], RESTART_BUFFER_BYTES));
    }
}

static void finds(struct work *work)
{
    for (uint32_t masks = 0; masks < 16; masks++)
        note(work, restart_open_view(7, masks & 8, masks & 7, masks * 5 & 7, masks & 4));
}

/* Orders of a restart, read back in both ways and written again. */
static void orders(struct work *work, uint32_t n)
{
    struct left *left = &work->left;
    size_t order =
        bytes_of(note(work, restart_order(OWN, n, left->orders[n], RESTART_BUFFER_BYTES)));
    size_t read =
        bytes_of(note(work, restart_read_order(SETTINGS, left->orders[n], order,
                                               left->contents[NODES + n], RESTART_BUFFER_BYTES)));
    note(work, restart_write_order(SETTINGS, left->contents[NODES + n], read,
                                   left->written[NODES + n], RESTART_BUFFER_BYTES));
    note(work, restart_read_task(SETTINGS, left->orders[n], order, &left->tasks[n]));
}

/* Case A from the fresh state to the commit, with a machine that is dropped and comes back. */
static void restarts(struct work *work)
{
    struct left *left = &work->left;
    memset(left->own.desk, 0xEE, sizeof left->own.desk);
    note(work, restart_fresh(RESTART_PLANNER, left->own.state, sizeof left->own.state));
    for (unsigned n = 0; n < NODES; n++)
        note(work, restart_report(OWN, messages[n], lengths[n]));
    note(work, restart_drop(OWN, 3));
    note(work, restart_report(OWN, messages[3], lengths[3]));
    memcpy(left->within, left->own.state, sizeof left->within);
    note(work, restart_decide_within(RESTART_PLANNER, SETTINGS, left->within, sizeof left->within,
                                     left->own.desk, sizeof left->own.desk, 1));
    note(work, restart_decide(OWN));
    note(work, restart_check_state(OWN));
    for (uint32_t n = 0; n < NODES; n++) {
        orders(work, n);
        note_word(work, restart_owing(left->own.state));
        note(work, restart_fetched(OWN, n));
    }
    for (uint32_t n = 0; n < NODES; n++)
        note(work, restart_prepared(OWN, n));
}

/* Calls that only read the states that all threads have. */
static void asks(struct work *work)
{
    struct left *left = &work->left;
    note(work, restart_check_state(RESTART_PLANNER, PLACED(ready)));
    note(work, restart_check_state(RESTART_PLANNER, PLACED(preparing)));
    note(work, restart_check_state(RESTART_PLANNER, PLACED(committed)));
    for (uint32_t n = 0; n < NODES; n++)
        note(work, restart_order(RESTART_PLANNER, PLACED(ordered), n, left->shared_orders[n],
                                 RESTART_BUFFER_BYTES));
    note(work,
         restart_page(restart_watcher(0), PLACED(ready), 0, left->pages[0], RESTART_BUFFER_BYTES));
    note(work, restart_page(restart_watcher(0), PLACED(ordered), 0, left->pages[1],
                            RESTART_BUFFER_BYTES));
    note(work,
         restart_page(RESTART_PLANNER, PLACED(preparing), 0, left->pages[2], RESTART_BUFFER_BYTES));
    note(work, restart_page(restart_watcher(1), PLACED(committed), 0, left->pages[3],
                            RESTART_BUFFER_BYTES));
    note(work, restart_preview(RESTART_PLANNER, PLACED(ready), 5, left->preview[0],
                               RESTART_BUFFER_BYTES));
    note(work, restart_preview_all(RESTART_PLANNER, PLACED(ready), left->preview[1],
                                   RESTART_BUFFER_BYTES));
    note(work, restart_game(RESTART_PLANNER, PLACED(ready), 127, 1));
    note(work, restart_game(RESTART_PLANNER, PLACED(ready), 63, 2));
}

/* What is plain C: a report shard by shard, the leader's file, small functions and texts. */
static void keeps(struct work *work)
{
    static const uint32_t masks[3] = {5, 82, 32};
    struct left *left = &work->left;
    note(work, restart_draft_begin(&left->draft, SETTINGS, 1, 7, 127));
    for (unsigned s = 0; s < 3; s++)
        note(work, restart_draft_shard(&left->draft, masks[s]));
    note(work, restart_draft_run(&left->draft, 7, 5));
    note_word(work, restart_draft_room(&left->draft));
    note(work, restart_draft_write(&left->draft, left->drafted, sizeof left->drafted));
    note(work, restart_leader_begin(&left->leader, SETTINGS, 77));
    note(work, restart_leader_report(&left->leader, messages[0], lengths[0]));
    size_t length = bytes_of(note(
        work, restart_leader_save(&left->leader, messages[0], 8, left->file, sizeof left->file)));
    note(work, restart_leader_take(&left->leader, left->drafted, 8, left->file, length));
    note_word(work,
              restart_version() + restart_format() + (uint32_t)strlen(restart_version_text()));
    for (uint32_t word = 0; word < 40; word++)
        note_word(work,
                  (uint32_t)(strlen(restart_number_text(word)) + strlen(restart_reason_text(word)) +
                             strlen(restart_phase_text(word)) + strlen(restart_view_text(word))));
}

static void *run(void *given)
{
    struct work *work = (struct work *)given;
    for (unsigned round = 0; round < rounds_of_each; round++) {
        work->count = work->refused = 0;
        turns(work);
        finds(work);
        restarts(work);
        asks(work);
        keeps(work);
    }
    return NULL;
}

static void *run_with_others(void *given)
{
    pthread_barrier_wait(&all_there);
    return run(given);
}

/* What threads may not do: write one state, or write it while others read. */
static void *write_shared(void *given)
{
    (void)given;
    pthread_barrier_wait(&all_there);
    return (void *)(uintptr_t)restart_fetched(RESTART_PLANNER, PLACED(ordered), 1);
}

static void *read_shared(void *given)
{
    pthread_barrier_wait(&all_there);
    return (void *)(uintptr_t)restart_page(RESTART_PLANNER, PLACED(ordered), 0, (uint8_t *)given,
                                           RESTART_BUFFER_BYTES);
}

/* Starts the threads, each with its own piece, and waits for them. */
static void start(unsigned count, void *(*const *runs)(void *), void *const *given)
{
    pthread_t threads[MOST_THREADS];
    pthread_barrier_init(&all_there, NULL, count);
    for (unsigned i = 0; i < count; i++)
        if (pthread_create(&threads[i], NULL, runs[i], given[i]) != 0)
            exit(2);
    for (unsigned i = 0; i < count; i++)
        if (pthread_join(threads[i], NULL) != 0)
            exit(2);
    pthread_barrier_destroy(&all_there);
}

static int race(const char *how)
{
    static uint8_t page[RESTART_BUFFER_BYTES];
    void *(*const runs[2])(void *) = {write_shared,
                                      strcmp(how, "read") == 0 ? read_shared : write_shared};
    void *const given[2] = {page, page};
    start(2, runs, given);
    return summary();
}

int main(int count, char **words)
{
    static struct work one;
    static void *(*runs[MOST_THREADS])(void *);
    static void *given[MOST_THREADS];
    unsigned threads = count > 1 ? (unsigned)strtoul(words[1], NULL, 10) : 4;

    world_ready(&ready);
    world_ordered(&ordered);
    world_preparing(&preparing);
    world_committed(&committed);
    for (unsigned n = 0; n < NODES; n++)
        lengths[n] = put_report(messages[n], n);
    if (count > 1 && threads == 0)
        return race(words[1]);
    run(&one);
    check_word("answers of one thread", one.count < ANSWERS, 1);
    check_word("the page that is not the watcher's is refused, and nothing else", one.refused, 1);
    check_bytes("its state", one.left.own.state, committed.state, sizeof committed.state);
    check_bytes("its orders", one.left.orders[0], one.left.shared_orders[0],
                sizeof one.left.orders);
    rounds_of_each = count > 2 ? (unsigned)strtoul(words[2], NULL, 10) : 1;
    if (threads > MOST_THREADS)
        threads = MOST_THREADS;
    for (unsigned i = 0; i < threads; i++) {
        runs[i] = run_with_others;
        given[i] = calloc(1, sizeof(struct work));
        if (given[i] == NULL)
            return 2;
    }
    start(threads, runs, given);
    for (unsigned i = 0; i < threads; i++) {
        const struct work *work = (const struct work *)given[i];
        check_word("a thread's answers", work->count, one.count);
        check_bytes("all that it has written", (const uint8_t *)&work->left,
                    (const uint8_t *)&one.left, sizeof one.left);
        free(given[i]);
    }
    return summary();
}
