/*
 * Every call at full size (32 nodes, 16 shards in four subgroups, 128 records in every report) on a
 * stack of its own of RESTART_STACK_BYTES, between pages that nobody may touch; how much of it was
 * used is printed. Then a restart on a thread of the size that restart(3) advises.
 *
 *     stack [BYTES]    with another size of the stack
 */
#define _XOPEN_SOURCE 700
#include "harness.h"

#include <pthread.h>
#include <signal.h>
#include <stdio.h>
#include <stdlib.h>
#include <string.h>
#include <sys/mman.h>
#include <ucontext.h>
#include <unistd.h>

enum { NODES = RESTART_NODES, SHARDS = RESTART_SHARDS, HELD = NODES - 1, VIEW = 20, PAINT = 0xA5 };

static void must(int good, const char *what)
{
    if (good)
        return;
    perror(what);
    exit(1);
}

/* ---- Calls on the stack of their own ---- */

static uint8_t *stack;
static size_t stack_size;
static ucontext_t here, there;
static struct {
    const struct entry *entry;
    const struct piece *pieces;
    uint32_t node, answer;
} job;

static void overflow(int number)
{
    static const char text[] = "FAILED: the stack is too small for ";
    (void)number;
    if (write(1, text, sizeof text - 1) < 0 ||
        write(1, job.entry->name, strlen(job.entry->name)) < 0 || write(1, "\n", 1) < 0)
        _exit(3);
    _exit(1);
}

static void make_stack(size_t size)
{
    static uint8_t other[65536]; /* for the handler, which cannot run on a full stack */
    size_t page = (size_t)sysconf(_SC_PAGESIZE);
    stack_t handlers = {.ss_sp = other, .ss_flags = 0, .ss_size = sizeof other};
    struct sigaction action;
    stack_size = (size + page - 1) / page * page;
    uint8_t *pages =
        (uint8_t *)mmap(NULL, stack_size + 2 * page, PROT_NONE, MAP_PRIVATE | MAP_ANONYMOUS, -1, 0);
    must(pages != MAP_FAILED, "mmap");
    stack = pages + page;
    must(mprotect(stack, stack_size, PROT_READ | PROT_WRITE) == 0, "mprotect");
    memset(&action, 0, sizeof action);
    action.sa_handler = overflow;
    action.sa_flags = SA_ONSTACK;
    must(sigaltstack(&handlers, NULL) == 0, "sigaltstack");
    must(sigaction(SIGSEGV, &action, NULL) == 0 && sigaction(SIGBUS, &action, NULL) == 0,
         "sigaction");
}

static void work(void)
{
    job.answer = job.entry->call(job.pieces, job.node);
}

/* How many bytes of the stack have been used. */
static size_t used(void)
{
    size_t at = 0;
    while (at < stack_size && stack[at] == PAINT)
        at++;
    return stack_size - at;
}

/* Calls, checks the answer's class, and gives the stack that was used. */
static size_t call_there(const struct entry *entry, const struct piece *pieces, uint32_t node,
                         uint32_t expected)
{
    memset(stack, PAINT, stack_size);
    job.entry = entry;
    job.pieces = pieces;
    job.node = node;
    must(getcontext(&there) == 0, "getcontext");
    there.uc_stack.ss_sp = stack;
    there.uc_stack.ss_size = stack_size;
    there.uc_link = &here;
    makecontext(&there, work, 0);
    must(swapcontext(&here, &there) == 0, "swapcontext");
    check_word(entry->name, restart_class_of(job.answer), expected);
    check_word("a refusal", restart_number_of(job.answer), 0);
    return used();
}

/* ---- A restart at full size ---- */

static uint8_t settings[RESTART_SETTINGS_BYTES], state[RESTART_STATE_BYTES];
static uint8_t desk[RESTART_DESK_BYTES], message[RESTART_MESSAGE_BYTES];
static uint8_t contents[RESTART_CONTENTS_BYTES], buffer[RESTART_BUFFER_BYTES];

/* Four subgroups of four shards that need seven members each, 28 of the 31 held nodes, and keep up
 * to eight. */
static void put_settings(void)
{
    const uint32_t head[4] = {NODES, RESTART_SETS, NODES / 2, SHARDS};
    for (uint32_t i = 0; i < 4; i++)
        restart_put_word(settings, i, head[i]);
    for (uint32_t node = 0; node < NODES; node++)
        restart_put_word(settings, 4 + node, node % RESTART_SETS);
    for (uint32_t shard = 0; shard < SHARDS; shard++)
        restart_put_word(settings, 4 + NODES + shard, 8 * 65536 + shard / 4 * 256 + 7);
}

/* A shard's members in the kept view: eight nodes of eight sets. */
static uint32_t members_of(uint32_t shard)
{
    return UINT32_C(255) << 8 * (shard % 4);
}

/* Record `at` of the message; the next one follows. */
static void put_record(uint32_t at, uint32_t first, uint32_t second, uint32_t third)
{
    restart_put_word(message, 4 * at, first);
    restart_put_word(message, 4 * at + 1, second);
    restart_put_word(message, 4 * at + 2, third);
    restart_put_word(message, 4 * at + 3, at + 1 < RESTART_RECORDS ? at + 1 : 0);
}

/* A node's report of 128 records: 111 runs, seven for each shard but the last. */
static void put_report(uint32_t node)
{
    put_record(0, node, VIEW, UINT32_MAX);
    for (uint32_t shard = 0; shard < SHARDS; shard++)
        put_record(1 + shard, RESTART_KIND_MEMBERS * 256 + shard, members_of(shard), 0);
    for (uint32_t run = 0; run + 1 + SHARDS < RESTART_RECORDS; run++)
        put_record(1 + SHARDS + run, RESTART_KIND_RUN * 256 + run / 7, VIEW - 6 + run % 7,
                   1 + node);
}

static const struct piece on_settings = {settings, sizeof settings};
static const struct piece on_state = {state, sizeof state};
static const struct piece on_desk = {desk, sizeof desk};
static const struct piece on_message = {message, sizeof message};
static const struct piece on_contents = {contents, sizeof contents};
static const struct piece on_buffer = {buffer, sizeof buffer};

/* ---- The stack of every call ---- */

struct row {
    const struct entry *entry;
    size_t most;
};
static struct row rows[ENTRIES];

/* Makes a call with these pieces and keeps the greatest use. */
static void made(const struct entry *entry, const struct piece *pieces, uint32_t node,
                 uint32_t expected)
{
    size_t bytes = call_there(entry, pieces, node, expected);
    for (size_t i = 0; i < ENTRIES; i++)
        if (entries[i] == entry) {
            rows[i].entry = entry;
            rows[i].most = bytes > rows[i].most ? bytes : rows[i].most;
        }
}

/* Reads the message and writes it again. */
static void there_and_back(const struct entry *reading, const struct entry *writing,
                           struct piece from)
{
    const struct piece to_contents[3] = {on_settings, from, on_contents};
    made(reading, to_contents, 0, RESTART_LENGTH);
    const struct piece words = {contents, 4 * (size_t)restart_length_of(job.answer)};
    const struct piece to_buffer[3] = {on_settings, words, on_buffer};
    made(writing, to_buffer, 0, RESTART_LENGTH);
}

/* Makes a flat report of the message and turns it back. */
static void flat_and_back(void)
{
    const struct piece to_contents[3] = {on_settings, on_message, on_contents};
    made(&to_flat, to_contents, 0, RESTART_LENGTH);
    const struct piece words = {contents, 4 * (size_t)restart_length_of(job.answer)};
    const struct piece to_buffer[3] = {on_settings, words, on_buffer};
    made(&from_flat, to_buffer, 0, RESTART_LENGTH);
    check_bytes("the message that comes back", buffer, message, sizeof message);
}

static void gather(void)
{
    const struct piece lent[4] = {on_settings, on_state, on_desk, on_message};
    made(&fresh, &on_state, 0, RESTART_PLAIN);
    for (uint32_t node = 0; node < HELD; node++) {
        put_report(node);
        made(&report, lent, 0, RESTART_PLAIN);
    }
}

/* What decide would answer without each held node, and those whose loss means waiting: nobody's
 * does, then everybody's, where every shard needs eight nodes and 31 are held. */
static void made_previews(const struct piece *lent)
{
    for (uint32_t node = 0; node < HELD; node++)
        made(&preview, lent, node, RESTART_PLAN);
    made(&preview_all, lent, 0, RESTART_LENGTH);
    check_word("who must stay", restart_get_word(buffer, 0), 0);
    for (uint32_t shard = 0; shard < SHARDS; shard++)
        restart_put_word(settings, 4 + NODES + shard, shard / 4 * 256 + 8);
    made(&preview, lent, 0, RESTART_WAIT);
    made(&preview_all, lent, 0, RESTART_LENGTH);
    check_word("who must stay", restart_get_word(buffer, 0), UINT32_MAX >> 1);
    put_settings();
}

/* By rounds from the start to the end, each from the state that has gathered. */
static void made_within(const struct piece *lent)
{
    static uint8_t gathered[RESTART_STATE_BYTES];
    memcpy(gathered, state, sizeof gathered);
    for (uint32_t rounds = 0; rounds <= 129; rounds += rounds < 4 ? 1 : 25) {
        made(&decide_within, lent, rounds, RESTART_PLAN);
        memcpy(state, gathered, sizeof gathered);
    }
}

/* The page of each subgroup, as its watcher. */
static void made_pages(const struct piece *lent)
{
    for (uint32_t subgroup = 0; subgroup < RESTART_SUBGROUPS; subgroup++) {
        caller = restart_watcher(subgroup);
        made(&page, lent, subgroup, RESTART_LENGTH);
    }
    caller = RESTART_PLANNER;
}

static void restart_once(void)
{
    const struct piece lent[4] = {on_settings, on_state, on_desk, on_buffer};
    gather();
    made_previews(lent);
    made_pages(lent);
    made_within(lent);
    made(&decide, lent, 0, RESTART_PLAN);
    made(&check_state, lent, 0, RESTART_PLAIN);
    made_pages(lent);
    for (uint32_t node = 0; node < HELD; node++)
        made(&order, lent, node, RESTART_LENGTH);
    memcpy(message, buffer, sizeof message);
    there_and_back(&read_order, &write_order, on_message);
    for (uint32_t node = 0; node < HELD; node++)
        made(&fetched, lent, node, RESTART_PLAIN);
    for (uint32_t node = 0; node < HELD; node++)
        made(&prepared, lent, node, RESTART_PLAIN);
    gather();
    made(&decide, lent, 0, RESTART_PLAN);
    made(&drop, lent, 3, RESTART_PLAIN);
}

/* ---- A game at full size: ten nodes, whose reports have 128 records ---- */

static void put_small_report(uint32_t node)
{
    put_record(0, node, VIEW, 1023);
    for (uint32_t shard = 0; shard < SHARDS; shard++)
        put_record(1 + shard, RESTART_KIND_MEMBERS * 256 + shard, 3u << 2 * (shard % 4), 0);
    for (uint32_t run = 0; run + 1 + SHARDS < RESTART_RECORDS; run++)
        put_record(1 + SHARDS + run, RESTART_KIND_RUN * 256 + run / 7, VIEW - 6 + run % 7,
                   1 + node);
}

static void play_once(void)
{
    const uint32_t nodes = RESTART_GAME_NODES;
    const uint32_t head[4] = {nodes, nodes, 1, SHARDS};
    const struct piece small = {settings, 4 * (4 + (size_t)nodes + SHARDS)};
    const struct piece lent[4] = {small, on_state, on_desk, on_message};
    for (uint32_t i = 0; i < 4; i++)
        restart_put_word(settings, i, head[i]);
    for (uint32_t node = 0; node < nodes; node++)
        restart_put_word(settings, 4 + node, node);
    for (uint32_t shard = 0; shard < SHARDS; shard++)
        restart_put_word(settings, 4 + nodes + shard, 5 * 65536 + shard / 4 * 256 + 1);
    made(&fresh, &on_state, 0, RESTART_PLAIN);
    for (uint32_t node = 0; node < nodes; node++) {
        put_small_report(node);
        made(&report, lent, 0, RESTART_PLAIN);
    }
    rounds = RESTART_GAME_ROUNDS;
    for (uint32_t held = 0; held < 1024; held += 31)
        made(&game, lent, held, RESTART_GAME);
    made(&game, lent, 1023, RESTART_GAME);
}

/* ---- The same on a thread ---- */

#define LENT RESTART_PLANNER, settings, sizeof settings, state, sizeof state, desk, sizeof desk

/* Gathers, decides and writes an order; what is answered last. */
static void *on_thread(void *answer)
{
    uint32_t *last = (uint32_t *)answer;
    *last = restart_fresh(RESTART_PLANNER, state, sizeof state);
    for (uint32_t node = 0; node < HELD && *last == RESTART_ACCEPTED; node++) {
        put_report(node);
        *last = restart_report(LENT, message, sizeof message);
    }
    if (*last == RESTART_ACCEPTED && restart_is_plan(restart_decide(LENT)))
        *last = restart_order(LENT, 0, buffer, sizeof buffer);
    return NULL;
}

static void thread_of_this_size(size_t size)
{
    pthread_attr_t attributes;
    pthread_t thread;
    uint32_t answer = RESTART_ACCEPTED;
    must(pthread_attr_init(&attributes) == 0, "pthread_attr_init");
    must(pthread_attr_setstacksize(&attributes, size) == 0, "pthread_attr_setstacksize");
    must(pthread_create(&thread, &attributes, on_thread, &answer) == 0, "pthread_create");
    must(pthread_join(thread, NULL) == 0, "pthread_join");
    must(pthread_attr_destroy(&attributes) == 0, "pthread_attr_destroy");
    check_word("an order written on a thread", restart_class_of(answer), RESTART_LENGTH);
}

int main(int count, char **arguments)
{
    make_stack(count > 1 ? strtoul(arguments[1], NULL, 10) : RESTART_STACK_BYTES);
    put_settings();
    put_report(0);
    made(&check_settings, &on_settings, 0, RESTART_PLAIN);
    there_and_back(&read_report, &write_report, on_message);
    flat_and_back();
    made(&open_view, NULL, 31, RESTART_VIEW);
    restart_once();
    play_once();
    put_settings();
    for (size_t i = 0; i < ENTRIES; i++) {
        check_word("the call was made", rows[i].entry != NULL, 1);
        check_word("the stack was enough", rows[i].most < stack_size, 1);
        printf("%-24s %6lu\n", entries[i]->name, (unsigned long)rows[i].most);
    }
    thread_of_this_size((size_t)sysconf(_SC_THREAD_STACK_MIN) + RESTART_STACK_BYTES);
    return summary();
}
