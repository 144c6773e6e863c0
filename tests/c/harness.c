#include "harness.h"

#include <signal.h>
#include <stdio.h>
#include <stdlib.h>
#include <string.h>
#include <sys/mman.h>
#include <unistd.h>

/* ---- Counting ---- */

static unsigned passed, failed;

static void count(const char *what, int good)
{
    if (good) {
        passed++;
        return;
    }
    failed++;
    printf("FAILED: %s", what);
}

void check_word(const char *what, uint32_t found, uint32_t expected)
{
    count(what, found == expected);
    if (found != expected)
        printf(": found %lu, expected %lu\n", (unsigned long)found, (unsigned long)expected);
}

void check_bytes(const char *what, const uint8_t *found, const uint8_t *expected, size_t length)
{
    size_t at = 0;
    while (at < length && found[at] == expected[at])
        at++;
    count(what, at == length);
    if (at < length)
        printf(": byte %lu is %u, expected %u\n", (unsigned long)at, (unsigned)found[at],
               (unsigned)expected[at]);
}

int summary(void)
{
    printf("%u passed, %u failed\n", passed, failed);
    return failed == 0 ? 0 : 1;
}

/* ---- Memory between pages without access ---- */

enum { GUARD = 0xA5 };

struct lent {
    uint8_t *pages; /* the pages with access */
    size_t size;
    struct piece piece;
};

static size_t page_size(void)
{
    return (size_t)sysconf(_SC_PAGESIZE);
}

static void must(int good, const char *what)
{
    if (good)
        return;
    perror(what);
    exit(1);
}

static struct lent lend(struct piece piece, int written, int last)
{
    struct lent lent;
    size_t page = page_size();
    lent.size = (piece.length / page + 1) * page;
    uint8_t *all =
        (uint8_t *)mmap(NULL, lent.size + 2 * page, PROT_NONE, MAP_PRIVATE | MAP_ANONYMOUS, -1, 0);
    must(all != MAP_FAILED, "mmap");
    lent.pages = all + page;
    must(mprotect(lent.pages, lent.size, PROT_READ | PROT_WRITE) == 0, "mprotect");
    memset(lent.pages, GUARD, lent.size);
    lent.piece.bytes = last ? lent.pages + (lent.size - piece.length) : lent.pages;
    lent.piece.length = piece.length;
    if (piece.length != 0)
        memcpy(lent.piece.bytes, piece.bytes, piece.length);
    if (!written)
        must(mprotect(lent.pages, lent.size, PROT_READ) == 0, "mprotect");
    return lent;
}

static int all_guards(const uint8_t *from, const uint8_t *to)
{
    while (from < to && *from == GUARD)
        from++;
    return from == to;
}

/* Whether no byte around the piece has changed. */
static int guards_whole(const struct lent *lent)
{
    const uint8_t *piece_end = lent->piece.bytes + lent->piece.length;
    return all_guards(lent->pages, lent->piece.bytes) &&
           all_guards(piece_end, lent->pages + lent->size);
}

static void give_back(struct lent *lent)
{
    size_t page = page_size();
    must(munmap(lent->pages - page, lent->size + 2 * page) == 0, "munmap");
}

/* ---- Touching memory outside its ends ---- */

static const char *volatile current = "no call";

static void outside(int number)
{
    static const char text[] = "FAILED: memory was touched that was not lent, in ";
    (void)number;
    if (write(1, text, sizeof text - 1) < 0 || write(1, current, strlen(current)) < 0 ||
        write(1, "\n", 1) < 0)
        _exit(3);
    _exit(1);
}

static void watch_ends(void)
{
    struct sigaction action;
    memset(&action, 0, sizeof action);
    action.sa_handler = outside;
    must(sigaction(SIGSEGV, &action, NULL) == 0 && sigaction(SIGBUS, &action, NULL) == 0,
         "sigaction");
}

/* ---- Calls ---- */

enum { AFTER_DESK = 3 }; /* the piece after settings, state and desk */

uint32_t call_between(const struct entry *entry, const struct piece *pieces, uint32_t node,
                      unsigned last)
{
    struct lent lent[MOST_PIECES];
    struct piece passed_on[MOST_PIECES];
    for (unsigned i = 0; i < entry->pieces; i++) {
        lent[i] = lend(pieces[i], entry->written >> i & 1, last >> i & 1);
        passed_on[i] = lent[i].piece;
    }
    watch_ends();
    current = entry->name;
    uint32_t answer = entry->call(passed_on, node);
    int whole = 1, same = 1;
    for (unsigned i = 0; i < entry->pieces; i++) {
        whole = whole && guards_whole(&lent[i]);
        if (pieces[i].length == 0)
            continue;
        if (i < AFTER_DESK || restart_is_refusal(answer))
            same = same && memcmp(pieces[i].bytes, lent[i].piece.bytes, pieces[i].length) == 0;
        memcpy(pieces[i].bytes, lent[i].piece.bytes, pieces[i].length);
    }
    for (unsigned i = 0; i < entry->pieces; i++)
        give_back(&lent[i]);
    count(entry->name, whole);
    if (!whole)
        printf(": bytes around a piece have changed\n");
    if (!restart_is_refusal(answer) && !restart_is_wait(answer))
        return answer;
    count(entry->name, same);
    if (!same)
        printf(": answered %lu and changed a piece\n", (unsigned long)answer);
    return answer;
}

void check_call(const struct entry *entry, const struct piece *pieces, uint32_t node,
                uint32_t expected)
{
    uint8_t *before[MOST_PIECES];
    for (unsigned i = 0; i < entry->pieces; i++) {
        before[i] = (uint8_t *)malloc(pieces[i].length + 1);
        must(before[i] != NULL, "malloc");
        if (pieces[i].length != 0)
            memcpy(before[i], pieces[i].bytes, pieces[i].length);
    }
    check_word(entry->name, call_between(entry, pieces, node, 0), expected);
    for (unsigned i = 0; i < entry->pieces; i++) {
        if (pieces[i].length != 0)
            memcpy(pieces[i].bytes, before[i], pieces[i].length);
        free(before[i]);
    }
    check_word(entry->name, call_between(entry, pieces, node, ~0u), expected);
}
