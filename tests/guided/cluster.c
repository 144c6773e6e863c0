/*
 * Fuzzes what machines and leaders of examples/cluster make of messages. A small cluster runs in memory,
 * restarts and serves; an input takes it up somewhere on its way and delivers, doubles, loses and changes
 * messages, sends others, lets time go by and crashes machines.
 *
 * What is asked: no access outside memory, nothing undefined, no endless work; a message that is
 * malformed, or of another attempt, changes nothing on the disk and nothing that the machine goes by;
 * what a machine goes by is what its disk has; and whatever came, each machine can start again from its
 * disk. GUIDED_FAULT=n puts a fault in.
 */
#include "../../examples/cluster/cluster.h"
#include "guided.h"
#include "happenings.h"
#include "plain.h"

#include <setjmp.h>
#include <stdio.h>
#include <stdlib.h>
#include <string.h>

enum { COUNT = 3, LEADER = COUNT, PROCESSES, SHARDS = 2 };
enum { FILES = 10, FILE_MOST = 5120, LEADER_FILE = RESTART_FILE_BYTES + 1024 };
enum { ON_WAY = 48, OLD = 640, BEGINNINGS = 96, WORLD_CALLS = 20000 };

struct letter_sent {
    uint32_t from, to;
    size_t length;
    uint8_t bytes[MESSAGE_BYTES];
};

struct file {
    char name[16];
    int there, kept;       /* now; after a crash too */
    size_t length, synced; /* how much of it a crash leaves */
    uint8_t *bytes;        /* of the process's own room */
    size_t most;
};

/* A process with its disk. */
struct process {
    uint32_t address;
    struct file files[FILES];
    uint8_t room[FILES][FILE_MOST];
    uint8_t big[LEADER_FILE]; /* for the leader's file */
    unsigned changes;         /* of the disk, during this message */
};

/* All of it, so that it can be copied. */
struct cluster {
    struct process processes[PROCESSES];
    struct machine machines[COUNT];
    struct leader leader;
    unsigned count; /* of messages on their way */
    struct letter_sent on_way[ON_WAY];
    uint64_t now, random;
};

static struct cluster now, beginnings[BEGINNINGS];
static unsigned begun;
static struct letter_sent old[OLD];
static unsigned old_count;
static int recording;
static unsigned fault, calls;
static jmp_buf no_room;

/* Three machines, each a failure set of its own; a shard of two in subgroup 0, one of one in 1. */
static const uint32_t settings_words[] = {COUNT, 3, 2, SHARDS, 0, 1, 2, 2, 256 + 1};
static uint8_t settings[sizeof settings_words];
static const struct times times = {100, 200, 1000, 3000, 1500};

enum { SIGHTS = 4096 };
#ifdef __clang__
__attribute__((used, section("__libfuzzer_extra_counters")))
#endif
static uint8_t sights[SIGHTS];

static void wrong(const char *what, uint32_t who, uint32_t kind)
{
    fprintf(stderr, "guided: process %u, message of kind %u: %s\n", who, kind, what);
    abort();
}

/* ---- Faults that can be put in ---- */

static const char *const texts[] = {
    "the cluster itself",
    "orders and findings of any attempt are taken",
    "sums of updates are not looked at",
    "anybody may ask for views",
    "orders of another machine are taken",
    "a byte after a message is read",
    "what is committed is not written to disk",
};

const unsigned guided_faults = sizeof texts / sizeof texts[0] - 1;

const char *guided_fault_text(unsigned number)
{
    return number <= guided_faults ? texts[number] : "there is no such fault";
}

void guided_put_fault(unsigned number)
{
    fault = number;
}

enum { NO_FAULT, ANY_TAG, ANY_SUM, ANY_SENDER, ANY_NODE, PAST_END, FORGETS };

/* ---- The world ---- */

static void called(void)
{
    if (++calls > WORLD_CALLS)
        wrong("endless work", 0, 0);
}

static struct file *find(struct process *p, const char *name)
{
    for (unsigned i = 0; i < FILES; i++)
        if (p->files[i].there && strcmp(p->files[i].name, name) == 0)
            return &p->files[i];
    return NULL;
}

/* A place for a file; what a crash would bring back under the same name is taken. */
static struct file *make(struct process *p, const char *name)
{
    struct file *file = find(p, name);
    for (unsigned i = 0; file == NULL && i < FILES; i++)
        if (!p->files[i].there && (!p->files[i].kept || strcmp(p->files[i].name, name) == 0))
            file = &p->files[i];
    if (file == NULL || strlen(name) >= sizeof file->name)
        longjmp(no_room, 1);
    if (!file->there) {
        int big = p->address >= LEADERS_AT && strncmp(name, "leader", 6) == 0;
        strcpy(file->name, name);
        file->there = 1;
        file->length = file->synced = 0;
        file->kept = 0;
        file->bytes = big ? p->big : p->room[file - p->files];
        file->most = big ? LEADER_FILE : FILE_MOST;
    }
    return file;
}

static long world_read(void *self, const char *name, uint64_t at, uint8_t *bytes, size_t most)
{
    struct file *file = find(self, name);
    called();
    if (file == NULL)
        return -1;
    if (at >= file->length)
        return 0;
    size_t there = file->length - (size_t)at, count = there < most ? there : most;
    memcpy(bytes, file->bytes + at, count);
    return (long)count;
}

static void world_append(void *self, const char *name, const uint8_t *bytes, size_t length)
{
    struct process *p = self;
    struct file *file = make(p, name);
    called();
    if (file->length + length > file->most)
        longjmp(no_room, 1);
    memcpy(file->bytes + file->length, bytes, length);
    file->length += length;
    p->changes++;
}

static void world_sync(void *self, const char *name)
{
    struct file *file = find(self, name);
    called();
    if (file == NULL)
        return;
    file->synced = file->length;
    file->kept = 1;
}

static void world_replace(void *self, const char *name, const uint8_t *bytes, size_t length)
{
    struct process *p = self;
    struct file *file = make(p, name);
    called();
    if (fault == FORGETS && strcmp(name, "views") == 0 && file->length > length)
        return; /* the small file gets shorter where an open view becomes sure */
    if (length > file->most)
        longjmp(no_room, 1);
    memcpy(file->bytes, bytes, length);
    file->length = file->synced = length;
    file->kept = 1;
    p->changes++;
}

static void world_truncate(void *self, const char *name, uint64_t length)
{
    struct process *p = self;
    struct file *file = find(p, name);
    called();
    if (file == NULL || length >= file->length)
        return;
    file->length = (size_t)length;
    if (file->synced > file->length)
        file->synced = file->length;
    p->changes++;
}

static void world_remove(void *self, const char *name)
{
    struct process *p = self;
    struct file *file = find(p, name);
    called();
    if (file == NULL)
        return;
    file->there = file->kept = 0;
    p->changes++;
}

static void world_send(void *self, uint32_t to, const uint8_t *bytes, size_t length)
{
    const struct process *p = self;
    called();
    if (length > MESSAGE_BYTES)
        wrong("a message that is too long", p->address, word_of(bytes, 0));
    static unsigned greetings; /* and of the many that repeat themselves only a few are kept */
    int repeats = word_of(bytes, 0) == HELLO || word_of(bytes, 0) == BEAT;
    if (recording && old_count < OLD && (!repeats || greetings++ % 32 == 0)) {
        old[old_count].from = p->address;
        old[old_count].to = to;
        old[old_count].length = length;
        memcpy(old[old_count++].bytes, bytes, length);
    }
    if (now.count == ON_WAY)
        return; /* lost */
    struct letter_sent *letter = &now.on_way[now.count++];
    letter->from = p->address;
    letter->to = to;
    letter->length = length;
    memcpy(letter->bytes, bytes, length);
}

static uint64_t world_now(void *self)
{
    (void)self;
    called();
    return now.now;
}

static uint64_t world_random(void *self)
{
    (void)self;
    now.random = now.random * UINT64_C(6364136223846793005) + UINT64_C(1442695040888963407);
    return now.random >> 8;
}

static void world_say(void *self, const char *line)
{
    (void)self;
    if (line[0] == 0)
        wrong("an empty line", 0, 0);
}

static void world_at(void *self, int place)
{
    (void)self;
    sights[1 + place % (SIGHTS - 1)] = 1;
}

static struct world world_of(uint32_t process)
{
    struct world world = {
        .self = &now.processes[process],
        .read = world_read,
        .append = world_append,
        .sync = world_sync,
        .replace = world_replace,
        .truncate = world_truncate,
        .remove = world_remove,
        .send = world_send,
        .now = world_now,
        .random = world_random,
        .say = world_say,
        .at = world_at,
    };
    return world;
}

/* ---- Processes ---- */

static uint32_t address_of(uint32_t process)
{
    return process < COUNT ? process : LEADERS_AT;
}

/* Starts a process over its disk; whether it could. */
static int start(uint32_t process)
{
    struct world world = world_of(process);
    if (process < COUNT)
        return machine_start(&now.machines[process], &world, times, settings, sizeof settings,
                             process);
    struct leader_options options = {.number = 0, .leaders = 2, .terminates = 1, .rents = {1}};
    return leader_start(&now.leader, &world, times, settings, sizeof settings, &options);
}

/* What was not synced is gone. */
static void lose_unsynced(struct process *p)
{
    for (unsigned i = 0; i < FILES; i++) {
        struct file *file = &p->files[i];
        if (!file->there)
            continue;
        file->there = file->kept;
        file->length = file->synced;
    }
}

static int crash(uint32_t process)
{
    lose_unsynced(&now.processes[process]);
    return start(process);
}

static void tick(uint32_t process)
{
    if (process < COUNT)
        machine_tick(&now.machines[process]);
    else
        leader_tick(&now.leader);
}

/* ---- What is malformed ---- */

/* A kind's words after kind and tag, at least so many, and from whom. Words after these are left aside. */
enum { FROM_MACHINE = 1, FROM_LEADER = 2, FROM_CLIENT = 4 };

struct shape {
    uint32_t least, senders;
};

static const struct shape shapes[MESSAGES] = {
    [HELLO] = {1, FROM_MACHINE},    [ASK] = {0, FROM_LEADER},
    [VIEWS] = {6, FROM_MACHINE},    [FOUND] = {5 + SHARDS, FROM_LEADER},
    [REPORT] = {2, FROM_MACHINE},   [ORDER] = {5, FROM_LEADER},
    [FETCHED] = {0, FROM_MACHINE},  [PREPARE] = {0, FROM_LEADER},
    [PREPARED] = {0, FROM_MACHINE}, [COMMITTED] = {2, FROM_LEADER},
    [BEAT] = {0, FROM_LEADER},      [FETCH] = {5, FROM_MACHINE},
    [DATA] = {5, FROM_MACHINE},     [STORE] = {2, FROM_MACHINE},
    [HAVE] = {3, FROM_MACHINE},     [WRITE] = {4, FROM_CLIENT},
    [STORED] = {2, FROM_MACHINE},   [MOVED] = {2, FROM_MACHINE},
    [READ] = {2, FROM_CLIENT},      [SCORE] = {4, FROM_MACHINE},
    [PAGE] = {1, FROM_CLIENT},
};

static uint32_t class_of(uint32_t from)
{
    if (from < RESTART_NODES)
        return FROM_MACHINE;
    if (from >= LEADERS_AT && from < LEADERS_AT + LEADERS)
        return FROM_LEADER;
    return from >= CLIENTS_AT && from < CLIENTS_AT + CLIENTS ? FROM_CLIENT : 0;
}

/* The sum of an update's first six words, by disk.c's own words. */
static uint32_t right_sum(const uint8_t *update, uint32_t shard)
{
    return sum_of(update, 4 * (UPDATE_WORDS - 1)) ^ shard * UINT32_C(2654435761);
}

/* Whether words from `at` on are whole updates with right sums. */
static int are_updates(const uint8_t *bytes, uint32_t at, uint32_t count, uint32_t shard)
{
    if ((count - at) % UPDATE_WORDS != 0)
        return 0;
    for (; at < count; at += UPDATE_WORDS)
        if (word_of(bytes, at + UPDATE_WORDS - 1) != right_sum(bytes + 4 * (size_t)at, shard))
            return 0;
    return 1;
}

/* Why a message may do nothing: what is not as cluster.h says; NULL if all is right. A report is for the
 * library to judge, and one that it refuses has its machine held no longer. */
static const char *malformed(uint32_t process, uint32_t from, const uint8_t *bytes, size_t length)
{
    struct plan_settings read;
    struct letter letter;
    uint32_t count = (uint32_t)(length / 4), kind = length >= 12 ? word_of(bytes, 0) : 0;
    if (length % 4 != 0 || length > MESSAGE_BYTES)
        return "a message of a wrong length";
    if (kind == 0 || kind >= MESSAGES)
        return "a message of no kind";
    const struct shape *shape = &shapes[kind];
    if (count - 3 < shape->least)
        return "a message that is too short";
    if ((class_of(from) & shape->senders) == 0)
        return "a message of one who may not send it";
    plain_settings(&read, settings, sizeof settings);
    if (kind == VIEWS) {
        uint64_t sure = word_of(bytes, 5), open_at = 6 + 2 * sure;
        if (sure > CLUSTER_VIEWS || open_at + 3 > count)
            return "a list that is cut off";
        uint64_t open = word_of(bytes, (size_t)open_at + 2);
        return open > CLUSTER_VIEWS || open_at + 3 + 2 * open > count ? "a list that is cut off"
                                                                      : NULL;
    }
    if (kind == ORDER) {
        uint64_t list = word_of(bytes, 3), order_at = 4 + 2 * list;
        if (list > CLUSTER_VIEWS || order_at >= count)
            return "a list that is cut off";
        return plain_letter(&letter, AN_ORDER, &read, bytes + 4 * order_at,
                            length - 4 * (size_t)order_at) != 0 ||
                       letter.node != process
                   ? "an order that is wrong"
                   : NULL;
    }
    if (kind == DATA) {
        uint32_t updates_at = 8 + (word_of(bytes, 7) != 0 ? (uint32_t)STORE_WORDS : 0);
        return word_of(bytes, 3) >= read.shards || updates_at > count ||
                       !are_updates(bytes, updates_at, count, word_of(bytes, 3))
                   ? "data that are wrong"
                   : NULL;
    }
    if (kind == STORE)
        return word_of(bytes, 4) >= read.shards || !are_updates(bytes, 5, count, word_of(bytes, 4))
                   ? "updates that are wrong"
                   : NULL;
    return NULL;
}

static uint64_t tag_of(const uint8_t *bytes)
{
    return (uint64_t)word_of(bytes, 2) << 32 | word_of(bytes, 1);
}

/* The same of a message that belongs to another attempt than the receiver's. */
static const char *foreign(uint32_t process, const uint8_t *bytes)
{
    uint32_t kind = word_of(bytes, 0);
    uint64_t tag = tag_of(bytes), own = now.leader.kept.tag;
    int tagged = kind == VIEWS || kind == REPORT || kind == FETCHED || kind == PREPARED;
    if (process < COUNT) {
        own = now.machines[process].tag;
        tagged = kind == FOUND || kind == ORDER || kind == PREPARE || kind == FETCH || kind == DATA;
    }
    return tagged && (tag != own || tag == 0) ? "a message of another attempt" : NULL;
}

/* ---- A message, and what is asked afterwards ---- */

/* What a machine goes by. */
struct belief {
    struct view sure, open;
    uint64_t tag, open_tag;
    int damaged, copying, copied, may_serve, serving;
    uint32_t missing;
    struct restart_position copy_end[RESTART_SHARDS];
    struct run runs[RESTART_SHARDS];
};

static void note_belief(struct belief *to, const struct machine *m)
{
    memset(to, 0, sizeof *to);
    to->sure = m->sure;
    to->open = m->open;
    to->tag = m->tag;
    to->open_tag = m->open_tag;
    to->damaged = m->damaged;
    to->copying = m->copying;
    to->copied = m->copied;
    to->may_serve = m->may_serve;
    to->serving = m->serving;
    to->missing = m->missing;
    memcpy(to->copy_end, m->copy_end, sizeof to->copy_end);
    memcpy(to->runs, m->runs, sizeof to->runs);
}

/* What a leader goes by, but for when a machine was heard and that its report was refused. */
static int leader_goes_by_other(const struct leader *a, const struct leader *b)
{
    if (memcmp(&a->kept, &b->kept, sizeof a->kept) != 0 || a->leads != b->leads ||
        a->before != b->before || memcmp(a->list, b->list, sizeof a->list) != 0 ||
        a->terminated != b->terminated)
        return 1;
    for (uint32_t n = 0; n < RESTART_NODES; n++) {
        struct known one = a->known[n], other = b->known[n];
        one.heard = other.heard = 0;
        one.strange = other.strange = 0;
        one.refused = other.refused = 0;
        if (memcmp(&one, &other, sizeof one) != 0)
            return 1;
    }
    return 0;
}

static int same_view(const struct view *a, const struct view *b)
{
    if (a->number != b->number)
        return 0;
    return a->number == 0 ||
           (a->members == b->members && a->logs == b->logs && a->slots == b->slots &&
            a->terminated == b->terminated && a->before == b->before &&
            memcmp(a->masks, b->masks, sizeof a->masks) == 0 &&
            memcmp(a->base, b->base, sizeof a->base) == 0 &&
            memcmp(a->list, b->list, 8 * (size_t)a->before) == 0);
}

/* What the machine goes by is what its disk has. */
static void check_disk(uint32_t process, uint32_t kind)
{
    static struct view sure, open;
    uint64_t tag;
    struct machine *m = &now.machines[process];
    if (m->damaged)
        return;
    if (!views_read(&m->world, &sure, &open, &tag))
        wrong("its views cannot be read any more", process, kind);
    if (!same_view(&sure, &m->sure) || !same_view(&open, &m->open) ||
        (open.number != 0 && tag != m->open_tag))
        wrong("its disk has other views than it goes by", process, kind);
    if (tag_read(&m->world) != m->tag)
        wrong("its disk has another tag than it goes by", process, kind);
    if (m->serving && (m->open.number != 0 || m->copying || m->copied))
        wrong("it serves and restarts at the same time", process, kind);
}

/* A fault: what the receiver would take if it did not look. The message is made right before it comes,
 * and this is who sent it. */
static uint32_t mend(uint32_t process, uint32_t from, uint8_t *bytes, size_t length)
{
    uint32_t kind = length >= 12 ? word_of(bytes, 0) : 0, count = (uint32_t)(length / 4);
    if (fault == ANY_TAG && process < COUNT && (kind == ORDER || kind == FOUND)) {
        word_to(bytes, 1, (uint32_t)now.machines[process].tag);
        word_to(bytes, 2, (uint32_t)(now.machines[process].tag >> 32));
    }
    if (fault == ANY_SUM && (kind == DATA || kind == STORE)) {
        uint32_t shard = count > 4 ? word_of(bytes, kind == DATA ? 3 : 4) : 0;
        uint32_t at = kind == STORE ? 5 : count > 7 && word_of(bytes, 7) != 0 ? 8 + STORE_WORDS : 8;
        for (; at + UPDATE_WORDS <= count; at += UPDATE_WORDS)
            word_to(bytes, at + UPDATE_WORDS - 1, right_sum(bytes + 4 * (size_t)at, shard));
    }
    if (fault == ANY_SENDER && kind == ASK)
        return LEADERS_AT;
    if (fault == ANY_NODE && kind == ORDER && process < COUNT && count > 4 &&
        4 + 2 * (uint64_t)word_of(bytes, 3) < count)
        word_to(bytes, 4 + 2 * word_of(bytes, 3), process);
    if (fault == PAST_END && kind == DATA && length > 400)
        bytes[length - 1] ^= bytes[length];
    return from;
}

/* Gives the message to its receiver, in memory of its own length. */
static void come(uint32_t process, uint32_t from, const uint8_t *bytes, size_t length)
{
    static struct belief before, after_it;
    static struct leader led;
    uint32_t kind = length >= 4 ? word_of(bytes, 0) : 0;
    const char *nothing = malformed(process, from, bytes, length);
    if (nothing == NULL)
        nothing = foreign(process, bytes);
    uint8_t *lent = malloc(length + (length == 0));
    if (lent == NULL)
        exit(2);
    memcpy(lent, bytes, length);
    calls = 0;
    now.processes[process].changes = 0;
    if (process < COUNT && nothing != NULL)
        note_belief(&before, &now.machines[process]);
    else if (nothing != NULL)
        led = now.leader;
    from = mend(process, from, lent, length);
    if (process < COUNT)
        machine_message(&now.machines[process], from, lent, length);
    else
        leader_message(&now.leader, from, lent, length);
    free(lent);
    if (nothing != NULL && now.processes[process].changes != 0) {
        fprintf(stderr, "guided: %s has changed the disk\n", nothing);
        wrong("it should do nothing", process, kind);
    }
    if (process < COUNT && nothing != NULL) {
        note_belief(&after_it, &now.machines[process]);
        if (memcmp(&before, &after_it, sizeof before) != 0) {
            fprintf(stderr, "guided: %s has changed what the machine goes by\n", nothing);
            wrong("it should do nothing", process, kind);
        }
    }
    if (process == LEADER && nothing != NULL && leader_goes_by_other(&led, &now.leader)) {
        fprintf(stderr, "guided: %s has changed what the leader goes by\n", nothing);
        wrong("it should do nothing", process, kind);
    }
    if (process < COUNT)
        check_disk(process, kind);
    sights[64 + (kind % 32 * 8 + (uint32_t)(nothing != NULL) * 4 + process % 4) % (SIGHTS - 64)] =
        1;
}

static void take_off(unsigned index)
{
    memmove(&now.on_way[index], &now.on_way[index + 1],
            (now.count - index - 1) * sizeof now.on_way[0]);
    now.count--;
}

/* Delivers a message that is on its way. */
static void deliver(unsigned index, int doubled)
{
    static struct letter_sent letter;
    letter = now.on_way[index];
    if (!doubled)
        take_off(index);
    if (letter.to < COUNT)
        come(letter.to, letter.from, letter.bytes, letter.length);
    else if (letter.to == LEADERS_AT)
        come(LEADER, letter.from, letter.bytes, letter.length);
}

/* ---- How the cluster gets on its way ---- */

static void client_writes(uint32_t what)
{
    uint8_t bytes[28];
    const uint32_t words[7] = {WRITE, 0, 0, what % SHARDS, 1 + what / SHARDS, what % PLAYERS, what};
    for (size_t i = 0; i < 7; i++)
        word_to(bytes, i, words[i]);
    for (uint32_t m = 0; m < COUNT; m++)
        come(m, CLIENTS_AT, bytes, sizeof bytes);
}

static void begin_here(void)
{
    if (begun < BEGINNINGS)
        beginnings[begun++] = now;
}

/* So many rounds: what is on its way arrives, and all look at the clock, but for a process that is away.
 * Now and then a beginning is kept. */
static void go_on(unsigned rounds, unsigned every, uint32_t away)
{
    static unsigned events;
    for (unsigned r = 0; r < rounds; r++) {
        now.now += 60;
        for (uint32_t p = 0; p < PROCESSES; p++) {
            calls = 0;
            if (p != away)
                tick(p);
        }
        for (unsigned left = now.count; left > 0 && now.count > 0; left--) {
            if (now.on_way[0].to == away)
                take_off(0);
            else
                deliver(0, 0);
            if (++events % every == 0)
                begin_here();
        }
    }
}

static void write_some(uint32_t from, uint32_t to, uint32_t away)
{
    for (uint32_t u = from; u < to; u++) {
        client_writes(u);
        go_on(1, 24, away);
    }
}

static void start_all(void)
{
    for (uint32_t p = 0; p < PROCESSES; p++)
        if (!start(p))
            wrong("it does not start", p, 0);
}

/* A first restart, updates, a stop of all, a second restart; a machine that goes away and comes back,
 * and a change of views. */
static void history(void)
{
    uint32_t masks[RESTART_SHARDS];
    for (size_t i = 0; i < sizeof settings_words / 4; i++)
        word_to(settings, i, settings_words[i]);
    memset(&now, 0, sizeof now);
    now.now = 1000;
    for (uint32_t p = 0; p < PROCESSES; p++)
        now.processes[p].address = address_of(p);
    if (!first_masks(settings, sizeof settings, masks))
        wrong("the settings have no first view", 0, 0);
    for (uint32_t p = 0; p < COUNT; p++) {
        struct world world = world_of(p);
        if (!machine_format(&world, settings, sizeof settings, p, masks))
            wrong("it is not formatted", p, 0);
    }
    recording = 1;
    start_all();
    begin_here();
    go_on(14, 12, PROCESSES);
    write_some(0, 8, PROCESSES);
    begin_here();
    for (uint32_t p = 0; p < PROCESSES; p++)
        crash(p);
    now.count = 0;
    go_on(26, 14, PROCESSES);
    write_some(20, 24, PROCESSES);
    go_on(44, 20, 1); /* machine 1 is away: another takes its shard */
    write_some(30, 33, 1);
    crash(1);
    go_on(30, 24, PROCESSES);
    leader_change(&now.leader);
    go_on(20, 20, PROCESSES);
    write_some(40, 43, PROCESSES);
    go_on(44, 24, 2); /* and now machine 2: a whole log is fetched, packed */
    crash(2);
    go_on(20, 24, PROCESSES);
    begin_here();
    recording = 0;
    for (uint32_t p = 0; p < COUNT; p++)
        if (!now.machines[p].serving)
            wrong("it does not serve, and nothing was wrong", p, 0);
}

/* ---- Steps ---- */

struct happened {
    uint8_t kind, to, from, is_old;
    uint32_t word;
    uint32_t length;
    const uint8_t *bytes;
};

static uint32_t sender_of(uint8_t byte)
{
    static const uint32_t senders[] = {0,
                                       1,
                                       2,
                                       LEADERS_AT,
                                       LEADERS_AT + 1,
                                       CLIENTS_AT,
                                       31,
                                       CLIENTS_AT + 31,
                                       LEADERS_AT + LEADERS,
                                       96,
                                       ~0u};
    return senders[byte % (sizeof senders / sizeof senders[0])];
}

/* A word that the receiver goes by. */
static uint32_t known_word(uint32_t process, uint32_t which)
{
    const struct machine *m = &now.machines[process < COUNT ? process : 0];
    const struct leader *l = &now.leader;
    const uint32_t words[] = {
        m->sure.number,      m->sure.members,  m->open.number,       m->open.members,
        m->next.number,      m->next.members,  m->copy_end[0].view,  m->copy_end[0].k,
        m->copy_end[1].view, m->copy_end[1].k, m->runs[0].count + 1, m->runs[1].count + 1,
        m->sure.number + 1,  l->serial,        l->terminated,        l->serial + 1};
    return words[which % (sizeof words / sizeof words[0])];
}

/* Makes the changes that the step's bytes name. */
static void change(struct letter_sent *letter, uint32_t process, const struct happened *step)
{
    for (uint32_t at = 0; at + 8 <= step->length; at += 8) {
        const uint8_t *one = step->bytes + at;
        uint32_t place = (uint32_t)one[2] + 256u * one[3], value = word_of(one, 1);
        uint32_t count = (uint32_t)(letter->length / 4);
        uint64_t tag = process < COUNT ? now.machines[process].tag : now.leader.kept.tag;
        int inside = count != 0;
        place = inside ? place % count : 0;
        switch (one[0] % CHANGES) {
        case SET_WORD:
            if (inside)
                word_to(letter->bytes, place, value);
            break;
        case ADD_WORD:
            if (inside)
                word_to(letter->bytes, place, word_of(letter->bytes, place) + value);
            break;
        case FLIP_BIT:
            if (inside)
                letter->bytes[4 * place + value / 8 % 4] ^= (uint8_t)(1u << value % 8);
            break;
        case CUT_WORDS:
            letter->length = 4 * (size_t)place;
            break;
        case ADD_WORDS:
            for (uint32_t k = 0; k <= value % 40 && letter->length + 4 <= MESSAGE_BYTES; k++) {
                word_to(letter->bytes, letter->length / 4,
                        inside ? word_of(letter->bytes, place) : value);
                letter->length += 4;
            }
            break;
        case RECEIVER_TAG:
            if (count > 2) {
                word_to(letter->bytes, 1, (uint32_t)tag);
                word_to(letter->bytes, 2, (uint32_t)(tag >> 32));
            }
            break;
        case RIGHT_SUM:
            if (place + UPDATE_WORDS <= count)
                word_to(letter->bytes, place + UPDATE_WORDS - 1,
                        right_sum(letter->bytes + 4 * (size_t)place, value % SHARDS));
            break;
        case CUT_BYTES:
            letter->length -= letter->length > 3 ? 1 + value % 3 : 0;
            break;
        case SET_KNOWN:
            if (inside)
                word_to(letter->bytes, place, known_word(process, value));
            break;
        default:
            letter->from = sender_of((uint8_t)value);
            break;
        }
    }
}

static void changed(const struct happened *step)
{
    static struct letter_sent letter;
    uint32_t count = step->is_old % 2 ? old_count : now.count;
    if (count == 0)
        return;
    letter = (step->is_old % 2 ? old : now.on_way)[step->word % count];
    uint32_t process = letter.to < COUNT ? letter.to : LEADER;
    if (step->is_old & 2)
        process = step->to % PROCESSES;
    change(&letter, process, step);
    come(process, letter.from, letter.bytes, letter.length);
}

static void happen(const struct happened *step)
{
    uint32_t process = step->to % PROCESSES;
    calls = 0;
    switch (step->kind % HAPPENINGS) {
    case DELIVER:
    case DOUBLE:
        if (now.count != 0)
            deliver(step->word % now.count, step->kind % HAPPENINGS == DOUBLE);
        break;
    case LOSE:
        if (now.count != 0)
            take_off(step->word % now.count);
        break;
    case CHANGED:
        changed(step);
        break;
    case RAW:
        come(process, sender_of(step->from), step->bytes, step->length);
        break;
    case TIME:
        now.now += step->word % 1000;
        for (uint32_t p = 0; p < PROCESSES; p++)
            tick(p);
        break;
    case TICK:
        tick(process);
        break;
    case CRASH:
        if (!crash(process))
            wrong("it does not start again", process, 0);
        break;
    case NEW_VIEW:
        leader_change(&now.leader);
        break;
    default:
        client_writes(step->word % 256);
        break;
    }
}

int LLVMFuzzerInitialize(int *count, char ***arguments)
{
    (void)count;
    (void)arguments;
    const char *number = getenv("GUIDED_FAULT");
    history();
    guided_put_fault(number == NULL ? 0 : (unsigned)strtoul(number, NULL, 10));
    return 0;
}

int LLVMFuzzerTestOneInput(const uint8_t *input, size_t length)
{
    sights[0] = 1;
    if (length == 0)
        return 0;
    now = beginnings[input[0] % begun];
    input++;
    length--;
    if (setjmp(no_room) != 0)
        return 0;
    for (unsigned steps = 0; steps < MOST_HAPPENINGS && length >= HAPPENING_HEAD; steps++) {
        struct happened step = {input[0],
                                input[1],
                                input[2],
                                input[3],
                                word_of(input, 1),
                                (uint32_t)input[8] + 256u * input[9],
                                input + HAPPENING_HEAD};
        input += HAPPENING_HEAD;
        length -= HAPPENING_HEAD;
        if (step.length > length)
            step.length = (uint32_t)length;
        if (step.length > MESSAGE_BYTES)
            step.length = MESSAGE_BYTES;
        input += step.length;
        length -= step.length;
        happen(&step);
    }
    for (uint32_t p = 0; p < COUNT; p++) {
        int was = !now.machines[p].damaged;
        calls = 0;
        if (was && !crash(p))
            wrong("after all this it does not start", p, 0);
    }
    return 0;
}
