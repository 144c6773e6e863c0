#include "course.h"
#include "library.h"
#include "model.h"
#include "queue.h"

#include <setjmp.h>
#include <stdarg.h>
#include <stdlib.h>
#include <string.h>

enum {
    ADDRESSES = CLIENTS_AT + CLIENTS,
    WRITERS = 3,    /* clients that write, at most */
    PUBLISHERS = 8, /* the client from which on they are publishers, who ask for pages */
    MS = 1000,      /* time is in microseconds */
    IMAGES = 4,     /* older images of each disk */
    ROUNDS = 24,    /* failures of all in a course */
    LOOKED_AT = 8,  /* of so many leader's files one is read back */
    /* a heal: for each machine so many events until the store serves and has acknowledged */
    HEAL_EVENTS = 2000
};

/* Short, so that a restart takes few events. */
static const struct times TIMES = {10, 20, 60, 200, 50};

const char *const fault_names[FAULTS] = {"lose",  "double", "delay",   "late",    "kill",
                                         "power", "still",  "image",   "wiped",   "away",
                                         "slow",  "change", "corrupt", "settings"};
const char *const found_names[FINDINGS] = {"nothing",   "lost",       "changed",     "back",
                                           "two-views", "stuck",      "shown",       "lacking",
                                           "unruled",   "wrong-copy", "wrong-bytes", "two-plans"};
const char *const careless_names[CARELESS] = {"careful",      "two-leaders", "late-report",
                                              "old-image",    "begun-again", "high-view",
                                              "sound-change", "other-shards"};

struct counts counts;
const struct asked *asked;
struct layout layout, former[ROUNDS];
uint32_t formers;
char found_text[400];
uint64_t course_sum;
uint64_t course_events;
uint32_t course_faults, course_round;

/* ---- Processes ---- */

struct process {
    struct world world;
    uint32_t address, life;
    bool up;
    uint32_t dies_in;  /* calls to the world until it stops; 0: it does not */
    int dies_at;       /* or the step at which it stops; -1: none */
    bool by_power;     /* and loses what was not synced */
    uint64_t still_at; /* what its clock shows; 0: it goes */
    struct disk disk;
};

static struct process processes[ADDRESSES];
static struct machine machines[RESTART_NODES];
static struct leader leaders[LEADERS];
static struct client clients[WRITERS];
static struct disk images[RESTART_NODES][IMAGES];
static struct world synced_worlds[RESTART_NODES];

/* What is drawn for a round. */
struct round {
    uint32_t number;
    uint32_t back;                 /* machines that come back */
    uint32_t hazard;               /* stops of single processes, in a thousand events */
    uint32_t lose, twice, delayed; /* in a thousand messages */
    uint32_t change;               /* changes of the view, in a thousand events */
    uint64_t cut_in;               /* calls to the world until the power is cut */
    int cut_at;                    /* or the step at which it is; -1: none */
    int left_at;                   /* the step at which the leaders go, for this round; -1: none */
    uint32_t cut_times;            /* there, the how manieth time */
    uint64_t goal;                 /* or so many acknowledgements */
    uint64_t events;               /* or so many events */
    bool heals;
    bool left; /* the leaders are gone */
    bool
        leaves; /* a machine stops for good once the orders have left, where the others are enough */
    uint32_t gone; /* that machine; 32: none */
};

static struct {
    uint64_t time, events, calls, saves;
    struct queue queue;
    struct chance chances[FAULTS], chance; /* of each fault, and of all else */
    struct round round;
    uint32_t lists;   /* leaders in the list */
    uint32_t writers; /* clients */
    struct process *running;
    bool dead;          /* it has stopped; nothing else runs in its stead */
    bool cut;           /* the power is cut */
    bool since_cut;     /* no view has been carried out since the power was cut */
    bool corrupt;       /* a leader may have a view that never was */
    bool going_on;      /* the power was not cut before this round */
    uint32_t planned;   /* rounds that still follow a plan */
    uint32_t last_back; /* machines that came back in the round before */
    uint64_t acked;     /* in this round */
    jmp_buf stops, ends;
    enum found found;
} sim;

/* ---- The log, and what is found ---- */

static void name_into(char *name, size_t room, uint32_t who)
{
    if (who == ALL)
        snprintf(name, room, "*");
    else if (who == VERDICT)
        snprintf(name, room, "!");
    else if (who >= CLIENTS_AT)
        snprintf(name, room, "C%u", who - CLIENTS_AT);
    else if (who >= LEADERS_AT)
        snprintf(name, room, "L%u", who - LEADERS_AT);
    else
        snprintf(name, room, "%u", who);
}

void tell(uint32_t who, const char *format, ...)
{
    if (!asked->log)
        return;
    char name[16];
    va_list arguments;
    name_into(name, sizeof name, who);
    fprintf(asked->log, "%llu %s ", (unsigned long long)sim.events, name);
    va_start(arguments, format);
    vfprintf(asked->log, format, arguments);
    va_end(arguments);
    fputc('\n', asked->log);
}

void found(enum found what, const char *format, ...)
{
    va_list arguments;
    bool counts_here = asked->sought >> what & 1;
    if (!counts_here && what >= LACKING)
        return;
    if (!counts_here)
        longjmp(sim.ends, 1); /* nothing more can be seen here */
    va_start(arguments, format);
    vsnprintf(found_text, sizeof found_text, format, arguments);
    va_end(arguments);
    sim.found = what;
    tell(VERDICT, "found %s: %s", found_names[what], found_text);
    longjmp(sim.ends, 1);
}

static void mix(uint64_t number)
{
    course_sum = mixed(course_sum ^ number);
}

/* ---- Faults ---- */

static bool fault(enum fault kind, uint32_t often)
{
    if (sim.round.heals || !per_mille(&sim.chances[kind], often) || asked->without >> kind & 1)
        return false;
    uint32_t number = course_faults++;
    for (size_t low = 0, high = asked->mutes; low < high;) {
        size_t middle = (low + high) / 2;
        if (asked->muted[middle] == number)
            return false;
        if (asked->muted[middle] < number)
            low = middle + 1;
        else
            high = middle;
    }
    mix(number);
    return true;
}

/* One that may come before a round in which nothing fails. */
static bool fault_or_heal(enum fault kind, uint32_t often)
{
    bool heals = sim.round.heals;
    sim.round.heals = false;
    bool comes = fault(kind, often);
    sim.round.heals = heals;
    return comes;
}

static uint32_t bits(uint32_t mask)
{
    uint32_t count = 0;
    for (; mask; mask &= mask - 1)
        count++;
    return count;
}

/* ---- The world of a process ---- */

static struct process *of(void *self)
{
    return self;
}

/* Whether the process stops in this call. */
static bool dies(struct process *process)
{
    sim.calls++;
    counts.calls++;
    if (process != sim.running)
        return false;
    if (sim.round.cut_in && --sim.round.cut_in == 0)
        sim.cut = true;
    else if (!process->dies_in || --process->dies_in != 0)
        return false;
    return true;
}

static void stop_here(const char *where)
{
    char text[80];
    snprintf(text, sizeof text, "%s", where);
    if (!sim.cut)
        tell(sim.running->address, "%s %s", sim.running->by_power ? "power" : "kill", text);
    sim.dead = true;
    longjmp(sim.stops, 1);
}

static long read_disk(void *self, const char *name, uint64_t at, uint8_t *bytes, size_t most)
{
    if (dies(of(self)))
        stop_here("reading");
    struct file *file = disk_find(&of(self)->disk, name);
    if (!file)
        return -1;
    if (at >= file->len)
        return 0;
    size_t there = file->len - (size_t)at;
    if (there > most)
        there = most;
    if (there)
        memcpy(bytes, file->data + at, there);
    return (long)there;
}

static void append_disk(void *self, const char *name, const uint8_t *bytes, size_t length)
{
    if (dies(of(self))) {
        /* a part of it was written */
        disk_append(&of(self)->disk, name, bytes, below(&sim.chance, (uint32_t)length + 1));
        stop_here("appending");
    }
    disk_append(&of(self)->disk, name, bytes, length);
}

static void sync_disk(void *self, const char *name)
{
    if (dies(of(self))) {
        if (below(&sim.chance, 2))
            disk_sync(&of(self)->disk, name);
        stop_here("syncing");
    }
    disk_sync(&of(self)->disk, name);
}

static void look_at_leader_file(struct process *process)
{
    static struct restart_leader read;
    static uint8_t own[RESTART_OWN_BYTES];
    struct file *file = disk_find(&process->disk, "leader");
    const struct leader *leader = &leaders[process->address - LEADERS_AT];
    read.settings_len = 0;
    uint32_t answer = restart_leader_take(&read, own, sizeof own, file->data, file->len);
    if (restart_is_refusal(answer)) {
        found(WRONG_BYTES, "leader %u: its file is refused with number %u",
              process->address - LEADERS_AT, restart_number_of(answer));
        return;
    }
    if (memcmp(read.state, leader->kept.state, sizeof read.state) != 0)
        found(WRONG_BYTES, "leader %u: its file has another state than it has",
              process->address - LEADERS_AT);
    library_saved(process->address - LEADERS_AT, read.settings, read.settings_len, read.state,
                  read.desk);
}

static void replaced(struct process *process, const char *name)
{
    if (process->address < RESTART_NODES && !strcmp(name, "views") &&
        model_views(process->address)) {
        if (sim.since_cut)
            counts.restarts++;
        else
            counts.changes++;
        sim.since_cut = false;
    }
    if (process->address >= LEADERS_AT && process->address < LEADERS_AT + LEADERS &&
        !strcmp(name, "leader") && ++sim.saves % LOOKED_AT == 0)
        look_at_leader_file(process);
}

static void replace_disk(void *self, const char *name, const uint8_t *bytes, size_t length)
{
    bool stops = dies(of(self));
    if (stops && below(&sim.chance, 2))
        stop_here("replacing");
    disk_replace(&of(self)->disk, name, bytes, length);
    replaced(of(self), name);
    if (stops)
        stop_here("replacing");
}

static void truncate_disk(void *self, const char *name, uint64_t length)
{
    bool stops = dies(of(self));
    if (stops && below(&sim.chance, 2))
        stop_here("making shorter");
    disk_truncate(&of(self)->disk, name, (size_t)length);
    if (stops)
        stop_here("making shorter");
}

static void remove_disk(void *self, const char *name)
{
    bool stops = dies(of(self));
    if (stops && below(&sim.chance, 2))
        stop_here("removing");
    disk_remove(&of(self)->disk, name);
    if (stops)
        stop_here("removing");
}

/* ---- Messages ---- */

static void post(uint32_t from, uint32_t to, const uint8_t *bytes, size_t length)
{
    uint32_t times = 1;
    counts.messages++;
    if (fault(LOSE, sim.round.lose)) {
        counts.lost++;
        return;
    }
    if (fault(DOUBLE, sim.round.twice)) {
        counts.doubled++;
        times = 2;
    }
    for (; times; times--) {
        struct event event = {0};
        event.time = sim.time + 200 + below(&sim.chance, 1800);
        /* the second of two is late more often */
        if (fault(DELAY, times == 2 ? 500 : sim.round.delayed)) {
            event.time += below(&sim.chance, 300 * MS);
            counts.delayed++;
        }
        event.kind = MESSAGE;
        event.who = to;
        event.from = from;
        event.bytes = malloc(length);
        event.len = length;
        if (!event.bytes)
            exit(2);
        memcpy(event.bytes, bytes, length);
        queue_put(&sim.queue, event);
    }
}

/* What clients write and are told; what publishers are shown. */
static void overhear(uint32_t from, uint32_t to, const uint8_t *bytes, size_t length)
{
    struct reading words = reading_of(bytes, length);
    uint32_t kind = take(&words);
    take(&words);
    take(&words);
    if (kind == WRITE && from >= CLIENTS_AT) {
        uint32_t shard = take(&words), number = take(&words), player = take(&words);
        model_written(from - CLIENTS_AT, shard, number, player, take(&words));
    } else if (kind == STORED && to >= CLIENTS_AT) {
        uint32_t shard = take(&words);
        uint64_t before = counts.acked;
        model_acked(to - CLIENTS_AT, shard, take(&words));
        sim.acked += counts.acked - before;
    } else if (kind == PAGE && to >= CLIENTS_AT + PUBLISHERS) {
        uint32_t answer = take(&words), rented = to - CLIENTS_AT - PUBLISHERS;
        if (restart_class_of(answer) != RESTART_LENGTH)
            return;
        words.count += RESTART_PAGE_SHARDS;
        uint32_t shards = take(&words);
        for (uint32_t s = 0; s < layout.shards; s++)
            if (shards >> s & 1 && layout.subgroup[s] != rented)
                found(SHOWN, "the publisher of subgroup %u is shown the page of subgroup %u",
                      rented, layout.subgroup[s]);
    }
}

/* A report whose view was damaged on its way from a machine that does not carry every shard: a plan
 * cannot come of it, and the leader waits for ever. */
static bool damaged_report(const struct process *process, const uint8_t *bytes, size_t length,
                           uint8_t *damaged)
{
    enum { REPORT_VIEW = 5 };
    if (process->address >= RESTART_NODES || restart_get_word(bytes, 0) != REPORT ||
        length > RESTART_BUFFER_BYTES || sim.corrupt)
        return false;
    const struct view *sure = &machines[process->address].sure;
    if (bits(sure->logs) == layout.shards || !fault(CORRUPT, 20))
        return false;
    memcpy(damaged, bytes, length);
    restart_put_word(damaged, REPORT_VIEW, sure->number + 1000);
    tell(process->address, "damaged-report %u", sure->number + 1000);
    counts.corrupt++;
    sim.corrupt = true;
    return true;
}

/* The report of a time when each log had an update more. */
static bool earlier_report(const uint8_t *bytes, size_t length, uint8_t *earlier)
{
    enum { REPORT_AT = 16 };
    if (asked->careless != LATE_REPORT || restart_get_word(bytes, 0) != REPORT ||
        length > RESTART_BUFFER_BYTES)
        return false;
    memcpy(earlier, bytes, length);
    for (size_t at = REPORT_AT + 16; at + 16 <= length; at += 16)
        if (restart_get_word(earlier + at, 0) / 256 == RESTART_KIND_RUN)
            restart_put_word(earlier + at, 2, restart_get_word(earlier + at, 2) + 1);
    return true;
}

static void send_message(void *self, uint32_t to, const uint8_t *bytes, size_t length)
{
    uint8_t damaged[RESTART_BUFFER_BYTES];
    if (dies(of(self)))
        stop_here("sending");
    overhear(of(self)->address, to, bytes, length);
    if (asked->careless == TWO_LEADERS && restart_get_word(bytes, 0) == BEAT)
        return; /* neither knows of the other */
    if (damaged_report(of(self), bytes, length, damaged) || earlier_report(bytes, length, damaged))
        bytes = damaged;
    /* nobody listens at the addresses of leaders that the list does not have */
    if (to < ADDRESSES && (to < LEADERS_AT + sim.lists || to >= CLIENTS_AT))
        post(of(self)->address, to, bytes, length);
}

/* ---- Clock, chance, words, steps ---- */

static uint64_t clock_of(void *self)
{
    return (of(self)->still_at ? of(self)->still_at : sim.time) / MS;
}

static uint64_t any_number(void *self)
{
    (void)self;
    return any(&sim.chance);
}

static void say_line(void *self, const char *line)
{
    tell(of(self)->address, "say %s", line);
}

static void reach(void *self, int place)
{
    struct process *process = of(self);
    bool stops = dies(process);
    if (process != sim.running)
        return;
    if (place == AT_COPY_FINISHED)
        model_copied(process->address, &machines[process->address].next,
                     &machines[process->address].task);
    if (place == AT_TERMINATED)
        counts.ended++;
    if (place == AT_ORDERS_SENT && sim.round.leaves) {
        const struct leader *leader = &leaders[process->address - LEADERS_AT];
        uint32_t n = below(&sim.chance, layout.nodes);
        if (library_without(&leader->kept, n)) {
            sim.round.leaves = false;
            sim.round.gone = n;
        }
    }
    if (sim.round.cut_at == place && --sim.round.cut_times == 0)
        stops = sim.cut = true;
    if (sim.round.left_at == place && sim.running->address >= LEADERS_AT) {
        sim.round.left = true;
        process->by_power = false;
        stops = true;
    }
    if (process->dies_at == place) {
        process->dies_at = -1;
        stops = true;
    }
    if (stops) {
        counts.places[place]++;
        stop_here(place_text(place));
    }
}

static const struct world WORLD = {.read = read_disk,
                                   .append = append_disk,
                                   .sync = sync_disk,
                                   .replace = replace_disk,
                                   .truncate = truncate_disk,
                                   .remove = remove_disk,
                                   .send = send_message,
                                   .now = clock_of,
                                   .random = any_number,
                                   .say = say_line,
                                   .at = reach};

static long read_synced(void *self, const char *name, uint64_t at, uint8_t *bytes, size_t most)
{
    struct file *file = disk_find(&of(self)->disk, name);
    if (!file)
        return -1;
    if (at >= file->synced)
        return 0;
    size_t there = file->synced - (size_t)at;
    if (there > most)
        there = most;
    if (there)
        memcpy(bytes, file->data + at, there);
    return (long)there;
}

const struct world *synced_disk(uint32_t machine)
{
    return &synced_worlds[machine];
}

/* ---- Told by the library ---- */

unsigned seen_from(void)
{
    return sim.running ? sim.running->address - LEADERS_AT : 0;
}

bool seen_kept(const uint8_t *state)
{
    return sim.running && sim.running->address >= LEADERS_AT &&
           sim.running->address < LEADERS_AT + LEADERS &&
           state == leaders[sim.running->address - LEADERS_AT].kept.state;
}

void seen_plan(const uint8_t *state)
{
    counts.plans++;
    tell(sim.running->address, "plan %u %x", restart_get_word(state, RESTART_PLAN_VIEW),
         restart_get_word(state, RESTART_PLAN_MEMBERS));
    for (uint32_t s = 0; s < layout.shards; s++)
        tell(sim.running->address, "target %u %u %u %u %x", s,
             restart_get_word(state, RESTART_PLAN_HOLDERS + s),
             restart_get_word(state, RESTART_PLAN_TARGETS + 2 * s),
             restart_get_word(state, RESTART_PLAN_TARGETS + 2 * s + 1),
             restart_get_word(state, RESTART_PLAN_MASKS + s));
}

void seen_committed(const uint8_t *state)
{
    tell(sim.running->address, "commit %u %x", restart_get_word(state, RESTART_PLAN_VIEW),
         restart_get_word(state, RESTART_PLAN_MEMBERS));
}

void seen_wrong(const char *what)
{
    found(strncmp(what, "two", 3) ? WRONG_BYTES : TWO_PLANS, "%s", what);
}

/* ---- Starting and stopping ---- */

static void tick_later(struct process *process)
{
    struct event event = {0};
    event.time = sim.time + 4 * MS + below(&sim.chance, 4 * MS);
    event.kind = TICK;
    event.who = process->address;
    event.life = process->life;
    queue_put(&sim.queue, event);
}

static void start_later(uint32_t who, uint64_t delay)
{
    struct event event = {0};
    event.time = sim.time + delay;
    event.kind = START;
    event.who = who;
    event.life = processes[who].life;
    queue_put(&sim.queue, event);
}

/* Throws a process away. Its disk loses what was not synced, if its power went. */
static void stop(struct process *process, bool power)
{
    if (!process->up)
        return;
    process->up = false;
    process->life++;
    process->dies_in = 0;
    process->dies_at = -1;
    process->still_at = 0;
    if (power)
        counts.torn += disk_crash(&process->disk, &sim.chance);
    uint32_t who = process->address;
    /* nothing of it may be used again */
    if (who < RESTART_NODES)
        memset(&machines[who], 0xa5, sizeof machines[who]);
    else if (who < CLIENTS_AT) {
        memset(&leaders[who - LEADERS_AT], 0xa5, sizeof leaders[who - LEADERS_AT]);
        library_forgets(who - LEADERS_AT);
    } else
        memset(&clients[who - CLIENTS_AT], 0xa5, sizeof clients[who - CLIENTS_AT]);
}

static void start(struct process *process)
{
    uint32_t who = process->address;
    process->up = true;
    if (fault(STILL, 60)) {
        process->still_at = sim.time;
        counts.still++;
    }
    tell(who, "start");
    if (who < RESTART_NODES) {
        if (!machine_start(&machines[who], &process->world, TIMES, layout.settings,
                           layout.settings_len, who))
            tell(who, "damaged");
    } else if (who < CLIENTS_AT) {
        struct leader_options options;
        memset(&options, 0, sizeof options);
        options.number = who - LEADERS_AT;
        options.leaders = sim.lists;
        options.terminates = (int)(asked->seed % 2);
        for (uint32_t g = 0; g < RESTART_SUBGROUPS; g++)
            options.rents[PUBLISHERS + g] = g + 1;
        (void)leader_start(&leaders[who - LEADERS_AT], &process->world, TIMES, layout.settings,
                           layout.settings_len, &options);
    } else {
        (void)client_start(&clients[who - CLIENTS_AT], &process->world, TIMES, layout.settings,
                           layout.settings_len, who, 0);
    }
}

/* One event of one process, in which it may stop. */
static void run(struct process *process, const struct event *event)
{
    uint32_t who = process->address;
    sim.running = process;
    sim.dead = false;
    if (setjmp(sim.stops) == 0) {
        if (event->kind == START) {
            start(process);
        } else if (event->kind == MESSAGE) {
            if (who < RESTART_NODES)
                machine_message(&machines[who], event->from, event->bytes, event->len);
            else if (who < CLIENTS_AT)
                leader_message(&leaders[who - LEADERS_AT], event->from, event->bytes, event->len);
            else
                client_message(&clients[who - CLIENTS_AT], event->from, event->bytes, event->len);
        } else if (event->kind == CHANGING) {
            leader_change(&leaders[who - LEADERS_AT]);
        } else if (who < RESTART_NODES) {
            machine_tick(&machines[who]);
        } else if (who < CLIENTS_AT) {
            if (asked->careless == TWO_LEADERS)
                leaders[who - LEADERS_AT].until = 0; /* it does not wait for the other */
            leader_tick(&leaders[who - LEADERS_AT]);
        } else {
            client_tick(&clients[who - CLIENTS_AT]);
        }
    }
    struct process *ran = sim.running;
    sim.running = NULL;
    if (sim.dead && sim.cut && ran->address >= CLIENTS_AT)
        stop(ran, false); /* a client that runs just then goes too */
    if (sim.dead && !sim.cut) {
        counts.kills++;
        stop(ran, ran->by_power);
        /* it comes back, sooner or later */
        start_later(ran->address, 5 * MS + below(&sim.chance, 120 * MS));
    }
    for (uint32_t l = 0; sim.round.left && l < sim.lists; l++)
        stop(&processes[LEADERS_AT + l], false);
    if (sim.round.gone < RESTART_NODES && processes[sim.round.gone].up) {
        tell(sim.round.gone, "kill for good");
        stop(&processes[sim.round.gone], true);
    }
}

static bool serves(uint32_t machine)
{
    return processes[machine].up && machines[machine].serving;
}

/* What the log says of who serves. */
static void tell_serving(void)
{
    static uint32_t told[RESTART_NODES];
    if (!asked->log)
        return;
    for (uint32_t n = 0; n < layout.nodes; n++) {
        uint32_t view = serves(n) ? machines[n].sure.number : 0;
        if (view != told[n] && view)
            tell(n, "serve %u", view);
        else if (view != told[n] && processes[n].up)
            tell(n, "idle");
        told[n] = view;
    }
}

/* Whether all members of the last view serve it. */
static bool store_serves(void)
{
    const struct seen *last = model_last();
    for (uint32_t n = 0; n < layout.nodes; n++)
        if (last->members >> n & 1 && !(serves(n) && machines[n].sure.number == last->number))
            return false;
    return true;
}

/* ---- Rounds ---- */

static uint32_t everybody(void)
{
    return UINT32_MAX >> (RESTART_NODES - layout.nodes);
}

/* So many of these machines. */
static uint32_t some_of(uint32_t members, uint32_t want)
{
    uint32_t mask = 0;
    while (want && mask != members) {
        uint32_t n = below(&sim.chance, layout.nodes);
        if (members >> n & 1 && !(mask >> n & 1)) {
            mask |= UINT32_C(1) << n;
            want--;
        }
    }
    return mask;
}

/* More than half of these machines and no more, often such as were not there last time. */
static uint32_t bare_majority(uint32_t members)
{
    uint32_t want = bits(members) / 2 + 1, mask = 0;
    if (below(&sim.chance, 2))
        mask = some_of(members & ~sim.last_back, want);
    return mask | some_of(members & ~mask, want - bits(mask));
}

/* The members of a view that some disk has: sure, open, or before them. */
static uint32_t view_on_disk(void)
{
    static struct view sure, open;
    uint64_t tag;
    uint32_t n = below(&sim.chance, layout.nodes);
    if (!views_read(synced_disk(n), &sure, &open, &tag))
        return everybody();
    uint32_t kind = below(&sim.chance, 8);
    if (open.number && kind < 4)
        return open.members;
    if (sure.before && kind >= 6)
        return sure
            .list[sure.before - 1 - below(&sim.chance, sure.before < 3 ? sure.before : 3)][1];
    return sure.members;
}

/* Those whose sure view is the latest that is sure anywhere; or those that have an open view. */
static uint32_t knowing(bool opened)
{
    static struct view sure, open;
    uint64_t tag;
    uint32_t latest = 0, mask = 0;
    for (uint32_t n = 0; n < layout.nodes; n++) {
        if (!views_read(synced_disk(n), &sure, &open, &tag))
            continue;
        if (opened && open.number)
            mask |= UINT32_C(1) << n;
        if (!opened && sure.number > latest)
            mask = 0;
        if (!opened && sure.number >= latest) {
            latest = sure.number;
            mask |= UINT32_C(1) << n;
        }
    }
    return mask;
}

static uint32_t who_is_back(void)
{
    uint32_t kind = below(&sim.chance, 16), back = everybody();
    if (kind < 6)
        back = bare_majority(view_on_disk());
    else if (kind < 8) /* any */
        back = (uint32_t)any(&sim.chance) & everybody();
    else if (kind < 10) /* who knows most */
        back = knowing(false);
    else if (kind < 12) /* who knows least */
        back = everybody() & ~knowing(false);
    else if (kind < 14) /* who has to be told what comes of a view */
        back = knowing(true);
    if (kind >= 12 && kind < 14)
        back |= some_of(everybody() & ~back, 1);
    else if (kind < 3 || kind >= 14)
        back |= (uint32_t)any(&sim.chance) & (uint32_t)any(&sim.chance) & everybody();
    back = back ? back : everybody();
    for (uint32_t n = 0; n < layout.nodes; n++)
        if (!(back >> n & 1) && !fault(AWAY, 1000))
            back |= UINT32_C(1) << n;
    return back;
}

/* A step of a machine or leader. */
static int some_place(uint32_t who)
{
    if (who >= LEADERS_AT)
        return AT_LEADER_STARTED + (int)below(&sim.chance, PLACES - AT_LEADER_STARTED);
    return (int)below(&sim.chance, AT_LEADER_STARTED);
}

/* Six rounds by a plan: the store gets small, twice; all come, and some hear that their view counts; they
 * go on alone; the others come with one of them; the others come alone. */
static void draw_planned(struct round *round, uint32_t step)
{
    uint32_t last = bits(model_last()->members);
    round->hazard = round->lose = round->twice = round->delayed = round->change = 0;
    round->cut_in = 0;
    round->cut_at = round->left_at = -1;
    if (step > 3) {
        round->back = some_of(model_last()->members, last / 2 + 1);
    } else if (step == 3) {
        last = layout.nodes;
        round->cut_at = AT_VIEW_SURE;
        round->cut_times = last / 2 + 1 + below(&sim.chance, last / 2 + 1);
        round->back = everybody();
    } else if (step == 2) {
        round->back = knowing(false);
    } else if (step == 1) {
        uint32_t told = knowing(true);
        round->back = told | some_of(knowing(false) & ~told, 1);
    } else {
        round->back = everybody() & ~knowing(false);
    }
    round->back = round->back ? round->back : everybody();
    for (uint32_t n = 0; n < layout.nodes; n++)
        if (!(round->back >> n & 1) && !fault(AWAY, 1000))
            round->back |= UINT32_C(1) << n;
}

/* 1: what runs goes on running, else the power is cut before it. */
static bool draw_round(uint32_t number)
{
    static const uint32_t hazards[] = {0, 0, 0, 3, 10, 30}, losses[] = {0, 0, 0, 10, 50, 150};
    static const uint32_t delays[] = {0, 0, 30, 100};
    struct round *round = &sim.round;
    memset(round, 0, sizeof *round);
    for (uint32_t kind = 0; kind < FAULTS; kind++)
        sim.chances[kind] = chance_of(asked->seed, number, kind + 1);
    sim.chance = chance_of(asked->seed, number, 0);
    struct chance *chance = &sim.chance;
    round->number = number;
    round->cut_at = round->left_at = -1;
    /* now and then many rounds in which something fails follow one another */
    round->heals = number == 0 || below(chance, asked->seed % 3 ? 3 : 8) == 0;
    if (sim.planned == 0 && asked->seed % 4 == 3 && below(chance, 10) == 0)
        sim.planned = 6;
    if (sim.planned)
        round->heals = false;
    round->back = everybody();
    round->gone = RESTART_NODES;
    round->leaves = round->heals && below(chance, 4) == 0;
    round->goal = 1 + below(chance, 8);
    round->events = 300 + 60 * layout.nodes + below(chance, 100 * layout.nodes);
    if (round->heals)
        return !sim.cut && number && below(chance, 2);
    round->hazard = hazards[below(chance, 6)];
    round->lose = losses[below(chance, 6)];
    round->twice = losses[below(chance, 6)];
    round->delayed = delays[below(chance, 4)];
    round->change = below(chance, 3) ? 0 : 4;
    if (below(chance, 6) == 0) { /* one attempt after another, and all that was said comes again */
        round->twice = 400;
        round->hazard = 15;
        round->change = 8;
    }
    uint32_t cut = below(chance, 8);
    if (cut < 3) /* somewhere in the restart */
        round->cut_in = 1 + below(chance, 60 * layout.nodes + 200);
    else if (cut < 5) { /* at a step of it */
        round->cut_at = (int)below(chance, PLACES);
        round->cut_times = 1 + below(chance, layout.nodes + 2);
    } else if (cut == 5)
        round->left_at = some_place(LEADERS_AT);
    if (sim.planned)
        draw_planned(round, --sim.planned);
    else
        round->back = who_is_back();
    sim.last_back = round->back;
    return false;
}

/* ---- Disks that are not what they were ---- */

static void forget_leaders(void)
{
    for (uint32_t l = 0; l < sim.lists; l++) {
        stop(&processes[LEADERS_AT + l], false);
        disk_empty(&processes[LEADERS_AT + l].disk);
        tell(LEADERS_AT + l, "wiped");
    }
}

static void swap_image(uint32_t n, uint32_t image)
{
    struct disk other = processes[n].disk;
    processes[n].disk = images[n][image];
    images[n][image] = other;
}

/* Whether a machine may come back with the disk that it has now: as if it had been away, with nothing
 * left that rests on what it did meanwhile. Of every earlier view most members have a later one; nobody
 * has an open view that the machine was asked for, nor has the image one; the last view's logs are all
 * on other machines. */
static bool allowed(uint32_t n)
{
    static struct view sure, open;
    uint64_t tag;
    const struct seen *last = model_last();
    uint32_t latest[RESTART_NODES] = {0}, has = 0;
    for (uint32_t m = 0; m < layout.nodes; m++) {
        if (!views_read(synced_disk(m), &sure, &open, &tag) ||
            (m != n && open.number && open.members >> n & 1))
            return false;
        latest[m] = sure.number;
        if (m == n && (sure.number >= last->number || open.number))
            return false;
        if (m != n && sure.number == last->number)
            has |= UINT32_C(1) << m;
    }
    for (uint32_t s = 0; s < layout.shards; s++)
        if (!(last->masks[s] & has))
            return false;
    for (uint32_t i = 0; i + 1 < model_count(); i++) {
        uint32_t later = 0;
        for (uint32_t m = 0; m < layout.nodes; m++)
            if (latest[m] > model_view(i)->number)
                later |= UINT32_C(1) << m;
        if (2 * bits(later & model_view(i)->members) <= bits(model_view(i)->members))
            return false;
    }
    return true;
}

/* Keeps an image of some disks, and puts one in that was kept earlier. */
static void old_images(void)
{
    struct chance *chance = &sim.chance;
    uint32_t n = below(chance, layout.nodes), image = below(chance, IMAGES);
    if (fault(IMAGE, asked->careless == OLD_IMAGE ? 500 : 300) && images[n][image].count) {
        swap_image(n, image);
        if (asked->careless == OLD_IMAGE || allowed(n)) {
            tell(n, "image");
            counts.images++;
            /* number 18 would keep it out for as long as a leader remembers it */
            forget_leaders();
        } else {
            swap_image(n, image);
        }
    }
    for (uint32_t m = 0; m < layout.nodes; m++)
        if (below(chance, 4) == 0)
            disk_copy(&images[m][below(chance, IMAGES)], &processes[m].disk);
    if (asked->careless == BEGUN_AGAIN && fault(IMAGE, 300)) {
        n = below(chance, layout.nodes);
        disk_empty(&processes[n].disk);
        tell(n, "wiped");
        sim.running = NULL;
        (void)machine_format(&processes[n].world, layout.settings, layout.settings_len, n,
                             layout.first);
    }
}

/* Another state than the leader has left, as sound as that was: all have prepared. */
static void change_file(struct process *process)
{
    static struct restart_leader read;
    static uint8_t own[RESTART_OWN_BYTES], bytes[RESTART_FILE_BYTES + RESTART_OWN_BYTES];
    struct file *file = disk_find(&process->disk, "leader");
    read.settings_len = 0;
    if (!file)
        return;
    uint32_t words = restart_leader_take(&read, own, sizeof own, file->data, file->len);
    if (restart_is_refusal(words) ||
        restart_get_word(read.state, RESTART_PHASE) != RESTART_PREPARING)
        return;
    restart_put_word(read.state, RESTART_PHASE, RESTART_COMMITTED);
    restart_put_word(read.state, RESTART_PREPARED, restart_get_word(read.state, RESTART_HELD));
    uint32_t saved =
        restart_leader_save(&read, own, 4 * (size_t)restart_length_of(words), bytes, sizeof bytes);
    if (!restart_is_refusal(saved))
        disk_replace(&process->disk, "leader", bytes, 4 * (size_t)restart_length_of(saved));
}

/* When a process starts once the power is back; so often in a thousand much later. Each draw is a statement
 * of its own, for the order within an expression is the compiler's. */
static uint64_t soon(uint32_t often)
{
    uint64_t delay = below(&sim.chance, 10 * MS);
    if (fault(SLOW, often))
        delay += below(&sim.chance, 400 * MS);
    return delay;
}

static void power_on(void)
{
    struct chance *chance = &sim.chance;
    if (sim.corrupt && sim.round.heals && asked->careless != HIGH_VIEW) {
        forget_leaders(); /* duty 10: somebody has seen it, and starts anew */
        sim.corrupt = false;
    }
    if (!sim.going_on && sim.round.number && formers < ROUNDS && fault_or_heal(SETTINGS, 80)) {
        former[formers++] = layout;
        layout_change(&layout, chance);
        tell(ALL, "settings");
        counts.settings++;
    }
    if (asked->careless == OTHER_SHARDS && sim.round.number == 4 && layout.shards > 1) {
        restart_put_word(layout.settings, 3, layout.shards - 1);
        layout.settings_len = 4 * (3 + layout.nodes + layout.shards);
        forget_leaders();
    }
    for (uint32_t n = 0; n < layout.nodes; n++)
        if (sim.round.back >> n & 1 && !processes[n].up)
            start_later(n, soon(80));
    for (uint32_t l = 0; l < sim.lists; l++) {
        struct process *process = &processes[LEADERS_AT + l];
        if (process->up)
            continue;
        if (fault(WIPED, 50))
            disk_empty(&process->disk);
        if (asked->careless == SOUND_CHANGE)
            change_file(process);
        /* one or the other may be late, so that another one leads */
        start_later(LEADERS_AT + l, soon(200));
    }
    for (uint32_t c = 0; c < sim.writers; c++)
        if (!processes[CLIENTS_AT + c].up)
            start_later(CLIENTS_AT + c, below(chance, 10 * MS));
    if (sim.round.heals)
        for (uint32_t who = 0; who < ADDRESSES; who++) {
            processes[who].still_at = processes[who].dies_in = 0;
            processes[who].dies_at = -1;
        }
}

/* All stop. A few messages stay on their way. */
static void power_off(void)
{
    bool any_up = false;
    for (uint32_t n = 0; n < layout.nodes; n++)
        any_up = any_up || processes[n].up;
    if (any_up) {
        counts.cuts++;
        tell(ALL, "cut");
    }
    for (uint32_t who = 0; who < CLIENTS_AT; who++)
        if (processes[who].up)
            stop(&processes[who], below(&sim.chance, 5) != 0);
    struct queue left = sim.queue;
    memset(&sim.queue, 0, sizeof sim.queue);
    sim.queue.order = left.order;
    for (size_t i = 0; i < left.count; i++) {
        struct event *event = &left.events[i];
        if (event->kind == MESSAGE && fault(LATE, 60)) {
            counts.late++;
            event->time = sim.time + below(&sim.chance, 300 * MS);
            queue_put(&sim.queue, *event);
        } else if (event->kind == TICK && event->who >= CLIENTS_AT) {
            queue_put(&sim.queue, *event);
        } else {
            free(event->bytes);
        }
    }
    free(left.events);
    sim.cut = false;
    sim.since_cut = true;
}

/* Something may happen to somebody. */
static void hazards(void)
{
    struct chance *chance = &sim.chance;
    if (fault(KILL, sim.round.hazard)) {
        uint32_t who = below(chance, layout.nodes + sim.lists + 1);
        who = who < layout.nodes               ? who
              : who < layout.nodes + sim.lists ? LEADERS_AT + who - layout.nodes
                                               : CLIENTS_AT + below(chance, sim.writers);
        struct process *process = &processes[who];
        process->by_power = fault(POWER, 500);
        if (below(chance, 2))
            process->dies_in = 1 + below(chance, 40);
        else
            process->dies_at = some_place(who);
    }
    if (fault(CHANGE, sim.round.change))
        for (uint32_t l = 0; l < sim.lists; l++)
            if (processes[LEADERS_AT + l].up && leaders[l].leads) {
                struct event event = {0};
                event.time = sim.time;
                event.kind = CHANGING;
                event.who = LEADERS_AT + l;
                event.life = processes[LEADERS_AT + l].life;
                queue_put(&sim.queue, event);
            }
    if (below(chance, 200) == 0) {
        /* a publisher asks for some page */
        uint8_t bytes[16];
        struct writing words = writing_to(bytes, sizeof bytes);
        put(&words, PAGE);
        put(&words, 0);
        put(&words, 0);
        put(&words, below(chance, RESTART_SUBGROUPS));
        uint32_t publisher = CLIENTS_AT + PUBLISHERS + below(chance, RESTART_SUBGROUPS);
        post(publisher, LEADERS_AT + below(chance, sim.lists), bytes, sizeof bytes);
    }
}

static void handle(struct event *event)
{
    struct process *process = &processes[event->who];
    sim.time = event->time > sim.time ? event->time : sim.time;
    mix(sim.time ^ (uint64_t)event->kind << 60 ^ (uint64_t)event->who << 50 ^ event->len);
    bool left = sim.round.left && event->who >= LEADERS_AT && event->who < CLIENTS_AT;
    if (!left && (event->kind == MESSAGE
                      ? process->up
                      : process->life == event->life && process->up == (event->kind != START))) {
        run(process, event);
        if (event->kind != MESSAGE && event->kind != CHANGING && process->up && !sim.cut)
            tick_later(process);
    }
    free(event->bytes);
    tell_serving();
}

static void play(void)
{
    struct round *round = &sim.round;
    uint64_t begun = sim.events,
             most = round->heals ? HEAL_EVENTS * (uint64_t)layout.nodes : round->events;
    sim.acked = 0;
    while (!sim.cut) {
        struct event event;
        if (!queue_take(&sim.queue, &event)) {
            found(STUCK, "nothing is left to happen");
            return;
        }
        sim.events++;
        counts.events++;
        handle(&event);
        if (sim.cut)
            break;
        if (!round->heals)
            hazards();
        if (sim.acked >= round->goal && store_serves())
            break;
        if (sim.events - begun >= most) {
            /* a disk that went back in time may be found as a contradiction, which waits for an operator */
            if (!round->heals || asked->careless == OLD_IMAGE || asked->careless == BEGUN_AGAIN)
                break;
            found(STUCK,
                  "all machines are up and nothing fails, and after %llu events the store %s",
                  (unsigned long long)most,
                  store_serves() ? "acknowledges nothing" : "does not serve");
            return;
        }
    }
    if (round->heals && store_serves()) {
        uint64_t each = (sim.events - begun) / layout.nodes;
        counts.heals++;
        if (each > counts.heal_events)
            counts.heal_events = each;
        model_all();
    }
}

static void begin(void)
{
    uint32_t nodes = asked->nodes;
    sim.chance = chance_of(asked->seed, UINT64_MAX, 0);
    struct chance *chance = &sim.chance;
    uint32_t size = below(chance, 100);
    uint32_t drawn = size < 92   ? 3 + below(chance, 6)
                     : size < 98 ? 9 + below(chance, 8)
                                 : 17 + below(chance, 16);
    layout_draw(&layout, chance, nodes ? nodes : drawn);
    sim.lists = 1 + below(chance, LEADERS);
    if (asked->careless == TWO_LEADERS)
        sim.lists = 2;
    sim.writers = 1 + below(chance, WRITERS);
    sim.time = 1000 * MS;
    sim.events = sim.saves = 0;
    sim.since_cut = true;
    sim.cut = sim.corrupt = false;
    sim.last_back = sim.planned = 0;
    queue_clear(&sim.queue);
    for (uint32_t l = 0; l < LEADERS; l++)
        library_forgets(l);
    course_sum = asked->seed;
    course_faults = formers = 0;
    memset(&sim.round, 0, sizeof sim.round);
    for (uint32_t who = 0; who < ADDRESSES; who++) {
        struct process *process = &processes[who];
        disk_empty(&process->disk);
        process->world = WORLD;
        process->world.self = process;
        process->world.leave_out = asked->leave_out;
        process->address = who;
        process->life = 0;
        process->up = false;
        process->dies_in = 0;
        process->dies_at = -1;
        process->still_at = 0;
        if (who < RESTART_NODES) {
            synced_worlds[who] = (struct world){.self = process, .read = read_synced};
            for (int i = 0; i < IMAGES; i++)
                disk_empty(&images[who][i]);
        }
    }
    tell(ALL, "store %u %u", layout.nodes, layout.shards);
    for (uint32_t s = 0; s < layout.shards; s++)
        tell(ALL, "shard %u %x need=%u subgroup=%u", s, layout.first[s], layout.need[s],
             layout.subgroup[s]);
    model_begin();
    sim.running = NULL;
    for (uint32_t n = 0; n < layout.nodes; n++)
        if (!machine_format(&processes[n].world, layout.settings, layout.settings_len, n,
                            layout.first)) {
            fputs("simulate: a first view is refused\n", stderr);
            exit(2);
        }
}

enum found course(const struct asked *told)
{
    asked = told;
    sim.found = NOTHING;
    found_text[0] = 0;
    counts.courses++;
    if (setjmp(sim.ends) == 0) {
        begin();
        for (uint32_t r = 0; r < (asked->rounds ? asked->rounds : ROUNDS); r++) {
            if (r < 64 && asked->skipped >> r & 1)
                continue;
            bool running = sim.going_on = draw_round(r);
            if (!running) {
                power_off();
                old_images();
            }
            tell(ALL, "round %u %x %s", r, sim.round.back,
                 running           ? "nothing was cut, nothing fails"
                 : sim.round.heals ? "nothing fails"
                                   : "faults");
            if (sim.round.heals)
                tell(ALL, "heal");
            power_on();
            play();
        }
    }
    for (uint32_t who = 0; who < ADDRESSES; who++)
        processes[who].up = false;
    mix((uint64_t)sim.found);
    course_events = sim.events;
    course_round = sim.round.number;
    return sim.found;
}
