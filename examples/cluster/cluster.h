/*
 * A replicated store that survives its restarts: a machine, a leader and a client over the restart
 * library. The three know nothing of files, sockets and clocks: all that is outside them is
 * `struct world`. process.c is a world of real processes, tests have worlds of their own.
 *
 * What machine and leader do is PERSISTENCE in restart(3), line by line; "duty" and a number in a
 * comment is that duty in docs/ASSUMPTIONS.md and restart(3).
 *
 * All memory of a machine, leader or client is in its struct. It may be thrown away at any time,
 * also inside a call to its world: that is a crash. What is started next over the same disk knows
 * what the disk knows.
 */
#ifndef CLUSTER_H
#define CLUSTER_H

#include <restart.h>

/* ---- The world ---- */

/* Addresses. A machine's address is its node. */
enum {
    LEADERS_AT = RESTART_NODES, /* 32 to 35: the list of leaders, each with a disk of its own */
    LEADERS = 4,
    CLIENTS_AT = 64, /* 64 to 95 */
    CLIENTS = 32
};

/*
 * The disk is the process's own folder: files by a short name (letters, digits, dash, dot). A call
 * that the disk refuses does not return: the process ends, which is a crash like any other.
 */
struct world {
    void *self; /* first argument of every call */
    /* Up to `most` bytes of the file from `at` on; how many there were, or -1 without such a file. */
    long (*read)(void *self, const char *name, uint64_t at, uint8_t *bytes, size_t most);
    /* At the end of the file, which is made if it is not there. Until a sync, bytes that were
     * appended may be lost or changed by a crash, and a new file may be gone. */
    void (*append)(void *self, const char *name, const uint8_t *bytes, size_t length);
    /* All that was done to the file is on disk, and its name too. */
    void (*sync)(void *self, const char *name);
    /* These bytes in place of the file, at once and on disk: after a crash it has the old bytes or
     * the new ones. */
    void (*replace)(void *self, const char *name, const uint8_t *bytes, size_t length);
    /* Makes the file shorter; on disk with the next sync. */
    void (*truncate)(void *self, const char *name, uint64_t length);
    /* The file is gone, on disk; nothing happens if there is none. */
    void (*remove)(void *self, const char *name);
    /* A message on its way. It may be lost, doubled, late and overtaken. */
    void (*send)(void *self, uint32_t to, const uint8_t *bytes, size_t length);
    /* Milliseconds since some time in the past. The clock may stand still, and nothing that is stored
     * rests on it. */
    uint64_t (*now)(void *self);
    /* A number that never comes again: 64 random bits. */
    uint64_t (*random)(void *self);
    /* A line for people, without its end. */
    void (*say)(void *self, const char *line);
    /* A step is reached (enum place). Does nothing; a test may crash here. */
    void (*at)(void *self, int place);
    uint64_t leave_out; /* for CLUSTER_SWITCHES: bit n leaves out what enum leave has as n */
};

/* ---- Steps that a test can aim at ---- */

#define ALL_PLACES(X)                                                                              \
    X(AT_MACHINE_STARTED, "its disk is read and what was torn is cut off")                         \
    X(AT_STOPPED_SERVING, "asked: its logs are synced, a copy still stands")                       \
    X(AT_COPY_DELETED, "asked: the copy is gone, the tag is not yet on disk")                      \
    X(AT_TAG_TAKEN, "asked: the tag is on disk, views not yet sent")                               \
    X(AT_SETTLED, "told of its open view: on disk, not yet reported")                              \
    X(AT_REPORTED, "the report has left")                                                          \
    X(AT_COPY_BEGUN, "order taken: the parts that it keeps are written, not synced")               \
    X(AT_COPY_PART, "a part that was fetched is written, not synced")                              \
    X(AT_COPY_SYNCED, "all copies are on disk, the order is not")                                  \
    X(AT_COPY_FINISHED, "the order is on disk, \"fetched\" not yet said")                          \
    X(AT_VIEW_OPEN, "the new view is open on disk, \"prepared\" not yet said")                     \
    X(AT_VIEW_SURE, "committed: the view is sure on disk, old logs are still there")               \
    X(AT_LOGS_GONE, "old logs are gone, not yet serving")                                          \
    X(AT_APPENDED, "an update is in the log, not synced")                                          \
    X(AT_SYNCED, "updates are synced, nobody is told")                                             \
    X(AT_ACKNOWLEDGED, "a client was told that its update is stored")                              \
    X(AT_LEADER_STARTED, "its file is read")                                                       \
    X(AT_TAG_SAVED, "a new attempt is on disk, nobody is asked")                                   \
    X(AT_VIEWS_FOUND, "what comes of open views is known, nobody is told")                         \
    X(AT_TERMINATED, "a termination is made, nobody is told")                                      \
    X(AT_PLAN_SAVED, "the plan is on disk, no order has left")                                     \
    X(AT_ORDERS_SENT, "all orders have left once")                                                 \
    X(AT_PREPARING_SAVED, "preparing is on disk, nobody is told")                                  \
    X(AT_PREPARE_SENT, "\"prepare\" has left once to all")                                         \
    X(AT_MOVES_WRITTEN, "the line of the moves file is on disk, \"committed\" is not")             \
    X(AT_COMMITTED_SAVED, "committed is on disk, nobody is told")                                  \
    X(AT_COMMITTED_SENT, "\"committed\" has left once to all")                                     \
    X(AT_GIVEN_UP, "a plan was given up, the new tag is not yet on disk")

enum place {
#define PLACE(name, text) name,
    ALL_PLACES(PLACE)
#undef PLACE
        PLACES
};

/* What stands behind a step in the list. */
extern const char *place_text(int place);

/* ---- Duties left out, for tests alone ----
 * KEEPS(world, LEAVE_..) is 1 in the code that people run. With CLUSTER_SWITCHES a test leaves one
 * thing out and sees what comes of it.
 */

#define ALL_LEAVES(X)                                                                              \
    X(LEAVE_SERVE_LATE, "1: serves at \"prepared\", before \"committed\"")                         \
    X(LEAVE_TAGS, "2: messages of any tag are taken")                                              \
    X(LEAVE_REPORT_ORDER, "3: a late report replaces a newer one")                                 \
    X(LEAVE_FETCHED_SYNC, "4: \"fetched\" before copies and order are on disk")                    \
    X(LEAVE_PREPARED_SYNC, "4: \"prepared\" before the open view is on disk")                      \
    X(LEAVE_NO_TARGETS, "5: the targets of an order are logged as a termination")                  \
    X(LEAVE_TORN, "6: torn ends of logs are counted as updates")                                   \
    X(LEAVE_SHORT, "7.2: a termination's position in the base is told as it is")                   \
    X(LEAVE_BASE_TARGET, "7.3: the target (0, 0) is the beginning")                                \
    X(LEAVE_BASE_CUT, "7.3: where the cut is (0, 0) the machine keeps its whole log")              \
    X(LEAVE_PACK_SURE, "7.5: the sure view's logs are packed at \"prepared\", to the open base")   \
    X(LEAVE_HOLDER_SERVES, "8: a holder serves only shards that its own order names")              \
    X(LEAVE_DROP, "9: slow machines are waited for")                                               \
    X(LEAVE_VIEW_ONCE, "11: after a stop a machine serves its sure view again")                    \
    X(LEAVE_DESK, "12: the desk is not saved")                                                     \
    X(LEAVE_COVERS, "14: a termination ends one update early")                                     \
    X(LEAVE_BESIDE, "15: copies are made in place of the logs")                                    \
    X(LEAVE_NOT_CARRIED, "15: logs of shards no longer carried go at \"fetched\"")                 \
    X(LEAVE_COPY_DELETED, "16, machine line 4: a copy survives being asked")                       \
    X(LEAVE_SETTLE, "16: an open view is reported as if it were sure")                             \
    X(LEAVE_LISTS, "16: the lists of earlier views are not looked at")                             \
    X(LEAVE_UNDECIDED, "16: an undecided view is forgotten in place of waiting")                   \
    X(LEAVE_ALL_STORED, "17: an update is told to be stored once one machine has it")              \
    X(LEAVE_STORE_SYNC, "17: a machine tells that it has updates before they are synced")          \
    X(LEAVE_ROLE, "18: a page is made in the planner's role")                                      \
    X(LEAVE_TAG_KEPT, "2: a machine that stops forgets its tag, but for that of a copy")

enum leave {
#define LEAVE(name, text) name,
    ALL_LEAVES(LEAVE)
#undef LEAVE
        LEAVES
};

/* The duty's number and what is left out. */
extern const char *leave_text(int leave);

#ifdef CLUSTER_SWITCHES
#define KEEPS(world, what) (!((world)->leave_out >> (what)&1))
#else
#define KEEPS(world, what) ((void)(world), 1)
#endif

/* ---- Words of messages and files ---- */

/* Words that are put one after another. */
struct writing {
    uint8_t *bytes;
    size_t count, most;
    int over; /* there was no more room */
};

/* Words that are taken one after another. */
struct reading {
    const uint8_t *bytes;
    size_t count, most;
    int over; /* there were no more */
};

static inline struct writing writing_to(uint8_t *bytes, size_t length)
{
    return (struct writing){bytes, 0, length / 4, 0};
}

static inline struct reading reading_of(const uint8_t *bytes, size_t length)
{
    return (struct reading){bytes, 0, length / 4, 0};
}

static inline void put(struct writing *words, uint32_t word)
{
    if (words->count < words->most)
        restart_put_word(words->bytes, words->count++, word);
    else
        words->over = 1;
}

static inline uint32_t take(struct reading *words)
{
    if (words->count < words->most)
        return restart_get_word(words->bytes, words->count++);
    words->over = 1;
    return 0;
}

/* FNV-1a: finds what a crash has torn. */
static inline uint32_t sum_of(const uint8_t *bytes, size_t length)
{
    uint32_t sum = UINT32_C(2166136261);
    for (size_t at = 0; at < length; at++)
        sum = (sum ^ bytes[at]) * UINT32_C(16777619);
    return sum;
}

/* Whether position p lies after q. */
static inline int after(struct restart_position p, struct restart_position q)
{
    return p.view > q.view || (p.view == q.view && p.k > q.k);
}

static inline int same(struct restart_position p, struct restart_position q)
{
    return p.view == q.view && p.k == q.k;
}

/* Tags rise, so that a machine obeys the latest leader; their lower part is random, so that none comes
 * again, also where a leader has lost its disk. */
static inline uint64_t tag_after(uint64_t tag, uint64_t random)
{
    return ((tag >> 32) + 1) << 32 | (random & UINT32_MAX);
}

/* ---- The store ----
 * A shard is a table of scores. An update sets the score of one player.
 */

enum { PLAYERS = 64 };

struct update {
    struct restart_position at;
    uint32_t client, number; /* a client numbers its updates, rising; each is carried out once */
    uint32_t player, score;
};

/* What a shard has come to: all updates up to `end`. Also what a log is packed into. */
struct store {
    struct restart_position end;
    uint32_t count; /* of the updates */
    uint64_t sum;   /* over all of them, so that two stores can be compared */
    uint32_t scores[PLAYERS];
    uint32_t numbers[CLIENTS]; /* each client's greatest number */
};

extern void store_apply(struct store *store, const struct update *update);

/* In messages and files. */
enum { STORE_WORDS = 5 + PLAYERS + CLIENTS, UPDATE_WORDS = 7 };
extern void put_store(struct writing *words, const struct store *store);
extern void take_store(struct reading *words, struct store *store);
extern void put_update(struct writing *words, uint32_t shard, const struct update *update);
/* 1, or 0 if its sum is wrong. */
extern int take_update(struct reading *words, uint32_t shard, struct update *update);

/* ---- What stands on a machine's disk ----
 * views      the small file: sure view, open view
 * order      the order of a finished copy, with its tag
 * tag        the last tag that the machine took
 * log-NN-a, log-NN-b   logs of shard NN; the small file says which of the two a view has
 *
 * A log is a store, into which its older part is packed, and then updates, each with its sum.
 */

#ifndef CLUSTER_VIEWS
#define CLUSTER_VIEWS 1024 /* most views in a list */
#endif

struct view {
    uint32_t number; /* 0: there is none */
    uint32_t members;
    uint32_t masks[RESTART_SHARDS];
    uint32_t logs;  /* mask of the shards that the machine carries in it, each with a log */
    uint32_t slots; /* bit s: its log is log-s-b, else log-s-a */
    struct restart_position base[RESTART_SHARDS]; /* the end of each log when the view was made */
    uint32_t terminated;
    struct restart_position termination[RESTART_SHARDS];
    uint32_t before;                 /* how many views the list has */
    uint32_t list[CLUSTER_VIEWS][2]; /* number and members of each, rising */
};

enum { LOG_NAME = 12, LOG_HEAD_WORDS = 3 + STORE_WORDS };

extern void log_name(char name[LOG_NAME], uint32_t shard, uint32_t slot);

/* The small file: 1, or 0 if there is none or it is damaged. The tag is the open view's. */
extern int views_read(const struct world *world, struct view *sure, struct view *open,
                      uint64_t *open_tag);
extern void views_write(const struct world *world, const struct view *sure, const struct view *open,
                        uint64_t open_tag);
/* The last tag that the machine took; 0: none. */
extern uint64_t tag_read(const struct world *world);
extern void tag_write(const struct world *world, uint64_t tag);
/* The order of a finished copy, as the view that it makes. */
extern int order_read(const struct world *world, struct view *next, uint64_t *tag);
extern void order_write(const struct world *world, const struct view *next, uint64_t tag);

/* The updates that a log's file has, besides those that are packed. */
struct log_size {
    uint32_t packed; /* that the store in front has */
    uint32_t before; /* behind it, up to the base */
    uint32_t behind; /* of the view itself, behind the base */
};

/* Reads a log into a store, up to its base, and counts the good updates of the view behind it: 1, or
 * 0 if the log does not reach its base. */
extern int log_read(const struct world *world, const char *name, uint32_t shard,
                    struct restart_position base, uint32_t view, struct store *store,
                    struct log_size *size);
/* Up to `most` updates of a log's file from `index` on, from 0; how many there are that are good. */
extern uint32_t log_updates(const struct world *world, const char *name, uint32_t shard,
                            uint64_t index, struct update *updates, uint32_t most);

/* For the machine alone. */
extern void log_begin(const struct world *world, const char *name, uint32_t shard,
                      const struct store *store);
extern void log_append(const struct world *world, const char *name, uint32_t shard,
                       const struct update *updates, uint32_t count);
extern uint64_t log_length(uint32_t updates); /* of its file, in bytes */
/* Where the updates behind a position begin in the file of so many updates, and the store in front.
 * LOG_PACKED if the position lies inside the store; 0 if the log does not have it. */
enum { LOG_FOUND = 1, LOG_PACKED = 2 };
extern int log_find(const struct world *world, const char *name, uint32_t shard,
                    struct restart_position position, uint32_t updates, struct store *store,
                    uint32_t *index);
extern int follows(struct restart_position first, struct restart_position next);
extern int file_there(const struct world *world, const char *name);

/* ---- Messages ----
 * Words, lowest byte first. The first word is the kind, the next two are the tag of the attempt, low
 * word first. Messages of a served view and of clients have zeros there. Then:
 */

enum message {
    HELLO = 1, /* machine to leaders: enum doing. Tag: the one that it has taken */
    ASK,       /* leader to machine: send your views */
    VIEWS,     /* machine: number, members, count and list of the sure view, then of the open one */
    FOUND,     /* leader: serial, what was found (enum restart_view, 0: no open view), number and
                  members of that view; number of a view that is terminated or 0, k for each shard */
    REPORT,    /* machine: the serial of the FOUND that it answers, the report */
    ORDER,     /* leader: count and list with the kept view as its last, the order */
    FETCHED,   /* machine */
    PREPARE,   /* leader */
    PREPARED,  /* machine */
    COMMITTED, /* leader: number and members of the view */
    BEAT,      /* leader to leaders: I lead */
    FETCH,     /* machine to holder: shard, the end of what it keeps (2), the target (2) */
    DATA,   /* holder: shard, the end that was asked from (2), 1 if these are the last, 1 if a store
                  comes first, store, updates */
    STORE,  /* first member of a shard to the others: view, shard, updates */
    HAVE,   /* to the first member: view, shard, how many updates of the view are on disk */
    WRITE,  /* client to machine: shard, number, player, score */
    STORED, /* machine to client: shard, number */
    MOVED,  /* machine to client: shard, the machine that numbers its updates */
    READ,   /* client: shard, player */
    SCORE,  /* machine: shard, player, score, the client's greatest number that is stored */
    PAGE,   /* client to leader: subgroup. Answer: the library's answer, RESTART_PAGE_WORDS words */
    MESSAGES
};

/* What a machine says of itself in HELLO. */
enum doing { IDLE, ASKED, COPYING, COPIED, OPEN, SERVING };

enum {
    VIEWS_WORDS = 16 + 4 * CLUSTER_VIEWS,
    MESSAGE_BYTES = 4 * (VIEWS_WORDS + RESTART_BUFFER_WORDS), /* longest message */
    BATCH = 32                                                /* most updates in a message */
};

/* ---- Times, in milliseconds ---- */

struct times {
    uint32_t beat;     /* between two HELLOs, and until something is said again */
    uint32_t grace;    /* a plan is possible: wait so long for further machines */
    uint32_t patience; /* a machine that is silent for so long is gone */
    uint32_t slow;     /* a phase that lasts so long has a slow machine */
    uint32_t takeover; /* a leader that is silent for so long is followed by the next of the list */
};

#define TIMES_OF_PEOPLE ((struct times){100, 1000, 1000, 10000, 1500})

/* ---- A machine ---- */

/* A shard that is served. */
struct run {
    uint32_t count;               /* updates of the view in the log */
    uint32_t synced;              /* of them, on disk */
    uint32_t stored;              /* first member: of them, known to be on all members' disks */
    uint32_t have[RESTART_NODES]; /* first member: on each member's disk */
    uint32_t before;              /* updates in the file that lie before the view's */
    struct store store;           /* first member: up to `stored` */
    uint32_t numbers[CLIENTS],
        ks[CLIENTS]; /* first member: greatest number in the log, and its k */
};

struct machine {
    struct world world;
    struct times times;
    uint8_t settings[RESTART_SETTINGS_BYTES];
    size_t settings_len;
    uint32_t node;
    int damaged;  /* nothing is said and nothing done: somebody has to look at the disk */
    uint64_t tag; /* that it has taken; 0: none */
    struct view sure, open, next; /* on disk; `next` is that of the copy */
    uint64_t open_tag, copy_tag;  /* under which the open view and the copy were made */
    int copying, copied;          /* a copy is being made; it is finished, with its order on disk */
    uint32_t missing;             /* mask of shards whose copy is not finished */
    struct restart_task task;     /* the order that is carried out */
    struct restart_position copy_end[RESTART_SHARDS];
    int may_serve,
        serving; /* it prepared its open view since it started; it serves its sure view */
    struct run runs[RESTART_SHARDS];
    uint32_t leader; /* that it was asked by */
    uint64_t said;   /* when HELLO was said last */
    uint8_t out[MESSAGE_BYTES];
};

/* The masks of the first view: each shard on as many machines as it needs, if the settings have them.
 * 1, or 0 if some shard has none. */
extern int first_masks(const uint8_t *settings, size_t settings_len,
                       uint32_t masks[RESTART_SHARDS]);

/* Puts the first view on an empty disk, once in its life. 1, or 0 if the disk has a view. */
extern int machine_format(const struct world *world, const uint8_t *settings, size_t settings_len,
                          uint32_t node, const uint32_t masks[RESTART_SHARDS]);

/* Starts over a disk. 1, or 0 if it has no view or is damaged: then it is as if it were not there. */
extern int machine_start(struct machine *machine, const struct world *world, struct times times,
                         const uint8_t *settings, size_t settings_len, uint32_t node);
extern void machine_message(struct machine *machine, uint32_t from, const uint8_t *bytes,
                            size_t length);
/* Called after a few messages, and every now and then without any. */
extern void machine_tick(struct machine *machine);

/* ---- A leader ----
 * On its disk: leader (restart_leader_save), moves (a line of eight bytes for each commit: mondays(1)),
 * restart.prom (for Prometheus).
 */

/* What a leader knows of a machine. */
struct known {
    uint64_t strange;                /* since when its HELLOs do not fit the phase; 0: they do */
    uint64_t heard;                  /* when it was heard last; 0: never */
    uint64_t tag;                    /* what its last HELLO said */
    uint32_t doing;                  /* enum doing */
    int has_sent;                    /* its views are here, under the present tag */
    int reported;                    /* and its report, after it was told what was found */
    int refused;                     /* the library does not take its report */
    uint32_t serial;                 /* of the FOUND that it has to answer */
    uint32_t found;                  /* what that says */
    uint32_t counts[RESTART_SHARDS]; /* its report: updates of its view in each log */
    uint32_t sure[2], open[2];       /* number and members; 0: none */
    uint32_t sure_before, open_before;
    uint32_t sure_list[CLUSTER_VIEWS][2], open_list[CLUSTER_VIEWS][2];
};

struct leader {
    struct world world;
    struct times times;
    uint32_t number;  /* in the list of leaders: its address is LEADERS_AT + number */
    uint32_t leaders; /* how many the list has */
    uint32_t gone;    /* mask: disks that are gone for ever, by an operator's word */
    int terminates;   /* makes a termination where all members of the kept view have reported */
    uint32_t rents[CLIENTS]; /* the subgroup that each client rents, plus 1; 0: none (duty 18) */
    int leads;               /* else another leader does, or may */
    uint64_t until;          /* time at which it leads if no other is heard */
    uint64_t greatest;       /* tag that was heard of */
    struct restart_leader kept;
    uint32_t before; /* the kept view's list, and the kept view as its last */
    uint32_t list[CLUSTER_VIEWS + 1][2];
    struct known known[RESTART_NODES];
    uint32_t serial;
    uint32_t terminated; /* number of the view that is terminated by this attempt; 0: none */
    uint32_t termination[RESTART_SHARDS]; /* k for each shard */
    int changed;                          /* reports have come or gone since a plan was tried */
    uint64_t possible;                    /* since when there is a plan; 0: there is none */
    uint64_t since;                       /* when the phase began */
    uint64_t beaten;                      /* when everything was said again */
    uint32_t told;                        /* last wait that was said */
    uint32_t metrics[6];
    uint8_t out[MESSAGE_BYTES];
    uint8_t file[RESTART_FILE_BYTES + 8 * (CLUSTER_VIEWS + 2)];
};

struct leader_options {
    uint32_t number, leaders, gone;
    int terminates;
    uint32_t rents[CLIENTS];
};

/* Starts over a disk, which may be empty. 1, or 0 if the settings are wrong. */
extern int leader_start(struct leader *leader, const struct world *world, struct times times,
                        const uint8_t *settings, size_t settings_len,
                        const struct leader_options *options);
extern void leader_message(struct leader *leader, uint32_t from, const uint8_t *bytes,
                           size_t length);
extern void leader_tick(struct leader *leader);
/* Changes the view of the running service, by the same lines as a restart. */
extern void leader_change(struct leader *leader);

/* ---- A client ----
 * Writes one update after another, each once the one before is stored; or asks once. On its disk:
 * number, up to which its numbers are used.
 */

struct client {
    struct world world;
    struct times times;
    uint32_t address, nodes, shards;
    uint32_t kind;             /* of the request at hand: WRITE, READ or PAGE */
    uint32_t number, reserved; /* of the update at hand; up to where the disk has it */
    uint32_t shard, player,
        score;   /* the update at hand, or the score asked for; of PAGE the subgroup */
    uint32_t to; /* the machine that is asked */
    int waiting; /* the request is on its way */
    uint64_t sent;
    uint64_t acknowledged; /* updates so far */
    uint64_t wanted;       /* stop after so many; 0: never */
    uint32_t answer, page[RESTART_PAGE_WORDS];
};

extern int client_start(struct client *client, const struct world *world, struct times times,
                        const uint8_t *settings, size_t settings_len, uint32_t address,
                        uint64_t wanted);
/* Asks for a score (READ: shard, player) or a page (PAGE: subgroup, 0), until it is answered. */
extern int client_ask(struct client *client, const struct world *world, struct times times,
                      const uint8_t *settings, size_t settings_len, uint32_t address, uint32_t kind,
                      uint32_t shard, uint32_t player);
extern void client_message(struct client *client, uint32_t from, const uint8_t *bytes,
                           size_t length);
extern void client_tick(struct client *client);

#endif
