/*
 * A course: one store from its first view on, through failures of all its machines again and again,
 * all of it from one seed. What the simulation's parts have in common.
 */
#ifndef COURSE_H
#define COURSE_H

#include "chance.h"
#include "disk.h"
#include "layout.h"

#include <cluster.h>

#include <stdio.h>

/* Kinds of faults, so that a course can be tried without one of them. */
enum fault {
    LOSE,     /* a message is lost */
    DOUBLE,   /* it comes twice */
    DELAY,    /* it comes late, after others */
    LATE,     /* it comes after a failure of all */
    KILL,     /* a process stops in a call to its world */
    POWER,    /* and loses what was not synced */
    STILL,    /* a clock stands still */
    IMAGE,    /* a machine comes back with an older disk */
    WIPED,    /* a leader has lost its disk */
    AWAY,     /* a machine stays away for a round */
    SLOW,     /* a machine comes back later than the others */
    CHANGE,   /* the view is changed while the store runs */
    CORRUPT,  /* a report comes with a view that never was */
    SETTINGS, /* other failure sets, needs and caps from here on */
    FAULTS
};

extern const char *const fault_names[FAULTS];

/* What a check has found. From LACKING on a duty is seen to be broken, before any harm is done. */
enum found {
    NOTHING,
    LOST,    /* an acknowledged update is not in the log of a member */
    CHANGED, /* or has other contents; two logs of a shard differ */
    BACK,    /* an update is there that a later view had thrown out */
    TWO,     /* two views of one number count */
    STUCK,   /* all machines are up, nothing fails, and the store does not serve */
    SHOWN,   /* a publisher is shown what is not its own */
    LACKING, /* a view counts that a member does not have */
    UNRULED, /* a view without most members of the one before, or shards against the settings */
    COPIED_WRONG, /* what a machine kept and fetched is not the holder's log up to the target */
    WRONG_BYTES,  /* state and desk, read back, go on to other bytes */
    TWO_PLANS,    /* two leaders with the same reports have two plans */
    FINDINGS
};

extern const char *const found_names[FINDINGS];

/* What the simulation itself leaves out; cluster.h has what machines and leaders do. */
enum careless {
    CAREFUL,
    TWO_LEADERS,  /* 1: two leaders, each by a list of its own */
    LATE_REPORT,  /* 3: a report from before a log was cut comes in place of the newer one */
    OLD_IMAGE,    /* 6: a machine comes back with any older image of its disk */
    BEGUN_AGAIN,  /* 6, 16: a lost disk gets the first view again */
    HIGH_VIEW,    /* 10: a report of a view that never was, and nobody starts anew */
    SOUND_CHANGE, /* 12: the leader's file is changed and stays sound */
    OTHER_SHARDS, /* 17: the number of shards does not stay */
    CARELESS
};

extern const char *const careless_names[CARELESS];

/* What a course is told. */
struct asked {
    uint64_t seed;
    uint32_t nodes, rounds; /* 0: as the seed has it */
    uint32_t without;       /* kinds of faults that do not come, by bits */
    uint64_t skipped;       /* rounds that are left out, by bits */
    const uint32_t *muted;  /* faults that do not come, by their number, rising */
    size_t mutes;
    uint64_t leave_out; /* enum leave, by bits */
    enum careless careless;
    uint32_t sought; /* findings that count, by bits */
    FILE *log;
};

/* What came of all courses. */
struct counts {
    uint64_t courses, events, calls;
    uint64_t restarts;         /* views carried out after a failure of all */
    uint64_t changes;          /* and while the store was running */
    uint64_t cuts, kills;      /* failures of all; stops of a machine, leader or client */
    uint64_t acked, looked_up; /* updates acknowledged; looked up in logs since */
    uint64_t messages, lost, doubled, delayed, late;
    uint64_t torn, images, still, ended, corrupt, settings;
    uint64_t heals, heal_events; /* heals, and most events that one took for each machine */
    uint64_t plans, copies;      /* plans; copies compared with the holder's log */
    uint64_t places[PLACES];     /* stops at each step */
};

extern struct counts counts;

/* ---- For the parts ---- */

extern const struct asked *asked;
extern struct layout layout;
extern struct layout former[]; /* what the settings were before, in this course */
extern uint32_t formers;

/* The disk of a machine, as what is synced there. */
const struct world *synced_disk(uint32_t machine);
/* A line of the log. */
void tell(uint32_t who, const char *format, ...);
enum { ALL = 1000, VERDICT = 1001 }; /* instead of an address */
/* A check has found something: the course ends here, unless it is not asked for. */
void found(enum found what, const char *format, ...);

/* ---- The course ---- */

enum found course(const struct asked *asked);
extern char found_text[400];
extern uint64_t course_sum; /* of all that happened, so that a replay can be compared */
extern uint64_t course_events;
extern uint32_t course_faults, course_round; /* faults that came, and the last round */

#endif
