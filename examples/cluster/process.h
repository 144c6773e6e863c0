/* The world of real processes. */
#ifndef PROCESS_H
#define PROCESS_H

#include "cluster.h"

struct process {
    const char *what; /* machine, leader or client */
    uint32_t address;
    int disk;         /* the folder */
    int socket;       /* bound to the address, as a name in the room */
    int place, count; /* where to stop: reach() */
    int signal;
};

extern struct world world_of(struct process *process);

/* Opens the folder, which one process has at a time, and the socket; a null room: no socket. */
extern void process_open(struct process *process, const char *what, uint32_t address,
                         const char *folder, const char *room);

/* The next message: its length, or -1 if there is none. Who sent it is known by the socket. */
extern long next_message(const struct process *process, uint8_t *bytes, size_t most,
                         uint32_t *from);

/* Waits for a message, so long at most. */
extern void process_wait(const struct process *process, uint32_t time);

/* Ends the process with a line on standard error. */
extern void stop(const char *what, const char *name);

#endif
