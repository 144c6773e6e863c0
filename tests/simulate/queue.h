/* What is still to come, by time; of equal times what was put in first. */
#ifndef QUEUE_H
#define QUEUE_H

#include <stddef.h>
#include <stdint.h>

enum event_kind { TICK, MESSAGE, START, CHANGING };

struct event {
    uint64_t time, order;
    enum event_kind kind;
    uint32_t who;  /* the process that it is for */
    uint32_t from; /* MESSAGE: the sender */
    uint32_t life; /* START, TICK: of which life of the process */
    uint8_t *bytes;
    size_t len;
};

struct queue {
    struct event *events;
    size_t count, room;
    uint64_t order;
};

void queue_put(struct queue *queue, struct event event);
int queue_take(struct queue *queue, struct event *event); /* 0: there is none */
void queue_clear(struct queue *queue);

#endif
