#include "queue.h"

#include <stdio.h>
#include <stdlib.h>

static int before(const struct event *a, const struct event *b)
{
    return a->time != b->time ? a->time < b->time : a->order < b->order;
}

void queue_put(struct queue *queue, struct event event)
{
    if (queue->count == queue->room) {
        queue->room = queue->room * 2 + 64;
        queue->events = realloc(queue->events, queue->room * sizeof *queue->events);
        if (!queue->events) {
            fputs("simulate: no memory\n", stderr);
            exit(2);
        }
    }
    event.order = queue->order++;
    size_t at = queue->count++;
    for (; at > 0 && before(&event, &queue->events[(at - 1) / 2]); at = (at - 1) / 2)
        queue->events[at] = queue->events[(at - 1) / 2];
    queue->events[at] = event;
}

int queue_take(struct queue *queue, struct event *event)
{
    if (!queue->count)
        return 0;
    *event = queue->events[0];
    struct event last = queue->events[--queue->count];
    size_t at = 0;
    for (;;) {
        size_t child = 2 * at + 1;
        if (child >= queue->count)
            break;
        if (child + 1 < queue->count && before(&queue->events[child + 1], &queue->events[child]))
            child++;
        if (!before(&queue->events[child], &last))
            break;
        queue->events[at] = queue->events[child];
        at = child;
    }
    queue->events[at] = last;
    return 1;
}

void queue_clear(struct queue *queue)
{
    for (size_t i = 0; i < queue->count; i++)
        free(queue->events[i].bytes);
    queue->count = 0;
}
