/*
 * A client of the store. It writes one update after another and waits until each is stored. An update
 * that is not acknowledged is sent again under its number, to one machine after another; the store
 * carries it out once. Or it asks once, for a score or for the page of a subgroup.
 */
#include "cluster.h"

#include <string.h>

enum { RESERVE = 1000 };

/* The next number. Numbers rise over the client's lives: the disk has one that is never exceeded. */
static void next_number(struct client *c)
{
    if (++c->number > c->reserved) {
        uint8_t bytes[4];
        c->reserved = c->number + RESERVE;
        restart_put_word(bytes, 0, c->reserved);
        c->world.replace(c->world.self, "number", bytes, sizeof bytes);
    }
}

/* The request at hand: an update or a score of a machine, a page of a leader. */
static void send_request(struct client *c)
{
    uint8_t bytes[4 * 7];
    struct writing words = writing_to(bytes, sizeof bytes);
    put(&words, c->kind);
    put(&words, 0);
    put(&words, 0);
    put(&words, c->shard);
    if (c->kind == WRITE)
        put(&words, c->number);
    if (c->kind != PAGE)
        put(&words, c->player);
    if (c->kind == WRITE)
        put(&words, c->score);
    c->sent = c->world.now(c->world.self);
    c->world.send(c->world.self, c->kind == PAGE ? LEADERS_AT + c->to % LEADERS : c->to, bytes,
                  4 * words.count);
}

/* Shards in turn; the score is the number, so that every update is another one. */
static void next_update(struct client *c)
{
    c->waiting = c->wanted == 0 || c->acknowledged < c->wanted;
    if (!c->waiting)
        return;
    next_number(c);
    c->shard = c->number % c->shards;
    c->player = c->number / c->shards % PLAYERS;
    c->score = c->number;
    send_request(c);
}

static int begin(struct client *c, const struct world *world, struct times times,
                 const uint8_t *settings, size_t settings_len, uint32_t address)
{
    memset(c, 0, sizeof *c);
    c->world = *world;
    c->times = times;
    c->address = address;
    if (restart_check_settings(settings, settings_len) != RESTART_ACCEPTED)
        return 0;
    c->nodes = restart_get_word(settings, 0);
    c->shards = restart_get_word(settings, 3);
    return 1;
}

int client_start(struct client *c, const struct world *world, struct times times,
                 const uint8_t *settings, size_t settings_len, uint32_t address, uint64_t wanted)
{
    uint8_t bytes[4];
    if (!begin(c, world, times, settings, settings_len, address))
        return 0;
    c->wanted = wanted;
    c->kind = WRITE;
    if (world->read(world->self, "number", 0, bytes, sizeof bytes) == (long)sizeof bytes)
        c->number = c->reserved = restart_get_word(bytes, 0);
    next_update(c);
    return 1;
}

int client_ask(struct client *c, const struct world *world, struct times times,
               const uint8_t *settings, size_t settings_len, uint32_t address, uint32_t kind,
               uint32_t shard, uint32_t player)
{
    if (!begin(c, world, times, settings, settings_len, address))
        return 0;
    c->kind = kind;
    c->shard = shard;
    c->player = player;
    c->waiting = 1;
    send_request(c);
    return 1;
}

void client_message(struct client *c, uint32_t from, const uint8_t *bytes, size_t length)
{
    struct reading words = reading_of(bytes, length);
    uint32_t kind = take(&words);
    take(&words);
    take(&words);
    uint32_t first = take(&words);
    if (words.over || !c->waiting)
        return;
    if (kind == PAGE && c->kind == PAGE && from >= LEADERS_AT && from < LEADERS_AT + LEADERS) {
        c->answer = first;
        for (int i = 0; i < RESTART_PAGE_WORDS; i++)
            c->page[i] = take(&words);
        c->waiting = 0;
        return;
    }
    uint32_t word = take(&words);
    if (words.over || from >= c->nodes || first != c->shard)
        return;
    if (kind == STORED && c->kind == WRITE && word == c->number) {
        c->acknowledged++;
        next_update(c);
    } else if (kind == SCORE && c->kind == READ && word == c->player) {
        c->score = take(&words);
        c->waiting = 0;
    } else if (kind == MOVED && word < c->nodes && word != c->to) {
        c->to = word;
        send_request(c);
    }
}

void client_tick(struct client *c)
{
    if (!c->waiting || c->world.now(c->world.self) - c->sent < 2 * c->times.beat)
        return;
    c->to = (c->to + 1) % c->nodes;
    send_request(c);
}
