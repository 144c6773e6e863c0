/*
 * The running service (duty 17). The first member of a shard numbers its updates and sends them to
 * the others; an update is stored once all members have it on disk, in the log of the view that is
 * served, and only then its client is told.
 */
#include "machine.h"

static uint32_t first_member(const struct machine *m, uint32_t shard)
{
    return first_of(m->sure.masks[shard]);
}

static void tell_client(struct machine *m, uint32_t client, uint32_t shard, uint32_t number)
{
    struct writing words = begin(m, STORED, 0);
    put(&words, shard);
    put(&words, number);
    finish(m, CLIENTS_AT + client, &words);
    at(m, AT_ACKNOWLEDGED);
}

static void send_moved(struct machine *m, uint32_t client, uint32_t shard)
{
    struct writing words = begin(m, MOVED, 0);
    put(&words, shard);
    put(&words, first_member(m, shard));
    finish(m, CLIENTS_AT + client, &words);
}

/* The updates that a member lacks, as many as a message takes. */
static void send_updates(struct machine *m, uint32_t shard, uint32_t member)
{
    struct run *run = &m->runs[shard];
    struct update updates[BATCH];
    char name[LOG_NAME];
    uint32_t have = run->have[member];
    uint32_t most = run->synced - have < BATCH ? run->synced - have : BATCH;
    name_of(name, &m->sure, shard);
    uint32_t count = log_updates(&m->world, name, shard, run->before + have, updates, most);
    struct writing words = begin(m, STORE, 0);
    put(&words, m->sure.number);
    put(&words, shard);
    for (uint32_t i = 0; i < count; i++)
        put_update(&words, shard, &updates[i]);
    finish(m, member, &words);
}

static void send_have(struct machine *m, uint32_t shard)
{
    struct writing words = begin(m, HAVE, 0);
    put(&words, m->sure.number);
    put(&words, shard);
    put(&words, KEEPS(&m->world, LEAVE_STORE_SYNC) ? m->runs[shard].synced : m->runs[shard].count);
    finish(m, first_member(m, shard), &words);
}

/* Tells the clients of all updates that every member has on disk by now. */
static void tell_stored(struct machine *m, uint32_t shard)
{
    struct run *run = &m->runs[shard];
    uint32_t stored = run->synced;
    for (uint32_t node = 0; node < RESTART_NODES; node++)
        if ((m->sure.masks[shard] >> node & 1) && node != m->node && run->have[node] < stored &&
            KEEPS(&m->world, LEAVE_ALL_STORED))
            stored = run->have[node];
    while (run->stored < stored) {
        struct update update;
        char name[LOG_NAME];
        name_of(name, &m->sure, shard);
        if (log_updates(&m->world, name, shard, run->before + run->stored, &update, 1) != 1)
            return;
        run->stored++;
        store_apply(&run->store, &update);
        tell_client(m, update.client, shard, update.number);
    }
}

/* Updates of all messages since the last tick are synced at once. */
void serve_synced(struct machine *m)
{
    for (uint32_t s = 0; s < shard_count(m); s++) {
        struct run *run = &m->runs[s];
        char name[LOG_NAME];
        if (!carries(&m->sure, s) || run->count == run->synced)
            continue;
        name_of(name, &m->sure, s);
        m->world.sync(m->world.self, name);
        run->synced = run->count;
        at(m, AT_SYNCED);
        if (first_member(m, s) != m->node) {
            send_have(m, s);
            continue;
        }
        for (uint32_t node = 0; node < RESTART_NODES; node++)
            if ((m->sure.masks[s] >> node & 1) && node != m->node)
                send_updates(m, s, node);
        tell_stored(m, s);
    }
}

void serve_again(struct machine *m)
{
    for (uint32_t s = 0; s < shard_count(m); s++)
        for (uint32_t node = 0; node < RESTART_NODES; node++)
            if (carries(&m->sure, s) && first_member(m, s) == m->node && node != m->node &&
                (m->sure.masks[s] >> node & 1) && m->runs[s].have[node] < m->runs[s].synced)
                send_updates(m, s, node);
}

/* A client's update. A client that asks again has not heard that its update is stored; what is in the
 * log is not written twice. */
static void on_write(struct machine *m, uint32_t client, struct reading *words)
{
    uint32_t shard = take(words), number = take(words), player = take(words), score = take(words);
    struct update update = {{0, 0}, client, number, player, score};
    if (words->over || shard >= shard_count(m) || player >= PLAYERS || number == 0)
        return;
    if (first_member(m, shard) != m->node) {
        send_moved(m, client, shard);
        return;
    }
    struct run *run = &m->runs[shard];
    if (number <= run->numbers[client]) {
        if (number == run->numbers[client] && run->ks[client] <= run->stored)
            tell_client(m, client, shard, number);
        return;
    }
    char name[LOG_NAME];
    name_of(name, &m->sure, shard);
    update.at = (struct restart_position){m->sure.number, ++run->count};
    run->numbers[client] = number;
    run->ks[client] = run->count;
    log_append(&m->world, name, shard, &update, 1);
    at(m, AT_APPENDED);
}

/* Updates from the first member. What is there already, or does not follow, is left out. */
static void on_store(struct machine *m, uint32_t from, struct reading *words)
{
    struct update updates[BATCH];
    uint32_t view = take(words), shard = take(words), count = 0;
    if (words->over || view != m->sure.number || shard >= shard_count(m) ||
        !carries(&m->sure, shard) || from != first_member(m, shard) || from == m->node)
        return;
    struct run *run = &m->runs[shard];
    while (count < BATCH && words->count < words->most) {
        if (!take_update(words, shard, &updates[count]))
            return;
        if (updates[count].at.view == view && updates[count].at.k == run->count + count + 1)
            count++;
    }
    if (words->count < words->most)
        return;
    run->count += count;
    char name[LOG_NAME];
    name_of(name, &m->sure, shard);
    log_append(&m->world, name, shard, updates, count);
    if (count > 0)
        at(m, AT_APPENDED);
    if (count == 0 || !KEEPS(&m->world, LEAVE_STORE_SYNC))
        send_have(m, shard);
}

static void on_have(struct machine *m, uint32_t from, struct reading *words)
{
    uint32_t view = take(words), shard = take(words), count = take(words);
    if (words->over || view != m->sure.number || shard >= shard_count(m) ||
        first_member(m, shard) != m->node || count > m->runs[shard].synced ||
        count < m->runs[shard].have[from])
        return;
    m->runs[shard].have[from] = count;
    tell_stored(m, shard);
    if (count < m->runs[shard].synced)
        send_updates(m, shard, from);
}

/* A score, as of the updates that are stored. One that serves a view that the others have left, and
 * does not know it yet, gives an old one. */
static void on_read(struct machine *m, uint32_t client, struct reading *words)
{
    uint32_t shard = take(words), player = take(words);
    if (words->over || shard >= shard_count(m) || player >= PLAYERS)
        return;
    if (first_member(m, shard) != m->node) {
        send_moved(m, client, shard);
        return;
    }
    struct writing answer = begin(m, SCORE, 0);
    put(&answer, shard);
    put(&answer, player);
    put(&answer, m->runs[shard].store.scores[player]);
    put(&answer, m->runs[shard].store.numbers[client]);
    finish(m, CLIENTS_AT + client, &answer);
}

void serve_message(struct machine *m, uint32_t from, uint32_t kind, struct reading *words)
{
    int client = from >= CLIENTS_AT && from < CLIENTS_AT + CLIENTS;
    if (kind == WRITE && client)
        on_write(m, from - CLIENTS_AT, words);
    else if (kind == READ && client)
        on_read(m, from - CLIENTS_AT, words);
    else if (kind == STORE && from < RESTART_NODES)
        on_store(m, from, words);
    else if (kind == HAVE && from < RESTART_NODES)
        on_have(m, from, words);
}
