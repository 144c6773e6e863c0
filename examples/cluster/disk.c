/* What stands on a machine's disk: the small file with its views, the order of a finished copy, the
 * tag and the logs. cluster.h says what each is for. */
#include "cluster.h"

#include <string.h>

enum {
    VIEWS_MAGIC = 0x77656976, /* "view" */
    ORDER_MAGIC = 0x6564726f, /* "orde" */
    LOG_MAGIC = 0x20676f6c,   /* "log " */
    VIEW_WORDS = 6 + 5 * RESTART_SHARDS + 2 * CLUSTER_VIEWS,
    FILE_WORDS = 8 + 2 * VIEW_WORDS
};

/* ---- The store ---- */

void store_apply(struct store *store, const struct update *update)
{
    const uint32_t words[6] = {update->at.view, update->at.k,   update->client,
                               update->number,  update->player, update->score};
    store->end = update->at;
    store->count++;
    for (int i = 0; i < 6; i++)
        store->sum = (store->sum ^ words[i]) * UINT64_C(1099511628211);
    if (update->player < PLAYERS)
        store->scores[update->player] = update->score;
    if (update->client < CLIENTS && update->number > store->numbers[update->client])
        store->numbers[update->client] = update->number;
}

void put_store(struct writing *words, const struct store *store)
{
    put(words, store->end.view);
    put(words, store->end.k);
    put(words, store->count);
    put(words, (uint32_t)store->sum);
    put(words, (uint32_t)(store->sum >> 32));
    for (int i = 0; i < PLAYERS; i++)
        put(words, store->scores[i]);
    for (int i = 0; i < CLIENTS; i++)
        put(words, store->numbers[i]);
}

void take_store(struct reading *words, struct store *store)
{
    store->end.view = take(words);
    store->end.k = take(words);
    store->count = take(words);
    store->sum = take(words);
    store->sum |= (uint64_t)take(words) << 32;
    for (int i = 0; i < PLAYERS; i++)
        store->scores[i] = take(words);
    for (int i = 0; i < CLIENTS; i++)
        store->numbers[i] = take(words);
}

/* ---- Updates ---- */

/* Of the last six words put or taken, and the shard. */
static uint32_t update_sum(const uint8_t *bytes, uint32_t shard)
{
    return sum_of(bytes, 4 * (UPDATE_WORDS - 1)) ^ shard * UINT32_C(2654435761);
}

void put_update(struct writing *words, uint32_t shard, const struct update *update)
{
    uint8_t bytes[4 * UPDATE_WORDS];
    struct writing own = writing_to(bytes, sizeof bytes);
    put(&own, update->at.view);
    put(&own, update->at.k);
    put(&own, update->client);
    put(&own, update->number);
    put(&own, update->player);
    put(&own, update->score);
    put(&own, update_sum(bytes, shard));
    for (size_t i = 0; i < UPDATE_WORDS; i++)
        put(words, restart_get_word(bytes, i));
}

int take_update(struct reading *words, uint32_t shard, struct update *update)
{
    const uint8_t *bytes = words->bytes + 4 * words->count;
    update->at.view = take(words);
    update->at.k = take(words);
    update->client = take(words);
    update->number = take(words);
    update->player = take(words);
    update->score = take(words);
    uint32_t sum = take(words);
    return !words->over && sum == update_sum(bytes, shard);
}

/* Whether `next` can stand behind `first` in a log. */
int follows(struct restart_position first, struct restart_position next)
{
    return next.view == first.view ? next.k == first.k + 1 : next.view > first.view && next.k == 1;
}

/* ---- Logs ---- */

void log_name(char name[LOG_NAME], uint32_t shard, uint32_t slot)
{
    memcpy(name, "log-00-a", 9);
    name[4] = (char)('0' + shard / 10 % 10);
    name[5] = (char)('0' + shard % 10);
    name[7] = slot ? 'b' : 'a';
}

uint64_t log_length(uint32_t updates)
{
    return 4 * ((uint64_t)LOG_HEAD_WORDS + (uint64_t)UPDATE_WORDS * updates);
}

int file_there(const struct world *world, const char *name)
{
    uint8_t byte;
    return world->read(world->self, name, 0, &byte, 0) >= 0;
}

/* A log that has nothing but this store. */
void log_begin(const struct world *world, const char *name, uint32_t shard,
               const struct store *store)
{
    uint8_t bytes[4 * LOG_HEAD_WORDS];
    struct writing words = writing_to(bytes, sizeof bytes);
    put(&words, LOG_MAGIC);
    put(&words, shard);
    put_store(&words, store);
    put(&words, sum_of(bytes, 4 * words.count));
    if (file_there(world, name))
        world->remove(world->self, name);
    world->append(world->self, name, bytes, sizeof bytes);
}

void log_append(const struct world *world, const char *name, uint32_t shard,
                const struct update *updates, uint32_t count)
{
    uint8_t bytes[4 * UPDATE_WORDS * BATCH];
    struct writing words = writing_to(bytes, sizeof bytes);
    for (uint32_t i = 0; i < count; i++)
        put_update(&words, shard, &updates[i]);
    if (count > 0)
        world->append(world->self, name, bytes, 4 * words.count);
}

static int log_head(const struct world *world, const char *name, uint32_t shard,
                    struct store *store)
{
    uint8_t bytes[4 * LOG_HEAD_WORDS];
    if (world->read(world->self, name, 0, bytes, sizeof bytes) != (long)sizeof bytes)
        return 0;
    struct reading words = reading_of(bytes, sizeof bytes);
    if (take(&words) != LOG_MAGIC || take(&words) != shard)
        return 0;
    take_store(&words, store);
    return take(&words) == sum_of(bytes, sizeof bytes - 4);
}

uint32_t log_updates(const struct world *world, const char *name, uint32_t shard, uint64_t index,
                     struct update *updates, uint32_t most)
{
    uint8_t bytes[4 * UPDATE_WORDS * BATCH];
    uint64_t at = 4 * (LOG_HEAD_WORDS + UPDATE_WORDS * index);
    if (most > BATCH)
        most = BATCH;
    long length = world->read(world->self, name, at, bytes, 4 * UPDATE_WORDS * (size_t)most);
    uint32_t there = length > 0 ? (uint32_t)length / (4 * UPDATE_WORDS) : 0, count = 0;
    struct reading words = reading_of(bytes, 4 * UPDATE_WORDS * (size_t)there);
    while (count < there &&
           (take_update(&words, shard, &updates[count]) || !KEEPS(world, LEAVE_TORN)))
        count++;
    return count;
}

int log_read(const struct world *world, const char *name, uint32_t shard,
             struct restart_position base, uint32_t view, struct store *store,
             struct log_size *size)
{
    struct update updates[BATCH];
    memset(size, 0, sizeof *size);
    if (!log_head(world, name, shard, store))
        return 0;
    size->packed = store->count;
    struct restart_position last = store->end;
    for (uint32_t index = 0, count = BATCH; count == BATCH; index += count) {
        count = log_updates(world, name, shard, index, updates, BATCH);
        for (uint32_t i = 0; i < count; i++) {
            if (!KEEPS(world, LEAVE_TORN) && !after(base, last))
                updates[i].at = (struct restart_position){view, size->behind + 1};
            struct restart_position at = updates[i].at;
            if (!follows(last, at) || (after(at, base) && (after(base, last) || at.view != view)))
                return same(store->end, base);
            last = at;
            if (after(at, base)) {
                size->behind++;
            } else {
                store_apply(store, &updates[i]);
                size->before++;
            }
        }
    }
    return same(store->end, base);
}

int log_find(const struct world *world, const char *name, uint32_t shard,
             struct restart_position position, uint32_t updates, struct store *store,
             uint32_t *index)
{
    uint32_t low = 0, high = updates;
    *index = 0;
    if (!log_head(world, name, shard, store))
        return 0;
    if (!after(position, store->end))
        return same(position, store->end) ? LOG_FOUND : LOG_PACKED;
    while (low < high) {
        struct update update;
        uint32_t middle = low + (high - low) / 2;
        if (log_updates(world, name, shard, middle, &update, 1) != 1)
            return 0;
        *index = middle + 1;
        if (same(update.at, position))
            return LOG_FOUND;
        if (after(update.at, position))
            high = middle;
        else
            low = middle + 1;
    }
    return 0;
}

/* ---- Views ---- */

static void put_view(struct writing *words, const struct view *view)
{
    put(words, view->number);
    put(words, view->members);
    put(words, view->logs);
    put(words, view->slots);
    put(words, view->terminated);
    for (int s = 0; s < RESTART_SHARDS; s++) {
        put(words, view->masks[s]);
        put(words, view->base[s].view);
        put(words, view->base[s].k);
        put(words, view->termination[s].view);
        put(words, view->termination[s].k);
    }
    put(words, view->before);
    for (uint32_t i = 0; i < view->before; i++) {
        put(words, view->list[i][0]);
        put(words, view->list[i][1]);
    }
}

static void take_view(struct reading *words, struct view *view)
{
    view->number = take(words);
    view->members = take(words);
    view->logs = take(words);
    view->slots = take(words);
    view->terminated = take(words);
    for (int s = 0; s < RESTART_SHARDS; s++) {
        view->masks[s] = take(words);
        view->base[s].view = take(words);
        view->base[s].k = take(words);
        view->termination[s].view = take(words);
        view->termination[s].k = take(words);
    }
    view->before = take(words);
    if (view->before > CLUSTER_VIEWS)
        words->over = 1;
    for (uint32_t i = 0; i < view->before && !words->over; i++) {
        view->list[i][0] = take(words);
        view->list[i][1] = take(words);
    }
}

/* A file of two views, of which the second may be none, and a tag, under a sum. */
static void write_file(const struct world *world, const char *name, uint32_t magic,
                       const struct view *first, const struct view *second, uint64_t tag)
{
    uint8_t bytes[4 * FILE_WORDS];
    struct writing words = writing_to(bytes, sizeof bytes);
    put(&words, magic);
    put(&words, (uint32_t)tag);
    put(&words, (uint32_t)(tag >> 32));
    put_view(&words, first);
    put(&words, second != NULL && second->number != 0);
    if (second != NULL && second->number != 0)
        put_view(&words, second);
    put(&words, sum_of(bytes, 4 * words.count));
    world->replace(world->self, name, bytes, 4 * words.count);
}

static int read_file(const struct world *world, const char *name, uint32_t magic,
                     struct view *first, struct view *second, uint64_t *tag)
{
    uint8_t bytes[4 * FILE_WORDS];
    long length = world->read(world->self, name, 0, bytes, sizeof bytes);
    if (length < 8 || length % 4 != 0)
        return 0;
    struct reading words = reading_of(bytes, (size_t)length);
    if (restart_get_word(bytes, words.most - 1) != sum_of(bytes, (size_t)length - 4) ||
        take(&words) != magic)
        return 0;
    *tag = take(&words);
    *tag |= (uint64_t)take(&words) << 32;
    take_view(&words, first);
    if (take(&words) == 1 && second != NULL)
        take_view(&words, second);
    else if (second != NULL)
        second->number = 0;
    return !words.over && words.count + 1 == words.most;
}

int views_read(const struct world *world, struct view *sure, struct view *open, uint64_t *open_tag)
{
    return read_file(world, "views", VIEWS_MAGIC, sure, open, open_tag);
}

void views_write(const struct world *world, const struct view *sure, const struct view *open,
                 uint64_t open_tag)
{
    write_file(world, "views", VIEWS_MAGIC, sure, open, open_tag);
}

int order_read(const struct world *world, struct view *next, uint64_t *tag)
{
    return read_file(world, "order", ORDER_MAGIC, next, NULL, tag);
}

void order_write(const struct world *world, const struct view *next, uint64_t tag)
{
    write_file(world, "order", ORDER_MAGIC, next, NULL, tag);
}

uint64_t tag_read(const struct world *world)
{
    uint8_t bytes[8];
    if (world->read(world->self, "tag", 0, bytes, sizeof bytes) != (long)sizeof bytes)
        return 0;
    return restart_get_word(bytes, 0) | (uint64_t)restart_get_word(bytes, 1) << 32;
}

void tag_write(const struct world *world, uint64_t tag)
{
    uint8_t bytes[8];
    restart_put_word(bytes, 0, (uint32_t)tag);
    restart_put_word(bytes, 1, (uint32_t)(tag >> 32));
    world->replace(world->self, "tag", bytes, sizeof bytes);
}

/* ---- Texts ---- */

const char *place_text(int place)
{
#define PLACE(name, text) text,
    static const char *const texts[] = {ALL_PLACES(PLACE)};
#undef PLACE
    return place >= 0 && place < PLACES ? texts[place] : "no such step";
}

const char *leave_text(int leave)
{
#define LEAVE(name, text) text,
    static const char *const texts[] = {ALL_LEAVES(LEAVE)};
#undef LEAVE
    return leave >= 0 && leave < LEAVES ? texts[leave] : "nothing";
}
