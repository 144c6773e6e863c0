#include "model.h"
#include "course.h"

#include <stdlib.h>
#include <string.h>

enum { MOST_VIEWS = 256 };

/* An update that a client wrote. */
struct written {
    uint32_t shard, player, score;
    bool sent, acked, kept; /* kept: in the log with which the last view began */
};

/* The log of a shard with which the last view began. */
struct trunk {
    struct update *updates;
    uint32_t count, room;
    struct store store;
};

/* An acknowledged update that no later view has begun with. */
struct acked {
    uint32_t client, number;
};

static struct {
    struct seen views[MOST_VIEWS];
    uint32_t count;
    struct trunk trunks[RESTART_SHARDS];
    struct written *written[CLIENTS];
    uint32_t numbers[CLIENTS]; /* room of each */
    struct acked *acked[RESTART_SHARDS];
    uint32_t acks[RESTART_SHARDS], acks_room[RESTART_SHARDS];
    uint32_t unread; /* shards whose log at the last view's beginning no member could show */
    struct {
        uint32_t sure, open, open_members;
    } told[RESTART_NODES]; /* what the log has been told of each disk */
} model;

static void *room_for(void *old, size_t bytes)
{
    void *room = realloc(old, bytes ? bytes : 1);
    if (!room) {
        fputs("simulate: no memory\n", stderr);
        exit(2);
    }
    return room;
}

void model_begin(void)
{
    struct seen *first = &model.views[0];
    memset(first, 0, sizeof *first);
    memset(model.told, 0, sizeof model.told);
    model.count = 1;
    model.unread = 0;
    first->number = 1;
    first->members = UINT32_MAX >> (RESTART_NODES - layout.nodes);
    memcpy(first->masks, layout.first, sizeof first->masks);
    for (uint32_t n = 0; n < RESTART_NODES; n++)
        model.told[n].sure = 1;
    for (uint32_t s = 0; s < RESTART_SHARDS; s++) {
        model.trunks[s].count = 0;
        model.acks[s] = 0;
        memset(&model.trunks[s].store, 0, sizeof model.trunks[s].store);
    }
    for (uint32_t c = 0; c < CLIENTS; c++)
        if (model.numbers[c])
            memset(model.written[c], 0, model.numbers[c] * sizeof *model.written[c]);
}

const struct seen *model_last(void)
{
    return &model.views[model.count - 1];
}

const struct seen *model_view(uint32_t index)
{
    return &model.views[index];
}

uint32_t model_count(void)
{
    return model.count;
}

uint32_t model_unlisted(uint32_t number, uint32_t members)
{
    for (uint32_t i = 0; i < model.count; i++)
        if (model.views[i].number == number && model.views[i].members == members)
            return 0;
    return 1;
}

/* ---- Clients ---- */

static struct written *written_by(uint32_t client, uint32_t number)
{
    if (client >= CLIENTS || number > 1u << 20)
        return NULL;
    if (number >= model.numbers[client]) {
        uint32_t room = number * 2 + 64;
        model.written[client] =
            room_for(model.written[client], room * sizeof *model.written[client]);
        memset(model.written[client] + model.numbers[client], 0,
               (room - model.numbers[client]) * sizeof *model.written[client]);
        model.numbers[client] = room;
    }
    return &model.written[client][number];
}

void model_written(uint32_t client, uint32_t shard, uint32_t number, uint32_t player,
                   uint32_t score)
{
    struct written *written = written_by(client, number);
    if (written && !written->sent)
        *written = (struct written){shard, player, score, true, false, false};
}

void model_acked(uint32_t client, uint32_t shard, uint32_t number)
{
    struct written *written = written_by(client, number);
    if (!written || !written->sent || written->shard != shard) {
        found(CHANGED, "client %u is told of update %u of shard %u, which it never wrote", client,
              number, shard);
        return;
    }
    if (written->acked)
        return;
    written->acked = true;
    counts.acked++;
    tell(CLIENTS_AT + client, "ack %u %u.%u", shard, client, number);
    if (written->kept)
        return;
    if (model.acks[shard] == model.acks_room[shard]) {
        model.acks_room[shard] = model.acks_room[shard] * 2 + 16;
        model.acked[shard] =
            room_for(model.acked[shard], model.acks_room[shard] * sizeof *model.acked[shard]);
    }
    model.acked[shard][model.acks[shard]++] = (struct acked){client, number};
}

/* ---- Logs ---- */

static bool equal(const struct update *a, const struct update *b)
{
    return same(a->at, b->at) && a->client == b->client && a->number == b->number &&
           a->player == b->player && a->score == b->score;
}

static bool equal_stores(const struct store *a, const struct store *b)
{
    return same(a->end, b->end) && a->count == b->count && a->sum == b->sum &&
           !memcmp(a->scores, b->scores, sizeof a->scores) &&
           !memcmp(a->numbers, b->numbers, sizeof a->numbers);
}

static bool right_contents(uint32_t shard, const struct update *update)
{
    struct written *written = written_by(update->client, update->number);
    return written && written->sent && written->shard == shard &&
           written->player == update->player && written->score == update->score;
}

/* A machine's log of a shard in a view: what lies up to its base, packed or not, and what follows. */
struct read {
    struct store store; /* up to the base */
    struct log_size size;
    struct update *updates; /* that the file has */
    uint32_t count;
};

static bool read_log(uint32_t machine, const struct view *view, uint32_t shard, struct read *read)
{
    static struct update *updates;
    static uint32_t room;
    const struct world *world = synced_disk(machine);
    char name[LOG_NAME];
    log_name(name, shard, view->slots >> shard & 1);
    memset(&read->store, 0, sizeof read->store);
    if (!log_read(world, name, shard, view->base[shard], view->number, &read->store, &read->size))
        return false;
    read->count = read->size.before + read->size.behind;
    if (room < read->count + BATCH) {
        room = 2 * read->count + 2 * BATCH;
        updates = room_for(updates, room * sizeof *updates);
    }
    read->updates = updates;
    for (uint32_t at = 0; at < read->count;) {
        uint32_t some = log_updates(world, name, shard, at, updates + at, BATCH);
        if (!some)
            return false;
        at += some;
    }
    return true;
}

/* Where an acknowledged update is missing from a log that ought to have it. */
static void say_lost(uint32_t machine, uint32_t shard, uint32_t view)
{
    for (uint32_t i = 0; i < model.acks[shard]; i++) {
        struct acked *a = &model.acked[shard][i];
        struct written *written = written_by(a->client, a->number);
        if (!written->kept)
            found(LOST,
                  "update %u.%u of shard %u was told to be stored and is not in the log of machine "
                  "%u under view %u",
                  a->client, a->number, shard, machine, view);
    }
}

/* The log with which a view begins on one of its members. The first member that is looked at says what
 * was stored last; the others must have the same. */
static void look_at_beginning(uint32_t machine, const struct view *view, uint32_t shard,
                              const struct seen *before, bool first)
{
    struct trunk *trunk = &model.trunks[shard];
    struct read read;
    if (!read_log(machine, view, shard, &read)) {
        if (model.acks[shard] || trunk->count)
            found(LOST, "machine %u has no log of shard %u under view %u", machine, shard,
                  view->number);
        else
            found(LACKING, "machine %u has no log of shard %u under view %u", machine, shard,
                  view->number);
        return;
    }
    /* what the file has of the view before is new to the model, if this machine is the first */
    uint32_t run = 0, old = 0;
    for (uint32_t i = 0; i < read.size.before; i++) {
        const struct update *update = &read.updates[i];
        if (update->at.view >= before->number) {
            run++;
            if (first && update->at.view == before->number) {
                struct written *written = written_by(update->client, update->number);
                if (!right_contents(shard, update))
                    found(CHANGED,
                          "machine %u has at (%u, %u) of shard %u what no client ever wrote",
                          machine, update->at.view, update->at.k, shard);
                else if (written->kept)
                    found(CHANGED, "update %u.%u is twice in the log of shard %u", update->client,
                          update->number, shard);
                else
                    written->kept = true;
                if (trunk->count == trunk->room) {
                    trunk->room = trunk->room * 2 + 64;
                    trunk->updates = room_for(trunk->updates, trunk->room * sizeof *trunk->updates);
                }
                trunk->updates[trunk->count++] = *update;
                store_apply(&trunk->store, update);
            }
        } else {
            old++;
        }
    }
    if (first)
        say_lost(machine, shard, view->number);
    if (equal_stores(&read.store, &trunk->store)) {
        uint32_t from = trunk->count - run - old;
        for (uint32_t i = 0; i < run + old && trunk->count >= run + old; i++)
            if (!equal(&read.updates[i], &trunk->updates[from + i]))
                found(CHANGED, "machine %u has another update at (%u, %u) of shard %u", machine,
                      read.updates[i].at.view, read.updates[i].at.k, shard);
        return;
    }
    /* which harm it is */
    if (read.store.count < trunk->store.count) {
        uint32_t missing = read.store.count < trunk->count ? read.store.count : 0;
        const struct update *update = &trunk->updates[missing];
        struct written *written = written_by(update->client, update->number);
        found(written->acked ? LOST : CHANGED,
              "update %u.%u of shard %u is not in the log of machine %u under view %u, which ends "
              "at (%u, %u)",
              update->client, update->number, shard, machine, view->number, read.store.end.view,
              read.store.end.k);
    } else if (read.store.count > trunk->store.count) {
        found(
            BACK,
            "machine %u has updates of shard %u under view %u that a later view had thrown out or "
            "other members do not have; its log ends at (%u, %u), theirs at (%u, %u)",
            machine, shard, view->number, read.store.end.view, read.store.end.k,
            trunk->store.end.view, trunk->store.end.k);
    } else {
        found(CHANGED, "the log of shard %u on machine %u under view %u is another one", shard,
              machine, view->number);
    }
}

static uint32_t bits(uint32_t mask)
{
    uint32_t count = 0;
    for (; mask; mask &= mask - 1)
        count++;
    return count;
}

static bool fits(const struct layout *settings, const struct seen *view)
{
    for (uint32_t s = 0; s < layout.shards; s++)
        if (!layout_fits(settings, s, view->masks[s]))
            return false;
    return true;
}

static void look_at_places(const struct seen *view, const struct seen *before)
{
    uint32_t used[RESTART_SUBGROUPS] = {0};
    bool fit = fits(&layout, view);
    for (uint32_t i = 0; i < formers && !fit; i++)
        fit = fits(&former[i], view); /* it was planned before the settings changed */
    if (2 * bits(view->members & before->members) <= bits(before->members))
        found(UNRULED, "view %u has no more than half of the members of view %u", view->number,
              before->number);
    for (uint32_t s = 0; s < layout.shards; s++) {
        uint32_t *taken = &used[layout.subgroup[s]];
        if (*taken & view->masks[s] || view->masks[s] & ~view->members || !fit)
            found(UNRULED, "shard %u is on machines %x in view %u, against the settings", s,
                  view->masks[s], view->number);
        *taken |= view->masks[s];
    }
}

/* All that was acknowledged stands in the log with which the last view began. */
static void all_kept(uint32_t shard)
{
    counts.looked_up += model.acks[shard];
    model.acks[shard] = 0;
    model.unread &= ~(UINT32_C(1) << shard);
}

/* A view counts from here on. */
static void counts_now(const struct view *view)
{
    const struct seen *before = model_last();
    struct seen next;
    memset(&next, 0, sizeof next);
    next.number = view->number;
    next.members = view->members;
    memcpy(next.masks, view->masks, layout.shards * sizeof *next.masks);
    for (uint32_t i = 0; i < model.count; i++)
        if (model.views[i].number == next.number)
            found(TWO, "two views of number %u count: %x and %x", next.number,
                  model.views[i].members, next.members);
    if (next.number < before->number)
        found(TWO, "view %u = %x counts after view %u", next.number, next.members, before->number);
    look_at_places(&next, before);
    struct seen kept = *before;
    model.unread = 0;
    for (uint32_t s = 0; s < layout.shards; s++) {
        bool first = true;
        if (!next.masks[s] && (model.acks[s] || model.trunks[s].count))
            found(LOST, "no machine has shard %u in view %u", s, next.number);
        for (uint32_t n = 0; n < layout.nodes; n++) {
            static struct view sure, open;
            uint64_t tag;
            if (!(next.masks[s] >> n & 1))
                continue;
            bool there = views_read(synced_disk(n), &sure, &open, &tag);
            const struct view *has = NULL;
            if (there && sure.number == next.number && sure.members == next.members)
                has = &sure;
            else if (there && open.number == next.number && open.members == next.members)
                has = &open;
            if (!has) {
                found(LACKING, "view %u counts, and machine %u of shard %u does not have it",
                      next.number, n, s);
                continue;
            }
            look_at_beginning(n, has, s, &kept, first);
            first = false;
        }
        if (first)
            model.unread |= UINT32_C(1) << s;
        else
            all_kept(s);
    }
    if (model.count == MOST_VIEWS) {
        fputs("simulate: no room for views\n", stderr);
        exit(2);
    }
    model.views[model.count++] = next;
}

int model_views(uint32_t machine)
{
    static struct view sure, open;
    uint64_t tag;
    if (!views_read(synced_disk(machine), &sure, &open, &tag))
        return 0;
    if (model.told[machine].open && model.told[machine].open != open.number &&
        model.told[machine].open != sure.number)
        tell(machine, "forget %u", model.told[machine].open);
    if (sure.number != model.told[machine].sure)
        tell(machine, "sure %u %x", sure.number, sure.members);
    if (open.number && (open.number != model.told[machine].open ||
                        open.members != model.told[machine].open_members))
        tell(machine, "open %u %x", open.number, open.members);
    model.told[machine].sure = sure.number;
    model.told[machine].open = open.number;
    model.told[machine].open_members = open.number ? open.members : 0;
    const struct seen *last = model_last();
    if (model_unlisted(sure.number, sure.members)) {
        tell(ALL, "counts %u %x", sure.number, sure.members);
        counts_now(&sure);
        return 1;
    }
    for (uint32_t s = 0; s < layout.shards && sure.number == last->number; s++)
        if (model.unread >> s & 1 && last->masks[s] >> machine & 1) {
            look_at_beginning(machine, &sure, s, last - 1, true);
            all_kept(s);
        }
    return 0;
}

void model_copied(uint32_t machine, const struct view *next, const struct restart_task *task)
{
    static struct view sure, open;
    uint64_t tag;
    for (uint32_t s = 0; s < layout.shards; s++) {
        const struct restart_shard *order = &task->shard[s];
        struct read own;
        struct store held;
        if (!order->carried || !views_read(synced_disk(order->holder), &sure, &open, &tag) ||
            sure.number + 1 != next->number || !(sure.logs >> s & 1))
            continue;
        struct read its;
        if (!read_log(order->holder, &sure, s, &its))
            continue;
        /* the holder's log up to the target */
        held = its.store;
        uint32_t has = 0;
        for (uint32_t i = its.size.before; i < its.count && order->target.view; i++)
            if (!after(its.updates[i].at, order->target)) {
                store_apply(&held, &its.updates[i]);
                has++;
            }
        if (!read_log(machine, next, s, &own) || !equal_stores(&own.store, &held))
            found(COPIED_WRONG,
                  "what machine %u kept and fetched of shard %u is not the log of machine %u up to "
                  "(%u, %u)",
                  machine, s, order->holder, order->target.view, order->target.k);
        counts.copies++;
    }
}

void model_all(void)
{
    static struct update *theirs;
    static uint32_t room;
    const struct seen *last = model_last();
    for (uint32_t s = 0; s < layout.shards; s++) {
        uint32_t most = 0, least = UINT32_MAX;
        for (uint32_t n = 0; n < layout.nodes; n++) {
            static struct view sure, open;
            uint64_t tag;
            struct read read;
            if (!(last->masks[s] >> n & 1) || !views_read(synced_disk(n), &sure, &open, &tag) ||
                sure.number != last->number || model.unread >> s & 1)
                continue;
            if (!read_log(n, &sure, s, &read) ||
                !equal_stores(&read.store, &model.trunks[s].store)) {
                found(CHANGED, "the log of shard %u on machine %u is not what view %u began with",
                      s, n, last->number);
                continue;
            }
            const struct update *run = read.updates + read.size.before;
            uint32_t count = read.size.behind;
            if (room < count) {
                room = 2 * count;
                theirs = room_for(theirs, room * sizeof *theirs);
            }
            for (uint32_t i = 0; i < count && i < most; i++)
                if (!equal(&run[i], &theirs[i]))
                    found(CHANGED, "machine %u has another update at (%u, %u) of shard %u", n,
                          run[i].at.view, run[i].at.k, s);
            for (uint32_t i = most; i < count; i++)
                theirs[i] = run[i];
            most = count > most ? count : most;
            least = count < least ? count : least;
        }
        /* what was acknowledged is among what all of them have */
        for (uint32_t i = 0; least != UINT32_MAX && i < model.acks[s]; i++) {
            const struct acked *a = &model.acked[s][i];
            uint32_t at = 0;
            counts.looked_up++;
            while (at < least && (theirs[at].client != a->client || theirs[at].number != a->number))
                at++;
            if (at == least)
                found(LOST,
                      "update %u.%u of shard %u was told to be stored, and not all members have it "
                      "under view %u",
                      a->client, a->number, s, last->number);
            else if (!right_contents(s, &theirs[at]))
                found(CHANGED, "update %u.%u of shard %u has other contents", a->client, a->number,
                      s);
        }
    }
}
