/*
 * A machine of the store. "Line n" is line n of "A machine" in restart(3), PERSISTENCE; "duty n" is in
 * docs/ASSUMPTIONS.md.
 */
#include "machine.h"

#include <string.h>

static void send_plain(struct machine *m, uint32_t to, uint32_t kind)
{
    struct writing words = begin(m, kind, m->tag);
    finish(m, to, &words);
}

static void send_hello(struct machine *m, uint32_t to)
{
    struct writing words = begin(m, HELLO, m->tag);
    put(&words, m->serving       ? SERVING
                : m->open.number ? OPEN
                : m->copied      ? COPIED
                : m->copying     ? COPYING
                : m->tag         ? ASKED
                                 : IDLE);
    finish(m, to, &words);
}

static void put_list(struct writing *words, const struct view *view)
{
    put(words, view->number);
    put(words, view->members);
    put(words, view->number ? view->before : 0);
    for (uint32_t i = 0; view->number && i < view->before; i++) {
        put(words, view->list[i][0]);
        put(words, view->list[i][1]);
    }
}

static void send_views(struct machine *m, uint32_t to)
{
    struct writing words = begin(m, VIEWS, m->tag);
    put_list(&words, &m->sure);
    put_list(&words, &m->open);
    finish(m, to, &words);
}

/* ---- Disk ---- */

/* Removes every log that no view has: those of an unfinished copy, of a view that was forgotten and of
 * the view before the sure one. */
static void sweep(struct machine *m)
{
    for (uint32_t s = 0; s < RESTART_SHARDS; s++)
        for (uint32_t slot = 0; slot < 2; slot++) {
            char name[LOG_NAME];
            log_name(name, s, slot);
            int used = (carries(&m->sure, s) && (m->sure.slots >> s & 1) == slot) ||
                       (carries(&m->open, s) && (m->open.slots >> s & 1) == slot) ||
                       ((m->copying || m->copied) && carries(&m->next, s) &&
                        (m->next.slots >> s & 1) == slot);
            if (!used && file_there(&m->world, name))
                m->world.remove(m->world.self, name);
        }
}

/* Line 4: a copy that is unfinished or not prepared goes. Without its order it is unfinished. */
static void delete_copy(struct machine *m)
{
    if (!KEEPS(&m->world, LEAVE_COPY_DELETED))
        return;
    if (m->copied)
        m->world.remove(m->world.self, "order");
    m->copying = m->copied = 0;
    sweep(m);
}

/* Reads the logs of the sure view. What was torn at their ends goes; what is left may not have been
 * synced before the stop, and is now, for it will be reported (duty 6). Torn are only updates of the
 * sure view: all before them was on disk when the view was made. If it is not there, the disk is
 * damaged. */
static void load_logs(struct machine *m)
{
    for (uint32_t s = 0; s < RESTART_SHARDS; s++) {
        struct run *run = &m->runs[s];
        struct log_size size;
        char name[LOG_NAME];
        memset(run, 0, sizeof *run);
        if (!carries(&m->sure, s))
            continue;
        name_of(name, &m->sure, s);
        if (!log_read(&m->world, name, s, m->sure.base[s], m->sure.number, &run->store, &size)) {
            say(m, "shard %u: %s is damaged, this machine stays away", s, name);
            m->damaged = 1;
            return;
        }
        m->world.truncate(m->world.self, name, log_length(size.before + size.behind));
        m->world.sync(m->world.self, name);
        run->before = size.before;
        run->count = run->synced = size.behind;
        memcpy(run->numbers, run->store.numbers, sizeof run->numbers);
    }
}

/* Lines 7 and 8: the open view becomes the sure one, on disk; only then the logs of the view before
 * it go (duty 15). */
static void make_sure(struct machine *m)
{
    m->sure = m->open;
    m->open.number = 0;
    m->open_tag = 0;
    views_write(&m->world, &m->sure, &m->open, 0);
    at(m, AT_VIEW_SURE);
    sweep(m);
    at(m, AT_LOGS_GONE);
    load_logs(m);
    say(m, "view %u is sure", m->sure.number);
}

/* ---- Start ---- */

int first_masks(const uint8_t *settings, size_t settings_len, uint32_t masks[RESTART_SHARDS])
{
    uint32_t used[RESTART_SUBGROUPS] = {0};
    memset(masks, 0, RESTART_SHARDS * sizeof *masks);
    if (restart_check_settings(settings, settings_len) != RESTART_ACCEPTED)
        return 0;
    uint32_t nodes = restart_get_word(settings, 0), shards = restart_get_word(settings, 3);
    for (uint32_t s = 0; s < shards; s++) {
        uint32_t word = restart_get_word(settings, 4 + nodes + s);
        uint32_t *taken = &used[word / 256 % 256], sets = 0, left = word % 256;
        for (uint32_t n = 0; n < nodes && left > 0; n++) {
            uint32_t set = UINT32_C(1) << restart_get_word(settings, 4 + n);
            if ((*taken >> n & 1) || (sets & set))
                continue;
            *taken |= UINT32_C(1) << n;
            masks[s] |= UINT32_C(1) << n;
            sets |= set;
            left--;
        }
        if (masks[s] == 0)
            return 0;
    }
    return 1;
}

/* Line 2. The logs are there before the view that has them. */
int machine_format(const struct world *world, const uint8_t *settings, size_t settings_len,
                   uint32_t node, const uint32_t masks[RESTART_SHARDS])
{
    static const struct store nothing;
    struct view sure, open;
    if (restart_check_settings(settings, settings_len) != RESTART_ACCEPTED ||
        node >= restart_get_word(settings, 0) || file_there(world, "views"))
        return 0;
    memset(&sure, 0, sizeof sure);
    open.number = 0;
    sure.number = 1;
    sure.members = UINT32_MAX >> (RESTART_NODES - restart_get_word(settings, 0));
    for (uint32_t s = 0; s < restart_get_word(settings, 3); s++) {
        sure.masks[s] = masks[s];
        if (masks[s] >> node & 1) {
            char name[LOG_NAME];
            sure.logs |= UINT32_C(1) << s;
            log_name(name, s, 0);
            log_begin(world, name, s, &nothing);
            world->sync(world->self, name);
        }
    }
    views_write(world, &sure, &open, 0);
    return 1;
}

/* Line 3: it does not serve. Its tag is the last that it took, so that late messages of an earlier
 * attempt do nothing (duty 2). */
int machine_start(struct machine *m, const struct world *world, struct times times,
                  const uint8_t *settings, size_t settings_len, uint32_t node)
{
    memset(m, 0, sizeof *m);
    m->world = *world;
    m->times = times;
    m->node = node;
    m->damaged = 1;
    if (restart_check_settings(settings, settings_len) != RESTART_ACCEPTED)
        return 0;
    memcpy(m->settings, settings, settings_len);
    m->settings_len = settings_len;
    if (!views_read(world, &m->sure, &m->open, &m->open_tag)) {
        say(m, "no view on disk, this machine stays away");
        return 0;
    }
    m->damaged = 0;
    m->tag = tag_read(world);
    m->copied = !m->open.number && order_read(world, &m->next, &m->copy_tag) &&
                m->next.number > m->sure.number;
    if (!KEEPS(world, LEAVE_TAG_KEPT))
        m->tag = m->open.number ? m->open_tag : m->copied ? m->copy_tag : 0;
    if (!m->copied && file_there(world, "order"))
        world->remove(world->self, "order");
    sweep(m);
    load_logs(m);
    if (m->damaged)
        return 0;
    if (!KEEPS(world, LEAVE_VIEW_ONCE) && !m->open.number)
        m->serving = 1;
    at(m, AT_MACHINE_STARTED);
    return 1;
}

/* ---- A restart: lines 4 to 9 ---- */

static void stop_serving(struct machine *m)
{
    for (uint32_t s = 0; s < RESTART_SHARDS; s++)
        if (m->runs[s].count > m->runs[s].synced) {
            char name[LOG_NAME];
            name_of(name, &m->sure, s);
            m->world.sync(m->world.self, name);
            m->runs[s].synced = m->runs[s].count;
        }
    m->serving = m->may_serve = 0;
    at(m, AT_STOPPED_SERVING);
}

/* Line 4. Of two leaders the one with the greater tag is obeyed, and the other one is told. */
static void on_ask(struct machine *m, uint32_t from, uint64_t tag)
{
    if (tag < m->tag && KEEPS(&m->world, LEAVE_TAGS)) {
        send_hello(m, from);
        return;
    }
    m->leader = from;
    if (tag != m->tag) {
        stop_serving(m);
        delete_copy(m);
        at(m, AT_COPY_DELETED);
        m->tag = tag;
        tag_write(&m->world, tag);
        at(m, AT_TAG_TAKEN);
    } else if (m->serving || m->copying || m->copied || (m->open.number && m->open_tag == tag)) {
        return; /* the question came twice, and the second one late */
    }
    send_views(m, from);
}

/* Line 9 and Long logs 1, 2 (duties 6, 7): of each shard that it carries the run of its view. */
static void send_report(struct machine *m, uint32_t to, uint32_t serial)
{
    struct restart_draft draft;
    const struct view *v = &m->sure;
    uint8_t report[RESTART_BUFFER_BYTES];
    uint32_t answer =
        restart_draft_begin(&draft, m->settings, m->settings_len, m->node, v->number, v->members);
    for (uint32_t s = 0; s < shard_count(m) && answer == RESTART_ACCEPTED; s++) {
        struct restart_position end = v->termination[s];
        if (end.view < v->number && KEEPS(&m->world, LEAVE_SHORT))
            end = (struct restart_position){0, 0};
        answer = restart_draft_shard(&draft, v->masks[s]);
        if (answer == RESTART_ACCEPTED && v->terminated)
            answer = restart_draft_ended(&draft, end.view, end.k);
        if (answer == RESTART_ACCEPTED && m->runs[s].synced > 0)
            answer = restart_draft_run(&draft, v->number, m->runs[s].synced);
    }
    if (answer == RESTART_ACCEPTED)
        answer = restart_draft_write(&draft, report, sizeof report);
    if (restart_is_refusal(answer)) {
        say(m, "no report: number %u, %s", restart_number_of(answer),
            restart_number_text(restart_number_of(answer)));
        return;
    }
    struct writing words = begin(m, REPORT, m->tag);
    put(&words, serial);
    for (uint32_t i = 0; i < restart_length_of(answer); i++)
        put(&words, restart_get_word(report, i));
    finish(m, to, &words);
    at(m, AT_REPORTED);
}

/* A termination of the sure view, where the leader has made one (duty 14). Of a shard that has nothing
 * of the view it is the end of the base. */
static void terminate(struct machine *m, struct reading *words)
{
    if (m->sure.terminated)
        return;
    for (uint32_t s = 0; s < shard_count(m); s++) {
        uint32_t k = take(words);
        m->sure.termination[s] = k ? (struct restart_position){m->sure.number, k} : m->sure.base[s];
    }
    m->sure.terminated = 1;
    views_write(&m->world, &m->sure, &m->open, m->open_tag);
}

/* Line 8 (duty 16): told what was found of its open view, it does so on disk and reports. */
static void on_found(struct machine *m, uint32_t from, struct reading *words)
{
    uint32_t serial = take(words), found = take(words), number = take(words), members = take(words);
    uint32_t terminated = take(words);
    if (words->over || words->most - words->count < shard_count(m) || m->serving ||
        ((m->copying || m->copied) && m->copy_tag == m->tag))
        return;
    if (m->open.number && m->open_tag == m->tag && KEEPS(&m->world, LEAVE_TAGS))
        return; /* late: it spoke of a view from before this attempt, and this one may be its equal */
    if (m->open.number) {
        if (m->open.number != number || m->open.members != members)
            return; /* it speaks of a view that was forgotten since */
        if (found == RESTART_VIEW_SURE) {
            make_sure(m);
        } else if (found == RESTART_VIEW_NEVER) {
            m->open.number = 0;
            m->open_tag = 0;
            views_write(&m->world, &m->sure, &m->open, 0);
            sweep(m);
            say(m, "view %u was never served and is forgotten", number);
        } else {
            return;
        }
    } else if (found == RESTART_VIEW_NEVER && m->sure.number == number &&
               m->sure.members == members) {
        say(m, "view %u is sure here and never served there: a duty is broken", number);
        return;
    }
    if (terminated == m->sure.number)
        terminate(m, words);
    at(m, AT_SETTLED);
    if (!m->damaged)
        send_report(m, from, serial);
}

/* Asks the holders for what is missing of the copies. */
static void send_fetch(struct machine *m, uint32_t shard)
{
    const struct restart_shard *order = &m->task.shard[shard];
    struct writing words = begin(m, FETCH, m->tag);
    put(&words, shard);
    put(&words, m->copy_end[shard].view);
    put(&words, m->copy_end[shard].k);
    put(&words, order->target.view);
    put(&words, order->target.k);
    finish(m, order->holder, &words);
}

/* Begins the copy of a shard: what the machine keeps, up to the cut (duty 15, Long logs 3). The cut (0,
 * 0) is the end of its base, or the beginning if it has none. Up to the base the copy is packed (Long
 * logs 5). 1, or 0 if the cut is not in its log. */
static int begin_copy(struct machine *m, uint32_t s)
{
    struct restart_position cut = m->task.shard[s].cut;
    struct restart_position target = m->task.shard[s].target;
    struct store store;
    struct log_size size;
    uint32_t keep = 0;
    char old[LOG_NAME], copy[LOG_NAME];
    memset(&store, 0, sizeof store);
    name_of(copy, &m->next, s);
    name_of(old, &m->sure, s);
    if (carries(&m->sure, s) &&
        (KEEPS(&m->world, LEAVE_BASE_TARGET) || target.view != 0 || cut.view != 0)) {
        if (cut.view != 0)
            keep = cut.k;
        else if (!KEEPS(&m->world, LEAVE_BASE_CUT))
            keep = m->runs[s].synced;
        if ((cut.view != 0 && cut.view != m->sure.number) || keep > m->runs[s].synced ||
            !log_read(&m->world, old, s, m->sure.base[s], m->sure.number, &store, &size))
            return 0;
    }
    if (!KEEPS(&m->world, LEAVE_BESIDE) && carries(&m->sure, s)) {
        m->world.truncate(m->world.self, old, log_length(m->runs[s].before + keep));
        m->world.sync(m->world.self, old);
        m->runs[s].count = m->runs[s].synced = keep;
    } else {
        log_begin(&m->world, copy, s, &store);
        for (uint32_t done = 0; done < keep;) {
            struct update updates[BATCH];
            uint32_t most = keep - done < BATCH ? keep - done : BATCH;
            uint32_t count =
                log_updates(&m->world, old, s, m->runs[s].before + done, updates, most);
            if (count == 0)
                return 0;
            log_append(&m->world, copy, s, updates, count);
            done += count;
        }
    }
    m->copy_end[s] = keep ? (struct restart_position){m->sure.number, keep} : store.end;
    if (m->task.shard[s].holder == m->node)
        return target.view == 0 || same(m->copy_end[s], target);
    m->missing |= UINT32_C(1) << s;
    return 1;
}

/* Line 5 (duty 4): the copies are on disk, then the order and its tag, then "fetched" is said. */
static void finish_copy(struct machine *m)
{
    for (uint32_t s = 0; s < shard_count(m); s++)
        if (carries(&m->next, s)) {
            char name[LOG_NAME];
            name_of(name, &m->next, s);
            m->world.sync(m->world.self, name);
            m->next.base[s] = m->copy_end[s];
        }
    at(m, AT_COPY_SYNCED);
    order_write(&m->world, &m->next, m->copy_tag);
    m->copying = 0;
    m->copied = 1;
    at(m, AT_COPY_FINISHED);
    send_plain(m, m->leader, FETCHED);
}

/* The view that the order makes. Its logs lie in the places that the sure view's do not have. */
static void make_next(struct machine *m)
{
    struct view *next = &m->next;
    next->number = m->task.view;
    next->members = m->task.members;
    next->logs = next->slots = next->terminated = 0;
    memset(next->termination, 0, sizeof next->termination);
    for (uint32_t s = 0; s < RESTART_SHARDS; s++) {
        next->masks[s] = m->task.shard[s].members;
        next->base[s] = (struct restart_position){0, 0};
        if (!m->task.shard[s].carried)
            continue;
        next->logs |= UINT32_C(1) << s;
        if (carries(&m->sure, s) && KEEPS(&m->world, LEAVE_BESIDE))
            next->slots |= ~m->sure.slots & UINT32_C(1) << s;
        else
            next->slots |= m->sure.slots & UINT32_C(1) << s;
    }
}

/* Line 5. The kept view's list comes with the order, and the kept view as its last. */
static void on_order(struct machine *m, uint32_t from, struct reading *words)
{
    m->leader = from;
    if (m->copied && m->copy_tag == m->tag)
        send_plain(m, from, FETCHED); /* said before, and not heard */
    if (m->serving || m->open.number || ((m->copying || m->copied) && m->copy_tag == m->tag))
        return;
    uint32_t before = take(words);
    if (before > CLUSTER_VIEWS)
        return;
    m->next.before = before;
    for (uint32_t i = 0; i < before; i++)
        for (int word = 0; word < 2; word++)
            m->next.list[i][word] = take(words);
    if (words->over ||
        restart_read_task(m->settings, m->settings_len, words->bytes + 4 * words->count,
                          4 * (words->most - words->count), &m->task) != RESTART_ACCEPTED ||
        m->task.node != m->node || m->task.view <= m->sure.number)
        return;
    make_next(m);
    m->copy_tag = m->tag;
    m->copying = 1;
    m->copied = 0;
    m->missing = 0;
    for (uint32_t s = 0; s < shard_count(m); s++)
        if (carries(&m->next, s) && !begin_copy(m, s)) {
            say(m, "shard %u: the order's cut is not in the log, a duty is broken", s);
            delete_copy(m);
            return;
        }
    at(m, AT_COPY_BEGUN);
    if (!KEEPS(&m->world, LEAVE_FETCHED_SYNC))
        m->missing = 0;
    for (uint32_t s = 0; s < shard_count(m); s++)
        if (m->missing >> s & 1)
            send_fetch(m, s);
    if (!m->missing)
        finish_copy(m);
}

/* A part of a log, from its holder. */
static void on_data(struct machine *m, uint32_t from, struct reading *words)
{
    uint32_t s = take(words);
    struct restart_position asked;
    asked.view = take(words);
    asked.k = take(words);
    uint32_t last = take(words), packed = take(words), count = 0;
    struct update updates[BATCH];
    if (words->over || !m->copying || s >= shard_count(m) || !(m->missing >> s & 1) ||
        from != m->task.shard[s].holder || !same(asked, m->copy_end[s]))
        return;
    char name[LOG_NAME];
    name_of(name, &m->next, s);
    struct restart_position end = asked;
    struct store store;
    if (packed) {
        take_store(words, &store);
        end = store.end;
    }
    while (count < BATCH && words->count < words->most) {
        if (!take_update(words, s, &updates[count]) || !follows(end, updates[count].at))
            return;
        end = updates[count++].at;
    }
    if (words->over || words->count < words->most)
        return;
    if (packed)
        log_begin(&m->world, name, s, &store);
    log_append(&m->world, name, s, updates, count);
    m->copy_end[s] = end;
    at(m, AT_COPY_PART);
    if (!last && (count > 0 || packed))
        send_fetch(m, s);
    if (!last || (m->task.shard[s].target.view != 0 && !same(end, m->task.shard[s].target)))
        return;
    m->missing &= ~(UINT32_C(1) << s);
    if (!m->missing)
        finish_copy(m);
}

/* Line 6: the order's view becomes the open view, on disk. */
static void on_prepare(struct machine *m, uint32_t from)
{
    if (m->copied) {
        m->open = m->next;
        m->open_tag = m->copy_tag;
        m->copied = 0;
        m->may_serve = 1;
        if (KEEPS(&m->world, LEAVE_PREPARED_SYNC))
            views_write(&m->world, &m->sure, &m->open, m->open_tag);
        m->world.remove(m->world.self, "order");
        at(m, AT_VIEW_OPEN);
    }
    if (m->open.number && (m->open_tag == m->tag || !KEEPS(&m->world, LEAVE_TAGS)))
        send_plain(m, from, PREPARED);
    if (!KEEPS(&m->world, LEAVE_SERVE_LATE) && m->open.number) {
        make_sure(m);
        m->serving = m->may_serve && !m->damaged;
    }
}

/* Line 7 (duty 1). One that stopped since it prepared does not serve: line 3. */
static void on_committed(struct machine *m, uint32_t from, uint64_t tag, struct reading *words)
{
    uint32_t number = take(words), members = take(words);
    if (!words->over && m->open.number == number && m->open.members == members && number != 0) {
        int serve = tag == m->tag && tag == m->open_tag && m->may_serve;
        make_sure(m);
        m->serving = serve && !m->damaged;
        if (m->serving)
            say(m, "serves view %u", number);
    }
    send_hello(m, from);
}

/* Duty 8: the holder answers from its whole log of the sure view, wherever it is placed. One that keeps
 * less than is packed gets the store first (Long logs 4). */
static void on_fetch(struct machine *m, uint32_t from, struct reading *words)
{
    struct restart_position keeps, target;
    struct update updates[BATCH];
    struct store store;
    char name[LOG_NAME];
    uint32_t s = take(words);
    keeps.view = take(words);
    keeps.k = take(words);
    target.view = take(words);
    target.k = take(words);
    if (words->over || m->serving || s >= shard_count(m) || !carries(&m->sure, s) ||
        (!KEEPS(&m->world, LEAVE_HOLDER_SERVES) && !m->task.shard[s].carried))
        return;
    if (target.view == 0)
        target = m->sure.base[s]; /* Long logs 3 */
    name_of(name, &m->sure, s);
    uint32_t index, count = 0;
    int found =
        log_find(&m->world, name, s, keeps, m->runs[s].before + m->runs[s].synced, &store, &index);
    if (found == 0) {
        say(m, "shard %u: machine %u keeps what is not in this log, a duty is broken", s, from);
        return;
    }
    struct restart_position end = found == LOG_PACKED ? store.end : keeps;
    uint32_t there = log_updates(&m->world, name, s, index, updates, BATCH);
    while (count < there && !after(updates[count].at, target))
        end = updates[count++].at;
    struct writing answer = begin(m, DATA, m->tag);
    put(&answer, s);
    put(&answer, keeps.view);
    put(&answer, keeps.k);
    put(&answer, (uint32_t)same(end, target));
    put(&answer, found == LOG_PACKED);
    if (found == LOG_PACKED)
        put_store(&answer, &store);
    for (uint32_t i = 0; i < count; i++)
        put_update(&answer, s, &updates[i]);
    finish(m, from, &answer);
}

/* ---- All messages ---- */

void machine_message(struct machine *m, uint32_t from, const uint8_t *bytes, size_t length)
{
    struct reading words = reading_of(bytes, length);
    uint32_t kind = take(&words);
    uint64_t tag = take(&words);
    tag |= (uint64_t)take(&words) << 32;
    if (words.over || length % 4 != 0 || m->damaged)
        return;
    int leads = from >= LEADERS_AT && from < LEADERS_AT + LEADERS;
    /* Duty 2: of another tag it carries out nothing. */
    int mine = (tag == m->tag && tag != 0) || !KEEPS(&m->world, LEAVE_TAGS);
    if (kind == ASK && leads && tag != 0)
        on_ask(m, from, tag);
    else if (kind == FOUND && leads && mine)
        on_found(m, from, &words);
    else if (kind == ORDER && leads && mine)
        on_order(m, from, &words);
    else if (kind == PREPARE && leads &&
             (mine || (!KEEPS(&m->world, LEAVE_COPY_DELETED) && tag == m->copy_tag)))
        on_prepare(m, from);
    else if (kind == COMMITTED && leads)
        on_committed(m, from, tag, &words);
    else if (kind == FETCH && from < RESTART_NODES && mine)
        on_fetch(m, from, &words);
    else if (kind == DATA && from < RESTART_NODES && mine)
        on_data(m, from, &words);
    else if (m->serving)
        serve_message(m, from, kind, &words);
}

void machine_tick(struct machine *m)
{
    uint64_t now = m->world.now(m->world.self);
    if (m->damaged)
        return;
    if (m->serving)
        serve_synced(m);
    if (m->said != 0 && now - m->said < m->times.beat)
        return;
    m->said = now ? now : 1;
    for (uint32_t leader = 0; leader < LEADERS; leader++)
        send_hello(m, LEADERS_AT + leader);
    for (uint32_t s = 0; m->copying && s < shard_count(m); s++)
        if (m->missing >> s & 1)
            send_fetch(m, s);
    if (m->serving)
        serve_again(m);
}
