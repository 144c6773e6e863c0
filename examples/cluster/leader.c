/*
 * The leader of a restart. "Line n" is line n of "A leader" in restart(3), PERSISTENCE; "duty n" is in
 * docs/ASSUMPTIONS.md.
 *
 * What it keeps between two messages is in `struct restart_leader`. It is on disk before anything
 * leaves that follows from it, so that one tag has one plan. Who leads is settled by time, and only
 * saves time: machines obey the greatest tag, and what is on their disks decides.
 */
#include "leader.h"

#include <inttypes.h>
#include <string.h>

/* Machines of a mask, for people. */
static const char *nodes_of(char text[128], uint32_t mask)
{
    int length = 0;
    text[0] = '\0';
    for (uint32_t node = 0; node < RESTART_NODES; node++)
        if (mask >> node & 1)
            length += snprintf(text + length, 128 - (size_t)length, " %u", node);
    return text;
}

/* ---- Messages out ---- */

static struct writing begin(struct leader *l, uint32_t kind)
{
    struct writing words = writing_to(l->out, sizeof l->out);
    put(&words, kind);
    put(&words, (uint32_t)l->kept.tag);
    put(&words, (uint32_t)(l->kept.tag >> 32));
    return words;
}

static void finish(struct leader *l, uint32_t to, const struct writing *words)
{
    if (!words->over)
        l->world.send(l->world.self, to, l->out, 4 * words->count);
}

static void send_plain(struct leader *l, uint32_t to, uint32_t kind)
{
    struct writing words = begin(l, kind);
    finish(l, to, &words);
}

/* Lines 5 and 3: what was found of a machine's open view, and a termination if there is one. */
static void send_found(struct leader *l, uint32_t node)
{
    const struct known *k = &l->known[node];
    struct writing words = begin(l, FOUND);
    put(&words, k->serial);
    put(&words, k->found);
    put(&words, k->open[0]);
    put(&words, k->open[1]);
    put(&words, l->terminated);
    for (uint32_t s = 0; s < shard_count(l); s++)
        put(&words, l->termination[s]);
    finish(l, node, &words);
}

/* The order, with the kept view's list and the kept view (line 6). While ordered it is the same each
 * time. */
static void send_order(struct leader *l, uint32_t node)
{
    uint8_t order[RESTART_BUFFER_BYTES];
    uint32_t answer = restart_leader_order(&l->kept, node, order);
    if (restart_is_refusal(answer)) {
        say(l, "no order for machine %u: number %u", node, restart_number_of(answer));
        return;
    }
    struct writing words = begin(l, ORDER);
    put(&words, l->before);
    for (uint32_t i = 0; i < l->before; i++) {
        put(&words, l->list[i][0]);
        put(&words, l->list[i][1]);
    }
    for (uint32_t i = 0; i < restart_length_of(answer); i++)
        put(&words, restart_get_word(order, i));
    finish(l, node, &words);
}

static void send_committed(struct leader *l, uint32_t node)
{
    struct writing words = begin(l, COMMITTED);
    put(&words, state(l, RESTART_PLAN_VIEW));
    put(&words, state(l, RESTART_PLAN_MEMBERS));
    finish(l, node, &words);
}

/* What the present phase has to say to a machine; it is said again until the machine has answered. */
static void send_phase(struct leader *l, uint32_t node)
{
    const struct known *k = &l->known[node];
    uint32_t phase = state(l, RESTART_PHASE);
    if (phase == RESTART_GATHERING && !k->has_sent)
        send_plain(l, node, ASK);
    else if (phase == RESTART_GATHERING && k->serial != 0 && !k->reported && !k->refused)
        send_found(l, node);
    else if (phase == RESTART_ORDERED && (restart_owing(l->kept.state) >> node & 1))
        send_order(l, node);
    else if (phase == RESTART_PREPARING && (restart_owing(l->kept.state) >> node & 1))
        send_plain(l, node, PREPARE);
    else if (phase == RESTART_COMMITTED && (state(l, RESTART_PLAN_MEMBERS) >> node & 1) &&
             (k->doing != SERVING || k->tag != l->kept.tag))
        send_committed(l, node);
}

static void send_to_all(struct leader *l)
{
    for (uint32_t node = 0; node < node_count(l); node++)
        if (!(l->gone >> node & 1))
            send_phase(l, node);
}

/* ---- Attempts ---- */

/* Gathers again under a new tag: at the start, after a drop, and where the view of the running service
 * is to change. What the library remembers of the machines stays, but after a commit. */
static void attempt(struct leader *l)
{
    uint32_t held = state(l, RESTART_HELD);
    if (state(l, RESTART_PHASE) == RESTART_COMMITTED || l->kept.tag == 0) {
        restart_leader_fresh(&l->kept, l->kept.tag);
    } else {
        for (uint32_t node = 0; node < node_count(l); node++)
            if ((held >> node & 1) && (state(l, RESTART_HELD) >> node & 1) &&
                restart_is_refusal(restart_leader_drop(&l->kept, node)))
                say(l, "machine %u cannot be dropped", node);
        at(l, AT_GIVEN_UP);
    }
    uint64_t last = l->kept.tag > l->greatest ? l->kept.tag : l->greatest;
    l->kept.tag = l->greatest = tag_after(last, l->world.random(l->world.self));
    l->before = 0;
    l->terminated = 0;
    l->possible = 0;
    l->changed = 0;
    l->told = 0;
    l->since = now(l);
    for (uint32_t node = 0; node < RESTART_NODES; node++) {
        struct known *k = &l->known[node];
        k->has_sent = k->reported = k->refused = 0;
        k->serial = 0;
        k->strange = 0;
    }
    leader_save(l);
    at(l, AT_TAG_SAVED);
    say(l, "gathering, attempt %" PRIu64, l->kept.tag >> 32);
    send_to_all(l);
}

/* Duty 9: a machine that is too slow, or has stopped, is given up, and the plan with it. */
static void drop(struct leader *l, uint32_t node, const char *why)
{
    say(l, "machine %u %s: dropped", node, why);
    if (restart_is_refusal(restart_leader_drop(&l->kept, node)))
        say(l, "machine %u cannot be dropped", node);
    attempt(l);
}

static void stand_by(struct leader *l)
{
    if (l->leads)
        say(l, "another leader leads");
    l->leads = 0;
    l->until = now(l) + (uint64_t)l->times.takeover * (l->number + 1);
}

/* Goes on from the file in the phase that it has, under the same tag, unless a later leader was there
 * since; while gathering nothing is lost by a new tag. */
static void lead(struct leader *l)
{
    uint32_t phase = state(l, RESTART_PHASE);
    l->leads = 1;
    l->since = now(l);
    if (l->kept.tag == 0 || l->greatest > l->kept.tag || phase == RESTART_GATHERING) {
        attempt(l);
        return;
    }
    say(l, "goes on with view %u, %s", state(l, RESTART_PLAN_VIEW), restart_phase_text(phase));
    send_to_all(l);
}

void leader_change(struct leader *l)
{
    if (l->leads)
        attempt(l);
}

/* ---- Open views: lines 2 to 5, duty 16 ---- */

static int is(const uint32_t view[2], const uint32_t other[2])
{
    return view[0] != 0 && view[0] == other[0] && view[1] == other[1];
}

static int listed(const struct leader *l, const uint32_t view[2], const uint32_t list[][2],
                  uint32_t before)
{
    for (uint32_t i = before; i > 0 && KEEPS(&l->world, LEAVE_LISTS); i--)
        if (is(view, list[i - 1]))
            return 1;
    return 0;
}

/* What the machines that have sent their views say of an open one. */
static uint32_t judge(const struct leader *l, const struct known *its)
{
    const uint32_t view[2] = {its->open[0], its->open[1]};
    uint32_t known = 0, have = 0, lack = 0, passed = 0;
    for (uint32_t node = 0; node < node_count(l); node++) {
        const struct known *k = &l->known[node];
        if (!k->has_sent)
            continue;
        int sure = is(view, k->sure) || listed(l, view, k->sure_list, k->sure_before);
        if (sure || (k->open[0] && listed(l, view, k->open_list, k->open_before)))
            known |= bit(node);
        else if (is(view, k->open))
            have |= bit(node);
        else
            lack |= bit(node);
        if (!sure && k->sure[0] >= view[0])
            passed |= bit(node);
    }
    /* A disk that is gone for ever, by an operator's word. */
    if (l->gone != 0 && its->open_before > 0) {
        uint32_t before = its->open_list[its->open_before - 1][1];
        if (2 * count_of(have & before) > count_of(before))
            have |= l->gone & view[1];
    }
    uint32_t found = restart_view_of(restart_open_view(view[1], known, have, lack, passed));
    if (!KEEPS(&l->world, LEAVE_SETTLE))
        found = RESTART_VIEW_SURE;
    if (found == RESTART_VIEW_UNDECIDED && !KEEPS(&l->world, LEAVE_UNDECIDED))
        found = RESTART_VIEW_NEVER;
    return found;
}

/* Tells every machine what was found of its open view. 1, or 0 while some view is not decided. */
static int settle(struct leader *l)
{
    int decided = 1;
    for (uint32_t node = 0; node < node_count(l); node++) {
        struct known *k = &l->known[node];
        if (!k->has_sent || k->reported || k->refused)
            continue;
        uint32_t found = k->open[0] ? judge(l, k) : 0;
        if (found == RESTART_VIEW_UNDECIDED || found == RESTART_VIEW_CONTRADICTED) {
            uint32_t back = 0;
            char text[128];
            for (uint32_t other = 0; other < node_count(l); other++)
                back |= l->known[other].has_sent ? bit(other) : 0;
            if (l->told != found)
                say(l, "view %u: %s; members that are not back:%s", k->open[0],
                    restart_view_text(found), nodes_of(text, k->open[1] & ~back));
            l->told = found;
            decided = 0;
        } else if (k->serial == 0 || k->found != found) {
            k->serial = ++l->serial;
            k->found = found;
            at(l, AT_VIEWS_FOUND);
            send_found(l, node);
        }
    }
    return decided;
}

/* Whether there is a whole view with its list; goes on behind it. */
static int skip_list(struct reading *words)
{
    words->count += 2;
    uint32_t before = take(words);
    if (words->over || before > CLUSTER_VIEWS || 2 * before > words->most - words->count)
        return 0;
    words->count += 2 * (size_t)before;
    return 1;
}

static uint32_t take_list(struct reading *words, uint32_t view[2], uint32_t list[][2])
{
    view[0] = take(words);
    view[1] = take(words);
    uint32_t before = take(words);
    for (uint32_t i = 0; i < before; i++) {
        list[i][0] = take(words);
        list[i][1] = take(words);
    }
    return before;
}

/* ---- Decisions: line 6 ---- */

/* The machines that can come back. */
static uint32_t all_nodes(const struct leader *l)
{
    return UINT32_MAX >> (RESTART_NODES - node_count(l)) & ~l->gone;
}

/* The kept view's list and the kept view. A long list is begun anew once all machines are held: then no
 * disk has an open view, and every later one has a greater number than the kept view. 1, or 0 if it is
 * too long. */
static int make_list(struct leader *l)
{
    uint32_t held = state(l, RESTART_HELD), node = 0;
    while (!(held >> node & 1) || l->known[node].sure[0] != state(l, RESTART_KEPT_VIEW))
        if (++node == RESTART_NODES)
            return 0;
    const struct known *k = &l->known[node];
    l->before = k->sure_before < CLUSTER_VIEWS / 2 || held != all_nodes(l) ? k->sure_before : 0;
    memcpy(l->list, k->sure_list, l->before * sizeof l->list[0]);
    memcpy(l->list[l->before++], k->sure, sizeof l->list[0]);
    return l->before <= CLUSTER_VIEWS;
}

/* Duty 14: a shard of the kept view ends with what all its members have. All have reported, and none
 * of them stores under this view any more, so that whoever makes a termination makes the same. */
static void make_termination(struct leader *l)
{
    uint32_t members = state(l, RESTART_KEPT_MEMBERS);
    if (!l->terminates || l->terminated || state(l, RESTART_KEPT_TERMINATION))
        return;
    for (uint32_t node = 0; node < RESTART_NODES; node++)
        if ((members >> node & 1) &&
            (!l->known[node].reported || l->known[node].sure[0] != state(l, RESTART_KEPT_VIEW)))
            return;
    for (uint32_t s = 0; s < shard_count(l); s++) {
        uint32_t least = UINT32_MAX;
        for (uint32_t node = 0; node < RESTART_NODES; node++)
            if ((state(l, RESTART_KEPT_MASKS + s) >> node & 1) && l->known[node].counts[s] < least)
                least = l->known[node].counts[s];
        l->termination[s] = KEEPS(&l->world, LEAVE_COVERS) || least == 0 ? least : least - 1;
    }
    l->terminated = state(l, RESTART_KEPT_VIEW);
    l->since = now(l);
    at(l, AT_TERMINATED);
    for (uint32_t node = 0; node < RESTART_NODES; node++)
        if (members >> node & 1) {
            l->known[node].reported = 0;
            l->known[node].found = 0;
            l->known[node].serial = ++l->serial;
            send_found(l, node);
        }
}

/* Whether to plan: there is a plan, and either all machines are held or the grace time is over. */
static int is_time(struct leader *l)
{
    uint8_t trial[RESTART_STATE_BYTES];
    uint64_t time = now(l);
    uint32_t held = state(l, RESTART_HELD);
    int pending = 0;
    for (uint32_t node = 0; node < node_count(l); node++)
        pending |= l->known[node].has_sent && !l->known[node].reported && !l->known[node].refused;
    if (held == 0 || (pending && time - l->since < l->times.grace))
        return 0;
    if (l->changed) {
        l->changed = 0;
        memcpy(trial, l->kept.state, sizeof trial);
        uint32_t answer = restart_decide(RESTART_PLANNER, l->kept.settings, l->kept.settings_len,
                                         trial, sizeof trial, l->kept.desk, sizeof l->kept.desk);
        if (!restart_is_plan(answer))
            l->possible = 0;
        else if (l->possible == 0)
            l->possible = time ? time : 1;
        if (restart_is_wait(answer) && l->told != answer)
            say(l, "waits: %s", restart_reason_text(restart_reason_of(answer)));
        l->told = answer;
    }
    return l->possible != 0 && (held == all_nodes(l) || time - l->possible >= l->times.grace);
}

static void decide(struct leader *l)
{
    char text[128];
    if (state(l, RESTART_PHASE) != RESTART_GATHERING || !settle(l))
        return;
    make_termination(l);
    if (!is_time(l))
        return;
    if (!make_list(l)) {
        say(l, "the list of views is full: all machines have to be back once");
        l->possible = 0;
        return;
    }
    if (!restart_is_plan(restart_leader_decide(&l->kept)))
        return;
    l->since = now(l);
    leader_save(l);
    at(l, AT_PLAN_SAVED);
    say(l, "view %u on machines%s, %u moves", state(l, RESTART_PLAN_VIEW),
        nodes_of(text, state(l, RESTART_PLAN_MEMBERS)), state(l, RESTART_PLAN_MOVES));
    send_to_all(l);
    at(l, AT_ORDERS_SENT);
}

/* ---- Messages in ---- */

static void on_hello(struct leader *l, uint32_t node, uint64_t tag, struct reading *words)
{
    struct known *k = &l->known[node];
    uint32_t doing = take(words);
    if (words->over)
        return;
    k->heard = now(l);
    k->tag = tag;
    k->doing = doing;
    if (tag > l->greatest)
        l->greatest = tag;
    if (!l->leads)
        return;
    if (tag > l->kept.tag) {
        stand_by(l);
        return;
    }
    if (tag == l->kept.tag && (state(l, RESTART_PHASE) != RESTART_COMMITTED || k->doing >= OPEN))
        k->strange = 0;
    else if (k->strange == 0)
        k->strange = k->heard ? k->heard : 1;
    if (tag != l->kept.tag && state(l, RESTART_PHASE) == RESTART_GATHERING)
        send_plain(l, node, ASK);
}

static void on_views(struct leader *l, uint32_t node, struct reading *words)
{
    struct known *k = &l->known[node];
    struct reading ahead = *words;
    if (state(l, RESTART_PHASE) != RESTART_GATHERING || k->refused || !skip_list(&ahead) ||
        !skip_list(&ahead))
        return;
    uint32_t number = restart_get_word(words->bytes, words->count);
    if (number == 0 || (k->reported && number == k->sure[0]))
        return; /* it was asked twice, or stopped and came back with what it has reported */
    k->reported = 0;
    k->serial = 0;
    k->sure_before = take_list(words, k->sure, k->sure_list);
    k->open_before = take_list(words, k->open, k->open_list);
    k->has_sent = 1;
    decide(l);
}

static void on_report(struct leader *l, uint32_t node, struct reading *words)
{
    struct known *k = &l->known[node];
    uint32_t serial = take(words);
    const uint8_t *report = words->bytes + 4 * words->count;
    size_t length = 4 * (words->most - words->count);
    uint8_t contents[RESTART_CONTENTS_BYTES];
    /* Duty 3: a report answers what the machine was told last. */
    if (words->over || length < 4 || restart_get_word(report, 0) != node || !k->has_sent ||
        k->serial == 0 || (serial != k->serial && KEEPS(&l->world, LEAVE_REPORT_ORDER)) ||
        state(l, RESTART_PHASE) != RESTART_GATHERING || (k->reported && serial == k->serial))
        return;
    uint32_t answer = restart_leader_report(&l->kept, report, length);
    if (answer != RESTART_ACCEPTED) {
        k->refused = 1;
        say(l, "machine %u: its report is refused, number %u, %s", node, restart_number_of(answer),
            restart_number_text(restart_number_of(answer)));
        /* Duty 3: its disk went back (number 18), and what it reported before is not true any more. */
        if ((state(l, RESTART_HELD) >> node & 1) &&
            restart_leader_drop(&l->kept, node) == RESTART_ACCEPTED)
            l->changed = 1;
        return;
    }
    k->reported = 1;
    l->changed = 1;
    if (k->found == RESTART_VIEW_SURE && k->open[0] != 0) {
        memcpy(k->sure, k->open, sizeof k->sure);
        memcpy(k->sure_list, k->open_list, sizeof k->sure_list);
        k->sure_before = k->open_before;
    }
    k->open[0] = 0;
    memset(k->counts, 0, sizeof k->counts);
    answer = restart_read_report(l->kept.settings, l->kept.settings_len, report, length, contents,
                                 sizeof contents);
    for (uint32_t i = 3; i < restart_length_of(answer); i += 3) {
        uint32_t record = restart_get_word(contents, i);
        if (record / 256 == RESTART_KIND_RUN && restart_get_word(contents, i + 1) == k->sure[0])
            k->counts[record % 256] = restart_get_word(contents, i + 2);
    }
    decide(l);
}

/* "Fetched" and "prepared". Each phase is on disk before the machines are told of it. */
static void on_mark(struct leader *l, uint32_t node, uint32_t kind)
{
    uint32_t phase = state(l, RESTART_PHASE);
    uint32_t answer = kind == FETCHED ? restart_leader_fetched(&l->kept, node)
                                      : restart_leader_prepared(&l->kept, node);
    if (answer != RESTART_ACCEPTED || state(l, RESTART_PHASE) == phase)
        return;
    l->since = now(l);
    if (state(l, RESTART_PHASE) == RESTART_PREPARING) {
        leader_save(l);
        at(l, AT_PREPARING_SAVED);
        send_to_all(l);
        at(l, AT_PREPARE_SENT);
        return;
    }
    leader_moves(l);
    at(l, AT_MOVES_WRITTEN);
    leader_save(l);
    at(l, AT_COMMITTED_SAVED);
    say(l, "view %u is committed", state(l, RESTART_PLAN_VIEW));
    send_to_all(l);
    at(l, AT_COMMITTED_SENT);
}

/* Duty 18: a publisher gets the page of the subgroup that it rents. Who asks is known by the address. */
static void on_page(struct leader *l, uint32_t client, struct reading *words)
{
    uint8_t page[RESTART_BUFFER_BYTES];
    uint32_t role = l->rents[client] ? restart_watcher(l->rents[client] - 1) : 0;
    if (!KEEPS(&l->world, LEAVE_ROLE))
        role = RESTART_PLANNER;
    uint32_t answer = restart_leader_page(&l->kept, role, take(words), page);
    struct writing reply = begin(l, PAGE);
    put(&reply, answer);
    for (uint32_t i = 0; i < RESTART_PAGE_WORDS && !restart_is_refusal(answer); i++)
        put(&reply, restart_get_word(page, i));
    finish(l, CLIENTS_AT + client, &reply);
}

static void on_beat(struct leader *l, uint64_t tag)
{
    if (tag > l->greatest)
        l->greatest = tag;
    if (!l->leads || tag > l->kept.tag)
        stand_by(l);
}

void leader_message(struct leader *l, uint32_t from, const uint8_t *bytes, size_t length)
{
    struct reading words = reading_of(bytes, length);
    uint32_t kind = take(&words);
    uint64_t tag = take(&words);
    tag |= (uint64_t)take(&words) << 32;
    if (words.over || length % 4 != 0)
        return;
    /* Duty 2. */
    int mine = l->leads && from < node_count(l) && !(l->gone >> from & 1) &&
               (tag == l->kept.tag || !KEEPS(&l->world, LEAVE_TAGS));
    if (mine && kind != HELLO) {
        l->known[from].heard = now(l);
        l->known[from].strange = 0;
    }
    if (kind == HELLO && from < node_count(l) && !(l->gone >> from & 1))
        on_hello(l, from, tag, &words);
    else if (kind == VIEWS && mine)
        on_views(l, from, &words);
    else if (kind == REPORT && mine)
        on_report(l, from, &words);
    else if ((kind == FETCHED || kind == PREPARED) && mine)
        on_mark(l, from, kind);
    else if (kind == BEAT && from >= LEADERS_AT && from < LEADERS_AT + LEADERS &&
             from != LEADERS_AT + l->number)
        on_beat(l, tag);
    else if (kind == PAGE && l->leads && from >= CLIENTS_AT && from < CLIENTS_AT + CLIENTS)
        on_page(l, from - CLIENTS_AT, &words);
}

/* ---- Time ---- */

/* Whether a machine was not heard for so long, counted from the phase's beginning at most. */
static int silent(const struct leader *l, uint32_t node, uint32_t time)
{
    uint64_t last = l->known[node].heard > l->since ? l->known[node].heard : l->since;
    return now(l) - last > time;
}

/* Whether a machine has said for some beats that it has another tag, or does not serve. One such word
 * may be old. */
static int strange(const struct leader *l, uint32_t node)
{
    return l->known[node].strange != 0 && now(l) - l->known[node].strange > 3 * l->times.beat;
}

static void watch_gathering(struct leader *l)
{
    for (uint32_t node = 0; node < node_count(l); node++) {
        struct known *k = &l->known[node];
        if (!k->has_sent || !silent(l, node, l->times.patience))
            continue;
        k->has_sent = k->reported = 0;
        k->serial = 0;
        if ((state(l, RESTART_HELD) >> node & 1) &&
            restart_leader_drop(&l->kept, node) == RESTART_ACCEPTED) {
            say(l, "machine %u is silent: dropped", node);
            l->changed = 1;
        }
    }
    decide(l);
}

/* A machine that stops before "fetched" has lost its copy; later it can go on with it. */
static void watch_marks(struct leader *l)
{
    uint32_t owing = restart_owing(l->kept.state);
    int ordered = state(l, RESTART_PHASE) == RESTART_ORDERED;
    for (uint32_t node = 0; node < node_count(l); node++) {
        if (!(owing >> node & 1) || !KEEPS(&l->world, LEAVE_DROP))
            continue;
        const char *why = strange(l, node)                                ? "has started anew"
                          : ordered && silent(l, node, l->times.patience) ? "is silent"
                          : now(l) - l->since > l->times.slow             ? "is slow"
                                                                          : NULL;
        if (why != NULL) {
            drop(l, node, why);
            return;
        }
    }
}

/* The running service: a member that stopped, or a machine that came back, makes another view. */
static void watch_service(struct leader *l)
{
    uint32_t members = state(l, RESTART_PLAN_MEMBERS);
    for (uint32_t node = 0; node < node_count(l); node++) {
        const struct known *k = &l->known[node];
        if (l->gone >> node & 1)
            continue;
        int gone =
            (members >> node & 1) && (silent(l, node, l->times.patience) || strange(l, node));
        int back = !(members >> node & 1) && !k->refused && k->heard > l->since &&
                   now(l) - l->since > l->times.grace && !silent(l, node, 3 * l->times.beat);
        if (gone || back) {
            say(l, "machine %u %s: the view changes", node, gone ? "does not serve" : "is back");
            attempt(l);
            return;
        }
    }
}

void leader_tick(struct leader *l)
{
    uint64_t time = now(l);
    if (!l->leads && time >= l->until)
        lead(l);
    uint32_t phase = state(l, RESTART_PHASE);
    if (l->leads && phase == RESTART_GATHERING)
        watch_gathering(l);
    else if (l->leads && phase == RESTART_COMMITTED)
        watch_service(l);
    else if (l->leads)
        watch_marks(l);
    if (time - l->beaten < l->times.beat)
        return;
    l->beaten = time;
    leader_metrics(l);
    for (uint32_t other = 0; l->leads && other < l->leaders; other++)
        if (other != l->number)
            send_plain(l, LEADERS_AT + other, BEAT);
    if (l->leads)
        send_to_all(l);
}

int leader_start(struct leader *l, const struct world *world, struct times times,
                 const uint8_t *settings, size_t settings_len, const struct leader_options *options)
{
    memset(l, 0, sizeof *l);
    l->world = *world;
    l->times = times;
    l->number = options->number;
    l->leaders = options->leaders;
    l->gone = options->gone;
    l->terminates = options->terminates;
    memcpy(l->rents, options->rents, sizeof l->rents);
    if (restart_leader_begin(&l->kept, settings, settings_len, 0) != RESTART_ACCEPTED)
        return 0;
    if (!leader_load(l) &&
        restart_leader_begin(&l->kept, settings, settings_len, 0) != RESTART_ACCEPTED)
        return 0;
    l->greatest = l->kept.tag;
    l->until = now(l) + 2 * l->times.beat + (uint64_t)l->times.takeover * l->number;
    at(l, AT_LEADER_STARTED);
    return 1;
}
