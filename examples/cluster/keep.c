/* What stands on a leader's disk: what it keeps between two messages, the moves file, and the figures for
 * Prometheus. */
#include "leader.h"

#include <string.h>

/* Settings, state, desk and tag, and the list that goes with the orders. */
void leader_save(struct leader *l)
{
    struct writing own = writing_to(l->out, sizeof l->out);
    put(&own, l->before);
    for (uint32_t i = 0; i < l->before; i++) {
        put(&own, l->list[i][0]);
        put(&own, l->list[i][1]);
    }
    uint32_t answer = restart_leader_save(&l->kept, l->out, 4 * own.count, l->file, sizeof l->file);
    if (restart_is_refusal(answer))
        say(l, "cannot save: number %u", restart_number_of(answer));
    else
        l->world.replace(l->world.self, "leader", l->file, 4 * (size_t)restart_length_of(answer));
}

/* Takes up what was saved: 1, or 0 if there is nothing that can be used. Starting fresh is safe. */
int leader_load(struct leader *l)
{
    long length = l->world.read(l->world.self, "leader", 0, l->file, sizeof l->file);
    if (length < 0)
        return 0;
    uint32_t answer = restart_leader_take(&l->kept, l->out, sizeof l->out, l->file, (size_t)length);
    struct reading own = reading_of(l->out, 4 * (size_t)restart_length_of(answer));
    if (restart_is_refusal(answer)) {
        say(l, "what was saved is not used: number %u, %s", restart_number_of(answer),
            restart_number_text(restart_number_of(answer)));
        return 0;
    }
    l->before = take(&own);
    for (uint32_t i = 0; i < l->before && i < CLUSTER_VIEWS; i++) {
        l->list[i][0] = take(&own);
        l->list[i][1] = take(&own);
    }
    if (!KEEPS(&l->world, LEAVE_DESK))
        memset(l->kept.desk, 0, sizeof l->kept.desk);
    return !own.over;
}

/* The line of this restart in the moves file, which mondays(1) reads: the view's number and the moves.
 * Lines that a crash has torn or that are of this restart already go first. */
void leader_moves(struct leader *l)
{
    uint32_t number = state(l, RESTART_PLAN_VIEW), last = 0;
    uint64_t lines = 0, length = 0;
    long count = 1;
    for (int good = 1; count > 0; length += (uint64_t)count) {
        count = l->world.read(l->world.self, "moves", length, l->file, sizeof l->file / 8 * 8);
        if (count < 0)
            break;
        for (long i = 0; i + 8 <= count && good; i += 8) {
            uint32_t line = restart_get_word(l->file + i, 0);
            good = line > last && line < number && restart_get_word(l->file + i, 1) <= 128;
            lines += (uint64_t)good;
            last = line;
        }
    }
    if (length > 8 * lines)
        l->world.truncate(l->world.self, "moves", 8 * lines);
    uint8_t line[8];
    restart_put_word(line, 0, number);
    restart_put_word(line, 1, state(l, RESTART_PLAN_MOVES));
    l->world.append(l->world.self, "moves", line, sizeof line);
    l->world.sync(l->world.self, "moves");
}

/* For Prometheus, where something has changed. */
void leader_metrics(struct leader *l)
{
    const uint32_t metrics[6] = {(uint32_t)l->leads,
                                 state(l, RESTART_PHASE),
                                 count_of(state(l, RESTART_HELD)),
                                 count_of(restart_owing(l->kept.state)),
                                 state(l, RESTART_PLAN_VIEW),
                                 state(l, RESTART_PLAN_MOVES)};
    static const char *const names[6][2] = {
        {"leading", "1 if this leader leads"},
        {"phase", "0 gathering, 1 ordered, 2 preparing, 3 committed"},
        {"held", "machines whose reports are held"},
        {"owed", "held machines that still owe the mark of this phase"},
        {"view", "number of the plan's view, 0 without a plan"},
        {"moves", "moves of the plan"}};
    if (memcmp(metrics, l->metrics, sizeof metrics) == 0)
        return;
    memcpy(l->metrics, metrics, sizeof metrics);
    char *text = (char *)l->out;
    int length = 0;
    for (int i = 0; i < 6; i++)
        length += snprintf(text + length, sizeof l->out - (size_t)length,
                           "# HELP restart_%s %s\n# TYPE restart_%s gauge\nrestart_%s %u\n",
                           names[i][0], names[i][1], names[i][0], names[i][0], metrics[i]);
    l->world.replace(l->world.self, "restart.prom", l->out, (size_t)length);
}
