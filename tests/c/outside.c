/*
 * A program outside the repository, over the installed header and library: it reports one of two
 * machines, is told to wait for a majority, reports the other and has a plan, by rounds on a copy and
 * in full; each time it asks who must stay, and why the machine must, and at the end finds that the
 * outage wins by the first. Then it reads the page of subgroup 0 as its watcher, who may do nothing
 * else.
 */
#include <restart.h>
#include <stdio.h>

static uint8_t desk[RESTART_DESK_BYTES];

int main(void)
{
    /* Two machines in two failure sets, at least one for a group; one shard that needs one. */
    const uint32_t words[7] = {2, 2, 1, 1, 0, 1, 1};
    uint8_t settings[sizeof words], state[RESTART_STATE_BYTES], message[32];
    uint8_t copy[RESTART_STATE_BYTES];
    uint8_t page[RESTART_BUFFER_BYTES], seen[RESTART_BUFFER_BYTES];
    const uint32_t watcher = restart_watcher(0);
    uint32_t answer;
    size_t i;

    for (i = 0; i < 7; i++)
        restart_put_word(settings, i, words[i]);
    restart_fresh(RESTART_PLANNER, state, sizeof state);
    for (i = 0; i < 2; i++) {
        const uint32_t report[8] = {(uint32_t)i, 3, 3, 1, 256, 3, 0, 0};
        size_t k;
        for (k = 0; k < 8; k++)
            restart_put_word(message, k, report[k]);
        answer = restart_report(RESTART_PLANNER, settings, sizeof settings, state, sizeof state,
                                desk, sizeof desk, message, sizeof message);
        printf("report %lu, ", (unsigned long)answer);
        answer = restart_preview_all(RESTART_PLANNER, settings, sizeof settings, state,
                                     sizeof state, desk, sizeof desk, seen, sizeof seen);
        printf("%lu word, must stay %lu, ", (unsigned long)restart_length_of(answer),
               (unsigned long)restart_get_word(seen, 0));
        answer = restart_preview(RESTART_PLANNER, settings, sizeof settings, state, sizeof state,
                                 desk, sizeof desk, (uint32_t)i, seen, sizeof seen);
        printf("reason %lu, ", (unsigned long)restart_reason_of(answer));
        answer = restart_game(RESTART_PLANNER, settings, sizeof settings, state, sizeof state, desk,
                              sizeof desk, 3, 1);
        if (i == 0 ? restart_number_of(answer) != RESTART_NOT_READY
                   : !restart_outage_wins(answer) || restart_first_of(answer) != 0)
            return 1;
        for (k = 0; k < sizeof state; k++)
            copy[k] = state[k];
        answer = restart_decide_within(RESTART_PLANNER, settings, sizeof settings, copy,
                                       sizeof copy, desk, sizeof desk, 0);
        printf("gap %lu, ", (unsigned long)restart_gap_of(answer));
        answer = restart_decide(RESTART_PLANNER, settings, sizeof settings, state, sizeof state,
                                desk, sizeof desk);
        printf("%s %lu\n", restart_is_wait(answer) ? "wait" : "plan",
               (unsigned long)(restart_is_wait(answer)
                                   ? restart_reason_of(answer)
                                   : restart_get_word(state, RESTART_PLAN_VIEW)));
    }
    answer = restart_page(watcher, settings, sizeof settings, state, sizeof state, desk,
                          sizeof desk, 0, page, sizeof page);
    printf("page of %lu words, placed %lu\n", (unsigned long)restart_length_of(answer),
           (unsigned long)restart_get_word(page, RESTART_PAGE_MASKS));
    answer =
        restart_drop(watcher, settings, sizeof settings, state, sizeof state, desk, sizeof desk, 0);
    return restart_number_of(answer) == RESTART_NOT_ALLOWED ? 0 : 1;
}
