/*
 * Runs the steps of an input on the library, and beside it on the peer in C and the plain reading
 * (plain.h). Answers must be the same, and so must every byte that is left: state, desk and buffer where
 * they are written, and all that is only read. Every piece lent to the library ends or begins at a page
 * without access. The first difference ends the program.
 *
 * The first placement in a plan is found plainly where a subgroup is small; in a larger one the
 * library's must be valid and of least weight. GUIDED_FAULT=n puts a fault in (faults.c).
 */
#include "../peer/c/peer.h"
#include "extras.h"
#include "guided.h"
#include "library.h"
#include "plain.h"
#include "steps.h"

#include <stdio.h>
#include <stdlib.h>
#include <string.h>
#include <sys/mman.h>

enum { PAGE_BYTES = 4096, ROOM = 25 * PAGE_BYTES, SMALL_ENOUGH = 72, PATTERN = 0xA5, MARGIN = 64 };

unsigned fault;
static struct library library;

/* What the library answered is a sight of its own for the fuzzer, beside the edges that it reaches. */
enum { SIGHTS = 4096 };
#ifdef __clang__
__attribute__((used, section("__libfuzzer_extra_counters")))
#endif
static uint8_t sights[SIGHTS];

static void seen(unsigned kind, uint32_t phase, uint32_t answer)
{
    uint32_t what = answer >> 24 != 0 ? 32 + (answer >> 24) * 8 + (answer >> 8) % 8 : answer % 256;
    sights[1 + (kind * 131 + phase * 37 + what) % (SIGHTS - 1)] = 1;
}

/* ---- Memory that is lent to the library ---- */

static uint8_t *pages_between_guards(void)
{
    uint8_t *all = mmap(NULL, ROOM + 2 * PAGE_BYTES, PROT_NONE, MAP_PRIVATE | MAP_ANONYMOUS, -1, 0);
    if (all == MAP_FAILED || mprotect(all + PAGE_BYTES, ROOM, PROT_READ | PROT_WRITE) != 0) {
        perror("guided");
        exit(2);
    }
    return all + PAGE_BYTES;
}

/* So many bytes at the end of the pages, or at their beginning. */
static uint8_t *place_in(uint8_t *pages, size_t length, int last)
{
    return last ? pages + ROOM - length : pages;
}

/* A piece: the library's, and the one that peer and plain reading have. */
struct piece {
    uint8_t *pages, *lent, *own;
    size_t length;
};

static struct piece settings, state, desk, message, buffer, other;
static uint8_t own_settings[MOST_STEP_BYTES], own_state[RESTART_STATE_BYTES],
    own_desk[RESTART_DESK_BYTES], own_message[MOST_STEP_BYTES], own_buffer[2 * PAGE_BYTES],
    own_other[ROOM];
static int at_end;

/* The bytes at the side of a piece where no guard is. */
static uint8_t *margin_of(const struct piece *piece)
{
    return at_end ? piece->lent - MARGIN : piece->lent + piece->length;
}

static void lay_out(struct piece *piece, uint8_t *own, size_t length)
{
    if (piece->pages == NULL)
        piece->pages = pages_between_guards();
    piece->own = own;
    piece->length = length;
    piece->lent = place_in(piece->pages, length, at_end);
    memset(margin_of(piece), PATTERN, MARGIN);
}

/* Lends these bytes. */
static void lend(struct piece *piece, uint8_t *own, const uint8_t *bytes, size_t length)
{
    lay_out(piece, own, length);
    memcpy(piece->own, bytes, length);
    memcpy(piece->lent, bytes, length);
}

/* ---- Differences ---- */

static unsigned step_number;
static const char *call_name;

void differs(const char *what, unsigned long found, unsigned long expected)
{
    fprintf(stderr, "guided: step %u, %s: %s is %lu where %lu is expected\n", step_number,
            call_name, what, found, expected);
    abort();
}

static void same_bytes(const char *what, const struct piece *piece)
{
    for (size_t k = 0; k < MARGIN; k++)
        if (margin_of(piece)[k] != PATTERN) {
            fprintf(stderr, "guided: outside the %s\n", what);
            differs("a byte", margin_of(piece)[k], PATTERN);
        }
    if (memcmp(piece->lent, piece->own, piece->length) == 0)
        return;
    size_t at = 0;
    while (piece->lent[at] == piece->own[at])
        at++;
    fprintf(stderr, "guided: byte %zu of the %s\n", at, what);
    differs(what, piece->lent[at], piece->own[at]);
}

static void same(uint32_t found, uint32_t expected)
{
    if (found != expected)
        differs("the answer", found, expected);
}

/* ---- What decide must leave ---- */

/* The lent lengths of a step, and the pieces that stand in where one is wrong. */
struct asked {
    uint32_t role;
    const struct piece *settings, *state, *desk;
};

#define LENT(asked)                                                                                \
    (asked)->role, (asked)->settings->lent, (asked)->settings->length, (asked)->state->lent,       \
        (asked)->state->length, (asked)->desk->lent, (asked)->desk->length
#define OWN(asked, words)                                                                          \
    (asked)->role, (asked)->settings->own, (asked)->settings->length, words,                       \
        (asked)->state->length, (asked)->desk->own, (asked)->desk->length

struct plan {
    struct plan_settings settings;
    uint32_t old[RESTART_SHARDS], masks[RESTART_SHARDS];
};

static void open_plan(struct plan *plan, const struct asked *asked, const uint8_t *words)
{
    memset(plan, 0, sizeof *plan);
    plain_settings(&plan->settings, asked->settings->own, asked->settings->length);
    for (uint32_t s = 0; s < RESTART_SHARDS; s++)
        plan->old[s] = word_of(words, RESTART_KEPT_MASKS + s);
}

static struct layout layout_of(const struct plan *plan, uint32_t held, uint32_t group)
{
    return (struct layout){&plan->settings, held, group, plan->old};
}

static int is_small(const struct layout *layout)
{
    uint32_t shards = 0;
    for (uint32_t s = 0; s < layout->settings->shards; s++)
        shards += layout->settings->group[s] == layout->group;
    return ones(layout->held) * shards <= SMALL_ENOUGH;
}

/* A subgroup's placement as decide has it. `found` is what the library has, for a large subgroup. */
static int place(struct plan *plan, uint32_t held, uint32_t group, const uint32_t *found)
{
    struct layout layout = layout_of(plan, held, group);
    int least = least_weight(&layout, BY_MOVES_AND_STAYS);
    if (least == NO_PLACEMENT)
        return 0;
    if (is_small(&layout))
        return first_within(&layout, BY_MOVES_AND_STAYS, least, plan->masks);
    if (!valid_in(&layout, found) ||
        64 * (int)moves_in(&layout, found) - (int)stays_in(&layout, found) != least)
        differs("a placement's weight", 64 * moves_in(&layout, found) - stays_in(&layout, found),
                (unsigned)least);
    for (uint32_t s = 0; s < plan->settings.shards; s++)
        if (plan->settings.group[s] == group)
            plan->masks[s] = found[s];
    return 1;
}

/* A subgroup's first placement with at most so many moves, for decisions by rounds. */
static int place_within(struct plan *plan, uint32_t held, uint32_t group, int most)
{
    struct layout layout = layout_of(plan, held, group);
    return first_within(&layout, BY_MOVES, most, plan->masks);
}

/* One improving round; whether there was anything to improve. */
static int improved(struct plan *plan, uint32_t held)
{
    for (uint32_t group = 0; group < RESTART_SUBGROUPS; group++) {
        struct layout layout = layout_of(plan, held, group);
        int moves = (int)moves_in(&layout, plan->masks);
        if (least_weight(&layout, BY_MOVES) < moves)
            return place_within(plan, held, group, moves - 1);
    }
    return 0;
}

/* The placement that so many rounds reach. Where a subgroup is large, the library's has to be valid. */
static void place_by_rounds(struct plan *plan, uint32_t held, uint32_t rounds,
                            const uint32_t *found)
{
    int small = 1;
    for (uint32_t group = 0; group < RESTART_SUBGROUPS; group++) {
        struct layout layout = layout_of(plan, held, group);
        if (!valid_in(&layout, found))
            differs("a placement's validity", 0, 1);
        small = small && is_small(&layout);
    }
    memcpy(plan->masks, found, sizeof plan->masks);
    if (!small)
        return;
    for (uint32_t group = 0; group < RESTART_SUBGROUPS; group++)
        place_within(plan, held, group, ANY_PLACEMENT);
    for (uint32_t r = 0; r < rounds && r < 128 && improved(plan, held);)
        r++;
}

/* How many moves more than what cannot be avoided at first sight. */
static uint32_t gap_of(const struct plan *plan, uint32_t held, uint32_t moves)
{
    for (uint32_t s = 0; s < plan->settings.shards; s++) {
        uint32_t sets = 0;
        for (uint32_t n = 0; n < plan->settings.nodes; n++)
            if (is_in(held & plan->old[s], n))
                sets |= 1u << plan->settings.set[n];
        if (ones(sets) < plan->settings.need[s])
            moves -= plan->settings.need[s] - ones(sets);
    }
    return moves;
}

enum { NO_ROUNDS = -1 };

/* What decide answers and leaves in these words. `by_library` are the words that the library left. */
static uint32_t decided(const struct asked *asked, uint8_t *words, const uint8_t *by_library,
                        int64_t rounds)
{
    struct plan plan;
    uint32_t found[RESTART_SHARDS], moves = 0, answer = peer_decide(OWN(asked, words));
    if (answer >> 24 != RESTART_PLAN)
        return answer;
    uint32_t held = word_of(words, RESTART_HELD);
    open_plan(&plan, asked, words);
    for (uint32_t s = 0; s < RESTART_SHARDS; s++)
        found[s] = word_of(by_library, RESTART_PLAN_MASKS + s);
    if (rounds == NO_ROUNDS) {
        for (uint32_t group = 0; group < RESTART_SUBGROUPS; group++)
            if (!place(&plan, held, group, found))
                differs("a placement", 0, 1);
    } else
        place_by_rounds(&plan, held, (uint32_t)rounds, found);
    for (uint32_t s = 0; s < plan.settings.shards; s++) {
        moves += ones(plan.masks[s] & ~plan.old[s]);
        word_to(words, RESTART_PLAN_MASKS + s, plan.masks[s]);
    }
    if (rounds == NO_ROUNDS && moves != word_of(words, RESTART_PLAN_MOVES))
        differs("the peer's moves", word_of(words, RESTART_PLAN_MOVES), moves);
    word_to(words, RESTART_PLAN_MOVES, moves);
    return answer + (rounds == NO_ROUNDS ? 0 : gap_of(&plan, held, moves));
}

/* ---- Previews, pages and games ---- */

/* Numbers 1, 2, 15, 3 and 4 of a call while gathering that the planner may make. */
static uint32_t gathers(const struct asked *asked)
{
    uint32_t refusal = peer_check_state(OWN(asked, asked->state->own));
    if (refusal != 0)
        return refusal;
    return word_of(asked->state->own, RESTART_PHASE) == RESTART_GATHERING ? 0 : 4;
}

/* The decision without a held node, on a copy. */
static uint32_t without(const struct asked *asked, uint32_t node, uint8_t *copy,
                        const uint8_t *by_library)
{
    memcpy(copy, asked->state->own, RESTART_STATE_BYTES);
    uint32_t answer = peer_drop(OWN(asked, copy), node);
    if (answer != 0)
        return answer;
    return by_library == NULL ? peer_decide(OWN(asked, copy))
                              : decided(asked, copy, by_library, NO_ROUNDS);
}

static uint32_t expected_preview(const struct asked *asked, uint32_t node)
{
    uint8_t copy[RESTART_STATE_BYTES];
    if (buffer.length != RESTART_BUFFER_BYTES)
        return 1;
    uint32_t answer = gathers(asked);
    if (answer != 0)
        return answer;
    answer = without(asked, node, copy, buffer.lent);
    if (answer >> 24 == 0)
        return answer;
    memset(buffer.own, 0, RESTART_BUFFER_BYTES);
    memcpy(buffer.own, copy, sizeof copy);
    return answer;
}

static uint32_t expected_preview_all(const struct asked *asked)
{
    uint8_t copy[RESTART_STATE_BYTES];
    if (buffer.length != RESTART_BUFFER_BYTES)
        return 1;
    uint32_t answer = gathers(asked), mask = 0;
    if (answer != 0)
        return answer;
    for (uint32_t n = 0; n < RESTART_NODES; n++)
        if (is_in(word_of(asked->state->own, RESTART_HELD), n) &&
            without(asked, n, copy, NULL) >> 24 == RESTART_WAIT)
            mask |= 1u << n;
    memset(buffer.own, 0, RESTART_BUFFER_BYTES);
    word_to(buffer.own, 0, mask);
    return 16777216 + 1;
}

static uint32_t expected_page(const struct asked *asked, uint32_t group)
{
    struct asked planner = *asked;
    struct plan plan;
    uint32_t found[RESTART_SHARDS];
    planner.role = RESTART_PLANNER;
    if (buffer.length != RESTART_BUFFER_BYTES || asked->desk->length != RESTART_DESK_BYTES)
        return 1;
    open_plan(&plan, asked, asked->state->own);
    if (!plain_settings(&plan.settings, asked->settings->own, asked->settings->length))
        return 2;
    if (group > 3 || (asked->role != RESTART_PLANNER && asked->role != RESTART_WATCHER + group))
        return 15;
    uint32_t refusal = peer_check_state(OWN(&planner, asked->state->own));
    if (refusal != 0)
        return refusal;
    for (uint32_t s = 0; s < RESTART_SHARDS; s++)
        found[s] = word_of(buffer.lent, RESTART_PAGE_MASKS + s);
    int placed = word_of(asked->state->own, RESTART_PHASE) != RESTART_GATHERING ||
                 place(&plan, word_of(asked->state->own, RESTART_HELD), group, found);
    plain_page(&plan.settings, asked->state->own, asked->desk->own, group, placed, plan.masks,
               buffer.own);
    return 16777216 + RESTART_PAGE_WORDS;
}

/* The board of a game: for each set of nodes whether there is a plan, once it was asked. */
struct board {
    const struct asked *asked;
    uint32_t nodes;
    enum { NOT_ASKED, A_WAIT, A_PLAN } plans[1 << RESTART_GAME_NODES];
};

/* The state with these nodes held, each remembered at the view that its slot reports. */
static void hold(const struct asked *asked, uint32_t nodes, uint32_t held, uint8_t *copy)
{
    memcpy(copy, asked->state->own, RESTART_STATE_BYTES);
    word_to(copy, RESTART_HELD, held);
    for (uint32_t n = 0; n < nodes; n++)
        word_to(copy, RESTART_LATEST_VIEWS + n, word_of(asked->desk->own + 2048 * n, 1));
}

static int has_plan(struct board *board, uint32_t held)
{
    if (board->plans[held] == NOT_ASKED) {
        uint8_t copy[RESTART_STATE_BYTES];
        hold(board->asked, board->nodes, held, copy);
        board->plans[held] =
            peer_decide(OWN(board->asked, copy)) >> 24 == RESTART_PLAN ? A_PLAN : A_WAIT;
    }
    return board->plans[held] == A_PLAN;
}

/* The first node with which the outage wins, 32 for passing, 33 if it does not. */
static uint32_t outage(struct board *board, uint32_t held, uint32_t rounds);

/* Whether the outage wins after taking a node, or passing, whatever the crew does. */
static int wins_after(struct board *board, uint32_t held, uint32_t taken, uint32_t rounds)
{
    int passes = 1;
    if (taken < 32)
        held &= ~(1u << taken);
    for (uint32_t n = 0; n < board->nodes; n++) {
        if (is_in(held, n) || n == taken)
            continue;
        passes = 0;
        if (has_plan(board, held | 1u << n) && outage(board, held | 1u << n, rounds - 1) == 33)
            return 0;
    }
    return !passes || !has_plan(board, held) || outage(board, held, rounds - 1) != 33;
}

static uint32_t outage(struct board *board, uint32_t held, uint32_t rounds)
{
    if (rounds == 0)
        return 33;
    if (held == 0)
        return wins_after(board, held, 32, rounds) ? 32 : 33;
    for (uint32_t n = 0; n < board->nodes; n++)
        if (is_in(held, n) && wins_after(board, held, n, rounds))
            return n;
    return 33;
}

static uint32_t expected_game(const struct asked *asked, uint32_t held, uint32_t rounds)
{
    static struct board board;
    uint32_t refusal = gathers(asked);
    if (refusal != 0)
        return refusal;
    uint32_t nodes = word_of(asked->settings->own, 0);
    if (nodes > RESTART_GAME_NODES || rounds > RESTART_GAME_ROUNDS || held >> nodes != 0)
        return 22;
    if (word_of(asked->state->own, RESTART_KEPT_VIEW) == 0)
        return 23;
    for (uint32_t n = 0; n < nodes; n++) {
        uint8_t copy[RESTART_STATE_BYTES];
        hold(asked, nodes, 1u << n, copy);
        if (peer_check_state(OWN(asked, copy)) != 0)
            return 23;
    }
    board.asked = asked;
    board.nodes = nodes;
    memset(board.plans, 0, sizeof board.plans);
    uint32_t first = outage(&board, held, rounds);
    return 5 * 16777216u + (first == 33 ? 0 : 256 + first);
}

/* ---- The steps ---- */

/* The functions that take an answer apart, and texts. */
static void small_functions(uint32_t answer)
{
    uint32_t expected[SMALL_FUNCTIONS];
    uint32_t found[SMALL_FUNCTIONS] = {
        restart_class_of(answer),
        (uint32_t)restart_is_refusal(answer),
        (uint32_t)restart_is_plan(answer),
        (uint32_t)restart_is_wait(answer),
        restart_number_of(answer),
        (uint32_t)restart_has_index(answer),
        restart_index_of(answer),
        restart_reason_of(answer),
        restart_value_of(answer),
        restart_gap_of(answer),
        restart_length_of(answer),
        restart_view_of(answer),
        (uint32_t)restart_is_game(answer) + 2 * (uint32_t)restart_outage_wins(answer),
        restart_first_of(answer),
    };
    uint8_t bytes[8], own[8];
    plain_small(answer, expected);
    for (size_t k = 0; k < SMALL_FUNCTIONS; k++)
        same(found[k], expected[k]);
    same(restart_watcher(answer), answer < 4 ? 512 + answer : 516);
    memset(bytes, PATTERN, sizeof bytes);
    memset(own, PATTERN, sizeof own);
    restart_put_word(bytes, 1, answer);
    word_to(own, 1, answer);
    if (memcmp(bytes, own, sizeof own) != 0 || restart_get_word(bytes, 1) != answer)
        differs("a word", restart_get_word(bytes, 1), answer);
    if (restart_number_text(answer)[0] == 0 || restart_reason_text(answer)[0] == 0 ||
        restart_phase_text(answer)[0] == 0 || restart_view_text(answer)[0] == 0)
        differs("a text", 0, 1);
}

/* A piece with another length: a copy, cut off or with zeros after it. */
static void lend_other(const struct piece *of, size_t length)
{
    size_t copied = length < of->length ? length : of->length;
    lay_out(&other, own_other, length);
    memset(other.own, 0, length);
    memcpy(other.own, of->own, copied);
    memcpy(other.lent, other.own, length);
}

/* What the step lends: the pieces as they are, but for the one whose length is wrong. */
static struct asked lent_by(const struct step *step)
{
    struct asked asked = {role_of(step->role), &settings, &state, &desk};
    size_t length = step->wrong_length;
    if (step->wrong == SETTINGS_LENGTH) {
        lend_other(&settings, length % MOST_STEP_BYTES);
        asked.settings = &other;
    } else if (step->wrong == STATE_LENGTH && length % PAGE_BYTES != RESTART_STATE_BYTES) {
        lend_other(&state, length % PAGE_BYTES);
        asked.state = &other;
    } else if (step->wrong == DESK_LENGTH && length != 1 << 15) {
        lend_other(&desk, RESTART_DESK_BYTES - (1 << 15) + length);
        asked.desk = &other;
    }
    return asked;
}

/* The call of a step by the library, and what is expected of it. */
static void call(const struct step *step, const struct asked *asked)
{
    static const char *const names[STEP_KINDS] = {
        "settings",   "fresh",        "check_state",     "report",
        "drop",       "decide",       "decide_within",   "order",
        "fetched",    "prepared",     "preview",         "preview_all",
        "page",       "game",         "check_settings",  "read_report",
        "read_order", "write_report", "write_order",     "from_flat",
        "to_flat",    "open_view",    "small functions", "draft",
        "task",       "leader file",  "poke_state",      "poke_desk"};
    uint32_t node = step->word, found = 0, expected = 0;
    const uint8_t *with = asked->settings->own;
    size_t with_len = asked->settings->length;
    call_name = names[step->kind];
#define TURN(what)                                                                                 \
    library.what(asked->settings->lent, with_len, message.lent, message.length, buffer.lent,       \
                 buffer.length)
#define PLAINLY with, with_len, message.own, message.length, buffer.own, buffer.length
    switch (step->kind) {
    case FRESH:
        found = library.fresh(asked->role, asked->state->lent, asked->state->length);
        expected = peer_fresh(asked->role, asked->state->own, asked->state->length);
        break;
    case CHECK_STATE:
        found = library.check_state(LENT(asked));
        expected = peer_check_state(OWN(asked, asked->state->own));
        owing_step(state.own);
        break;
    case REPORT:
        found = library.report(LENT(asked), message.lent, message.length);
        expected = peer_report(OWN(asked, asked->state->own), message.own, message.length);
        break;
    case DROP:
        found = library.drop(LENT(asked), node);
        expected = peer_drop(OWN(asked, asked->state->own), node);
        break;
    case DECIDE:
        found = library.decide(LENT(asked));
        expected = decided(asked, asked->state->own, asked->state->lent, NO_ROUNDS);
        break;
    case DECIDE_WITHIN:
        found = library.decide_within(LENT(asked), node);
        expected = decided(asked, asked->state->own, asked->state->lent, node);
        break;
    case ORDER:
        found = library.order(LENT(asked), node, buffer.lent, buffer.length);
        expected = peer_order(OWN(asked, asked->state->own), node, buffer.own, buffer.length);
        break;
    case FETCHED:
        found = library.fetched(LENT(asked), node);
        expected = peer_fetched(OWN(asked, asked->state->own), node);
        break;
    case PREPARED:
        found = library.prepared(LENT(asked), node);
        expected = peer_prepared(OWN(asked, asked->state->own), node);
        break;
    case PREVIEW:
        found = library.preview(LENT(asked), node, buffer.lent, buffer.length);
        expected = expected_preview(asked, node);
        break;
    case PREVIEW_ALL:
        found = library.preview_all(LENT(asked), buffer.lent, buffer.length);
        expected = expected_preview_all(asked);
        break;
    case PAGE:
        found = library.page(LENT(asked), node, buffer.lent, buffer.length);
        expected = expected_page(asked, node);
        break;
    case GAME:
        found = library.game(LENT(asked), node, step->rounds);
        expected = expected_game(asked, node, step->rounds);
        break;
    case CHECK_SETTINGS: {
        struct plan_settings read;
        found = library.check_settings(message.lent, message.length);
        expected = plain_settings(&read, message.own, message.length) ? 0 : 2;
        break;
    }
    case READ_REPORT:
        found = TURN(read_report);
        expected = plain_read(A_REPORT, PLAINLY);
        break;
    case READ_ORDER:
        found = TURN(read_order);
        expected = plain_read(AN_ORDER, PLAINLY);
        break;
    case WRITE_REPORT:
        found = TURN(write_report);
        expected = plain_write(A_REPORT, PLAINLY);
        break;
    case WRITE_ORDER:
        found = TURN(write_order);
        expected = plain_write(AN_ORDER, PLAINLY);
        break;
    case FROM_FLAT:
        found = TURN(from_flat);
        expected = plain_from_flat(PLAINLY);
        break;
    case TO_FLAT:
        found = TURN(to_flat);
        expected = plain_to_flat(PLAINLY);
        break;
    case OPEN_VIEW: {
        uint8_t masks[20] = {0};
        memcpy(masks, message.own, message.length < 20 ? message.length : 20);
        found = library.open_view(word_of(masks, 0), word_of(masks, 1), word_of(masks, 2),
                                  word_of(masks, 3), word_of(masks, 4));
        expected = plain_open_view(word_of(masks, 0), word_of(masks, 1), word_of(masks, 2),
                                   word_of(masks, 3), word_of(masks, 4));
        break;
    }
    case DRAFT:
        draft_step(step, with, with_len);
        break;
    case TASK:
        task_step(step, with, with_len);
        break;
    case FILE_KEPT:
        file_step(step, with, with_len, state.own, desk.own);
        break;
    default:
        small_functions(node);
        break;
    }
    seen(step->kind, word_of(state.own, RESTART_PHASE), found);
    same(found, expected);
}

/* Overwrites bytes of a piece from a place on, the library's and the peer's. */
static void poke(struct piece *piece, const struct step *step)
{
    size_t from = step->word % piece->length, count = piece->length - from;
    if (count > step->length)
        count = step->length;
    memcpy(piece->own + from, step->bytes, count);
    memcpy(piece->lent + from, step->bytes, count);
}

static void run(const struct step *step)
{
    size_t length = RESTART_BUFFER_BYTES;
    if (step->kind == SETTINGS) {
        lend(&settings, own_settings, step->bytes, step->length);
        return;
    }
    if (step->kind == POKE_STATE || step->kind == POKE_DESK) {
        poke(step->kind == POKE_STATE ? &state : &desk, step);
        return;
    }
    if (step->wrong == BUFFER_LENGTH)
        length = step->wrong_length % (2 * PAGE_BYTES);
    lend(&message, own_message, step->bytes, step->length);
    lay_out(&buffer, own_buffer, length);
    memset(buffer.own, PATTERN, length);
    memset(buffer.lent, PATTERN, length);
    struct asked asked = lent_by(step);
    call(step, &asked);
    same_bytes("settings", asked.settings);
    same_bytes("state", asked.state);
    same_bytes("message", &message);
    same_bytes("buffer", &buffer);
    if (step->kind < CHECK_SETTINGS)
        same_bytes("desk", asked.desk);
}

void guided_put_fault(unsigned number)
{
    fault = number;
    library = library_with(fault);
}

int LLVMFuzzerInitialize(int *count, char ***arguments)
{
    (void)count;
    (void)arguments;
    const char *number = getenv("GUIDED_FAULT");
    guided_put_fault(number == NULL ? 0 : (unsigned)strtoul(number, NULL, 10));
    return 0;
}

int LLVMFuzzerTestOneInput(const uint8_t *input, size_t length)
{
    struct step step;
    sights[0] = 1; /* so that the empty input shows something too */
    at_end = length % 2 == 0;
    lend(&settings, own_settings, input, 0);
    lay_out(&state, own_state, RESTART_STATE_BYTES);
    lay_out(&desk, own_desk, RESTART_DESK_BYTES);
    memset(state.own, 0, state.length);
    memset(state.lent, 0, state.length);
    memset(desk.own, PATTERN, desk.length);
    memset(desk.lent, PATTERN, desk.length);
    for (step_number = 0; step_number < MOST_STEPS && next_step(&step, &input, &length);
         step_number++)
        run(&step);
    return 0;
}
