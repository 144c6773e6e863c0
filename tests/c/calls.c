/* The entry points behind one signature, so that a test can go through them. */
#include "harness.h"

uint32_t caller = RESTART_PLANNER;
uint32_t rounds = 1;

#define PIECE(i) p[i].bytes, p[i].length

static uint32_t call_check_settings(const struct piece *p, uint32_t node)
{
    (void)node;
    return restart_check_settings(PIECE(0));
}

static uint32_t call_read_report(const struct piece *p, uint32_t node)
{
    (void)node;
    return restart_read_report(PIECE(0), PIECE(1), PIECE(2));
}

static uint32_t call_read_order(const struct piece *p, uint32_t node)
{
    (void)node;
    return restart_read_order(PIECE(0), PIECE(1), PIECE(2));
}

static uint32_t call_write_report(const struct piece *p, uint32_t node)
{
    (void)node;
    return restart_write_report(PIECE(0), PIECE(1), PIECE(2));
}

static uint32_t call_write_order(const struct piece *p, uint32_t node)
{
    (void)node;
    return restart_write_order(PIECE(0), PIECE(1), PIECE(2));
}

static uint32_t call_from_flat(const struct piece *p, uint32_t node)
{
    (void)node;
    return restart_from_flat(PIECE(0), PIECE(1), PIECE(2));
}

static uint32_t call_to_flat(const struct piece *p, uint32_t node)
{
    (void)node;
    return restart_to_flat(PIECE(0), PIECE(1), PIECE(2));
}

/* Not lent anything: machine `node` alone is the view's member and has it. */
static uint32_t call_open_view(const struct piece *p, uint32_t node)
{
    (void)p;
    return restart_open_view(UINT32_C(1) << node, 0, UINT32_C(1) << node, 0, 0);
}

static uint32_t call_fresh(const struct piece *p, uint32_t node)
{
    (void)node;
    return restart_fresh(caller, PIECE(0));
}

static uint32_t call_check_state(const struct piece *p, uint32_t node)
{
    (void)node;
    return restart_check_state(caller, PIECE(0), PIECE(1), PIECE(2));
}

static uint32_t call_report(const struct piece *p, uint32_t node)
{
    (void)node;
    return restart_report(caller, PIECE(0), PIECE(1), PIECE(2), PIECE(3));
}

static uint32_t call_drop(const struct piece *p, uint32_t node)
{
    return restart_drop(caller, PIECE(0), PIECE(1), PIECE(2), node);
}

static uint32_t call_decide(const struct piece *p, uint32_t node)
{
    (void)node;
    return restart_decide(caller, PIECE(0), PIECE(1), PIECE(2));
}

static uint32_t call_decide_within(const struct piece *p, uint32_t rounds)
{
    return restart_decide_within(caller, PIECE(0), PIECE(1), PIECE(2), rounds);
}

static uint32_t call_order(const struct piece *p, uint32_t node)
{
    return restart_order(caller, PIECE(0), PIECE(1), PIECE(2), node, PIECE(3));
}

static uint32_t call_fetched(const struct piece *p, uint32_t node)
{
    return restart_fetched(caller, PIECE(0), PIECE(1), PIECE(2), node);
}

static uint32_t call_prepared(const struct piece *p, uint32_t node)
{
    return restart_prepared(caller, PIECE(0), PIECE(1), PIECE(2), node);
}

static uint32_t call_preview(const struct piece *p, uint32_t node)
{
    return restart_preview(caller, PIECE(0), PIECE(1), PIECE(2), node, PIECE(3));
}

static uint32_t call_preview_all(const struct piece *p, uint32_t node)
{
    (void)node;
    return restart_preview_all(caller, PIECE(0), PIECE(1), PIECE(2), PIECE(3));
}

static uint32_t call_game(const struct piece *p, uint32_t held)
{
    return restart_game(caller, PIECE(0), PIECE(1), PIECE(2), held, rounds);
}

static uint32_t call_page(const struct piece *p, uint32_t subgroup)
{
    return restart_page(caller, PIECE(0), PIECE(1), PIECE(2), subgroup, PIECE(3));
}

const struct entry check_settings = {"restart_check_settings", 1, 0, call_check_settings};
const struct entry read_report = {"restart_read_report", 3, 1u << 2, call_read_report};
const struct entry read_order = {"restart_read_order", 3, 1u << 2, call_read_order};
const struct entry write_report = {"restart_write_report", 3, 1u << 2, call_write_report};
const struct entry write_order = {"restart_write_order", 3, 1u << 2, call_write_order};
const struct entry from_flat = {"restart_from_flat", 3, 1u << 2, call_from_flat};
const struct entry to_flat = {"restart_to_flat", 3, 1u << 2, call_to_flat};
const struct entry open_view = {"restart_open_view", 0, 0, call_open_view};
const struct entry fresh = {"restart_fresh", 1, 1u << 0, call_fresh};
const struct entry check_state = {"restart_check_state", 3, 0, call_check_state};
const struct entry report = {"restart_report", 4, 1u << 1 | 1u << 2, call_report};
const struct entry drop = {"restart_drop", 3, 1u << 1, call_drop};
const struct entry decide = {"restart_decide", 3, 1u << 1, call_decide};
const struct entry decide_within = {"restart_decide_within", 3, 1u << 1, call_decide_within};
const struct entry order = {"restart_order", 4, 1u << 3, call_order};
const struct entry fetched = {"restart_fetched", 3, 1u << 1, call_fetched};
const struct entry prepared = {"restart_prepared", 3, 1u << 1, call_prepared};
const struct entry preview = {"restart_preview", 4, 1u << 3, call_preview};
const struct entry preview_all = {"restart_preview_all", 4, 1u << 3, call_preview_all};
const struct entry game = {"restart_game", 3, 0, call_game};
const struct entry page = {"restart_page", 4, 1u << 3, call_page};

const struct entry *const entries[] = {
    &check_settings, &read_report,   &read_order, &write_report, &write_order, &from_flat,
    &to_flat,        &open_view,     &fresh,      &check_state,  &report,      &drop,
    &decide,         &decide_within, &order,      &fetched,      &prepared,    &preview,
    &preview_all,    &game,          &page};
