/*
 * Reports made shard by shard, and orders read so: words and room by hand, every refusal with the
 * draft as it was, the longest reports, and all short drafts of two shards against
 * restart_write_report. Case A's settings where no others are named.
 */
#include "world.h"

#include <string.h>

#define COUNT(array) (sizeof(array) / sizeof((array)[0]))
#define LENGTH(words) (16777216u + (words))

static struct world world;
static struct restart_draft draft;
static uint8_t buffer[RESTART_BUFFER_BYTES];

/* ---- The calls between pages without access ---- */

static uint32_t head[3]; /* node, view and members of a draft that begins */
static uint32_t second;  /* the count of a run, the k of a position */

static uint32_t call_begin(const struct piece *p, uint32_t node)
{
    (void)node;
    return restart_draft_begin((struct restart_draft *)(void *)p[0].bytes, p[1].bytes, p[1].length,
                               head[0], head[1], head[2]);
}

static uint32_t call_shard(const struct piece *p, uint32_t members)
{
    return restart_draft_shard((struct restart_draft *)(void *)p[0].bytes, members);
}

static uint32_t call_ended(const struct piece *p, uint32_t view)
{
    return restart_draft_ended((struct restart_draft *)(void *)p[0].bytes, view, second);
}

static uint32_t call_run(const struct piece *p, uint32_t view)
{
    return restart_draft_run((struct restart_draft *)(void *)p[0].bytes, view, second);
}

static uint32_t call_write(const struct piece *p, uint32_t node)
{
    (void)node;
    return restart_draft_write((const struct restart_draft *)(const void *)p[0].bytes, p[1].bytes,
                               p[1].length);
}

static uint32_t call_task(const struct piece *p, uint32_t node)
{
    (void)node;
    return restart_read_task(p[0].bytes, p[0].length, p[1].bytes, p[1].length,
                             (struct restart_task *)(void *)p[2].bytes);
}

static const struct entry begin_entry = {"restart_draft_begin", 2, 1, call_begin};
static const struct entry shard_entry = {"restart_draft_shard", 1, 1, call_shard};
static const struct entry ended_entry = {"restart_draft_ended", 1, 1, call_ended};
static const struct entry run_entry = {"restart_draft_run", 1, 1, call_run};
static const struct entry write_entry = {"restart_draft_write", 2, 2, call_write};
static const struct entry task_entry = {"restart_read_task", 3, 4, call_task};

static struct piece pieces[MOST_PIECES];

static void lend_draft(void)
{
    pieces[0] = (struct piece){(uint8_t *)&draft, sizeof draft};
}

/* Begins under the settings that lie in the second piece. */
static void starts(uint32_t node, uint32_t view, uint32_t members, uint32_t answer)
{
    lend_draft();
    head[0] = node;
    head[1] = view;
    head[2] = members;
    check_call(&begin_entry, pieces, 0, answer);
}

static void shard(uint32_t members, uint32_t answer)
{
    lend_draft();
    check_call(&shard_entry, pieces, members, answer);
}

static void ended(uint32_t view, uint32_t k, uint32_t answer)
{
    lend_draft();
    second = k;
    check_call(&ended_entry, pieces, view, answer);
}

static void run(uint32_t view, uint32_t count, uint32_t answer)
{
    lend_draft();
    second = count;
    check_call(&run_entry, pieces, view, answer);
}

static void has_room(uint32_t runs)
{
    check_word("room", restart_draft_room(&draft), runs);
}

/* Writes; the buffer holds other bytes before. */
static void writes(uint32_t answer)
{
    memset(buffer, 0xEE, sizeof buffer);
    lend_draft();
    struct piece settings = pieces[1];
    pieces[1] = (struct piece){buffer, sizeof buffer};
    check_call(&write_entry, pieces, 0, answer);
    pieces[1] = settings;
}

/* The buffer has these words and zeros. */
static void holds(const char *what, const uint32_t *words, size_t count)
{
    uint8_t expected[RESTART_BUFFER_BYTES];
    memset(expected, 0, sizeof expected);
    put_words(expected, words, count);
    check_bytes(what, buffer, expected, sizeof expected);
}

static void under(const uint32_t *words, size_t count)
{
    static uint8_t settings[RESTART_SETTINGS_BYTES];
    pieces[1] = (struct piece){settings, put_words(settings, words, count)};
}

static void case_a(void)
{
    world_fresh(&world);
    pieces[1] = (struct piece){world.settings, sizeof world.settings};
}

/* ---- What is written ---- */

static const uint32_t plain[20] = {1, 7, 127, 1,  256, 5, 0,   2, 257, 82,
                                   0, 3, 258, 32, 0,   4, 769, 7, 5,   0};
static const uint32_t with_end[36] = {1,   7,  127, 1, 256, 5, 0, 2, 257, 82, 0, 3,
                                      258, 32, 0,   4, 512, 0, 0, 5, 513, 7,  5, 6,
                                      514, 6,  9,   7, 769, 6, 2, 8, 769, 7,  5, 0};

static void written(void)
{
    case_a();
    starts(1, 7, 127, RESTART_ACCEPTED);
    has_room(124);
    shard(5, RESTART_ACCEPTED);
    shard(82, RESTART_ACCEPTED);
    run(7, 5, RESTART_ACCEPTED);
    has_room(123);
    writes(AT(17, 3)); /* shard 2 is missing; the run is the last record so far */
    shard(32, RESTART_ACCEPTED);
    writes(LENGTH(20));
    holds("a run", plain, COUNT(plain));

    /* a position before its shard's runs, and after them */
    starts(1, 7, 127, RESTART_ACCEPTED);
    shard(5, RESTART_ACCEPTED);
    ended(0, 0, RESTART_ACCEPTED);
    has_room(121);
    shard(82, RESTART_ACCEPTED);
    run(6, 2, RESTART_ACCEPTED);
    ended(7, 5, RESTART_ACCEPTED);
    run(7, 5, RESTART_ACCEPTED);
    has_room(119);
    shard(32, RESTART_ACCEPTED);
    writes(AT(17, 7)); /* its position is missing */
    ended(6, 9, RESTART_ACCEPTED);
    writes(LENGTH(36));
    holds("a termination", with_end, COUNT(with_end));

    /* it can go on after it was written */
    run(7, 1, RESTART_ACCEPTED);
    writes(LENGTH(40));
    pieces[1] = (struct piece){buffer, sizeof buffer - 1};
    lend_draft();
    check_call(&write_entry, pieces, 0, RESTART_WRONG_LENT);
}

/* ---- What is refused ---- */

static void refused(void)
{
    case_a();
    starts(7, 7, 127, RESTART_WRONG_NODE);
    starts(1, 0, 127, RESTART_WRONG_VIEW);
    starts(1, UINT32_MAX, 127, RESTART_WRONG_VIEW);
    starts(1, 7, 128 + 2, RESTART_WRONG_VIEW);
    starts(1, 7, 125, RESTART_WRONG_VIEW);
    pieces[1].length -= 4;
    starts(1, 7, 127, RESTART_WRONG_SETTINGS);
    pieces[1].length += 4;
    starts(6, UINT32_MAX - 1, 64, RESTART_ACCEPTED);

    starts(1, 7, 63, RESTART_ACCEPTED);
    run(7, 5, AT(17, 4)); /* no shard is at hand */
    ended(7, 5, AT(17, 4));
    shard(0, RESTART_WRONG_SHARD);
    shard(64, RESTART_WRONG_SHARD);
    shard(5, RESTART_ACCEPTED);
    shard(4, RESTART_WRONG_SHARD); /* node 2 is in shard 0 */
    shard(18, RESTART_ACCEPTED);
    run(0, 5, RESTART_WRONG_POSITION);
    run(8, 5, RESTART_WRONG_POSITION);
    run(6, 0, RESTART_WRONG_POSITION);
    run(6, 1, RESTART_ACCEPTED);
    run(6, 2, AT(17, 5)); /* a repeat */
    run(5, 2, AT(17, 5)); /* an earlier view */
    run(7, 1, RESTART_ACCEPTED);
    ended(7, 1, AT(17, 4)); /* shard 0 has no position */
    shard(32, RESTART_ACCEPTED);
    run(5, 1, RESTART_ACCEPTED); /* another shard's views begin anew */
    shard(8, AT(16, 4));
    writes(LENGTH(28));

    starts(1, 7, 127, RESTART_ACCEPTED);
    shard(5, RESTART_ACCEPTED);
    ended(0, 1, RESTART_WRONG_POSITION);
    ended(1, 0, RESTART_WRONG_POSITION);
    ended(8, 1, RESTART_WRONG_POSITION);
    ended(7, 1, RESTART_ACCEPTED);
    ended(7, 1, AT(17, 5)); /* a repeat */
    shard(82, RESTART_ACCEPTED);
    shard(32, AT(17, 5)); /* shard 1 lacks its position, record 5 */
}

/* Shards of two subgroups may share a node. */
static void subgroups(void)
{
    static const uint32_t words[8] = {2, 1, 1, 2, 0, 0, 1, 257};
    under(words, COUNT(words));
    starts(0, 1, 3, RESTART_ACCEPTED);
    shard(1, RESTART_ACCEPTED);
    shard(1, RESTART_ACCEPTED);
    writes(LENGTH(12));
}

/* ---- The longest ---- */

static const uint32_t most_words[52] = {32, 1, 1, 16, 0, 0, 0, 0, 0, 0, 0, 0, 0, 0, 0, 0, 0, 0,
                                        0,  0, 0, 0,  0, 0, 0, 0, 0, 0, 0, 0, 0, 0, 0, 0, 0, 0,
                                        1,  1, 1, 1,  1, 1, 1, 1, 1, 1, 1, 1, 1, 1, 1, 1};

/* 16 shards, and as many runs of the last one as there is room for. */
static void longest(int with_termination, uint32_t runs)
{
    under(most_words, COUNT(most_words));
    starts(31, 1000, UINT32_MAX, RESTART_ACCEPTED);
    for (uint32_t s = 0; s < 16; s++) {
        shard(UINT32_C(3) << 2 * s, RESTART_ACCEPTED);
        if (with_termination)
            ended(s, s, RESTART_ACCEPTED);
    }
    has_room(runs);
    for (uint32_t view = 1; view <= runs; view++)
        run(view, view, RESTART_ACCEPTED);
    has_room(0);
    run(1000, 1, RESTART_WRONG_LENGTH);
    writes(LENGTH(512));
}

/* A termination that comes after the runs finds room or not. */
static void late_position(uint32_t runs, uint32_t answer, uint32_t room)
{
    under(most_words, COUNT(most_words));
    starts(31, 1000, UINT32_MAX, RESTART_ACCEPTED);
    shard(3, RESTART_ACCEPTED);
    for (uint32_t view = 1; view <= runs; view++)
        run(view, view, RESTART_ACCEPTED);
    ended(1, 1, answer);
    has_room(room);
}

/* ---- Every short draft of two shards ----
 * A step is taken exactly if restart_write_report takes the report with this step and right records
 * for what is still to come; else the number is the same and, unless a record is missing, the index.
 */

enum { SHARD, ENDED, RUN };

static const uint32_t steps[][3] = {
    {SHARD, 0, 0}, {SHARD, 1, 0}, {SHARD, 2, 0}, {SHARD, 3, 0}, {SHARD, 16, 0},
    {ENDED, 0, 0}, {ENDED, 2, 1}, {ENDED, 0, 1}, {ENDED, 3, 1}, {RUN, 1, 1},
    {RUN, 2, 4},   {RUN, 3, 1},   {RUN, 1, 0},
};

/* The records of a draft as contents: members, positions, runs. */
struct raw {
    uint32_t records[3][6][3];
    size_t counts[3];
};

static void add(struct raw *raw, size_t kind, uint32_t at_hand, uint32_t word1, uint32_t word2)
{
    uint32_t *record = raw->records[kind][raw->counts[kind]++];
    record[0] = (uint32_t)(256 * (kind + 1)) + at_hand;
    record[1] = word1;
    record[2] = word2;
}

/* What the writer says of these records with right ones for what is to come. */
static uint32_t written_later(struct raw raw, const uint8_t *settings, size_t settings_len)
{
    uint8_t contents[RESTART_CONTENTS_BYTES];
    const uint32_t first[3] = {0, 2, 15};
    size_t words = put_words(contents, first, 3) / 4;
    for (uint32_t s = (uint32_t)raw.counts[SHARD]; s < 2; s++) {
        add(&raw, SHARD, s, UINT32_C(4) << s, 0); /* nodes that no step names */
        if (raw.counts[ENDED] != 0)
            add(&raw, ENDED, s, 0, 0);
    }
    for (size_t kind = SHARD; kind <= RUN; kind++)
        for (size_t i = 0; i < raw.counts[kind]; i++)
            words += put_words(contents + 4 * words, raw.records[kind][i], 3) / 4;
    return restart_write_report(settings, settings_len, contents, 4 * words, buffer, sizeof buffer);
}

static uint32_t tries, accepted;

static void try_all(const struct restart_draft *from, const struct raw *so_far, unsigned depth)
{
    static const char name[] = "a step as the writer has it";
    for (size_t i = 0; depth != 0 && i < COUNT(steps); i++) {
        struct restart_draft now = *from;
        struct raw raw = *so_far;
        size_t kind = steps[i][0];
        uint32_t shards = (uint32_t)raw.counts[SHARD], word1 = steps[i][1], word2 = steps[i][2];
        uint32_t answer = kind == SHARD   ? restart_draft_shard(&now, word1)
                          : kind == ENDED ? restart_draft_ended(&now, word1, word2)
                                          : restart_draft_run(&now, word1, word2);
        tries++;
        if (kind != SHARD && shards == 0) { /* the writer knows no such record */
            check_word("a record of no shard", restart_number_of(answer), RESTART_WRONG_SEQUENCE);
            continue;
        }
        add(&raw, kind, kind == SHARD ? shards : shards - 1, word1, word2);
        struct raw whole = raw;
        /* unless this step goes on to the next shard, the position at hand may still come */
        if (kind != SHARD && raw.counts[ENDED] != 0 && raw.counts[ENDED] == shards - 1)
            add(&whole, ENDED, shards - 1, 0, 0);
        if (kind == SHARD && raw.counts[ENDED] != 0 && raw.counts[ENDED] == shards)
            add(&whole, ENDED, shards, 0, 0);
        uint32_t later = written_later(whole, from->settings, from->settings_len);
        check_word(name, restart_number_of(answer), restart_number_of(later));
        if (restart_is_refusal(answer)) {
            check_word("a refused step", memcmp(&now, from, sizeof now) == 0, 1);
            if (kind == RUN)
                check_word("the index of a run", answer, later);
            continue;
        }
        accepted++;
        try_all(&now, &raw, depth - 1);
    }
}

static void all_short(void)
{
    static const uint32_t words[11] = {5, 1, 1, 2, 0, 0, 0, 0, 0, 1, 1};
    static const struct raw none;
    under(words, COUNT(words));
    starts(0, 2, 15, RESTART_ACCEPTED);
    struct restart_draft from = draft;
    try_all(&from, &none, 7);
    check_word("many were tried", tries > 5000 && accepted > 500, 1);
}

/* ---- Orders ---- */

static void same_shard(const char *what, const struct restart_shard *found, uint32_t members,
                       uint32_t carried, uint32_t holder, struct restart_position cut,
                       struct restart_position target)
{
    check_word(what, found->members, members);
    check_word(what, found->carried, carried);
    check_word(what, found->holder, holder);
    check_word(what, found->cut.view, cut.view);
    check_word(what, found->cut.k, cut.k);
    check_word(what, found->target.view, target.view);
    check_word(what, found->target.k, target.k);
}

/* The orders of case A: nodes 0 and 2 carry shard 0, nodes 1, 4 and 5 shard 1, node 3 shard 2. */
static void orders(void)
{
    static const struct restart_position none = {0, 0}, four = {7, 4}, five = {7, 5};
    static const struct restart_task empty;
    struct restart_task task;
    world_ordered(&world);
    for (uint32_t node = 0; node < 6; node++) {
        uint32_t answer = restart_order(RESTART_PLANNER, world.settings, sizeof world.settings,
                                        world.state, sizeof world.state, world.desk,
                                        sizeof world.desk, node, buffer, sizeof buffer);
        pieces[0] = (struct piece){world.settings, sizeof world.settings};
        pieces[1] = (struct piece){buffer, 4 * (size_t)restart_length_of(answer)};
        pieces[2] = (struct piece){(uint8_t *)&task, sizeof task};
        memset(&task, 0xEE, sizeof task);
        check_call(&task_entry, pieces, 0, RESTART_ACCEPTED);
        check_word("whose order", task.node, node);
        check_word("its view", task.view, 8);
        check_word("its members", task.members, 63);
        check_word("its shards", task.shards, 3);
        same_shard("shard 0", &task.shard[0], 5, node == 0 || node == 2, 0, none, none);
        same_shard("shard 1", &task.shard[1], 50, node == 1 || node == 4 || node == 5,
                   node == 1 || node == 4 || node == 5 ? 1 : 0,
                   node == 1   ? five
                   : node == 4 ? four
                               : none,
                   five);
        same_shard("shard 2", &task.shard[2], 8, node == 3, node == 3 ? 5 : 0, none, none);
        for (uint32_t s = 3; s < RESTART_SHARDS; s++)
            check_bytes("no shard", (const uint8_t *)&task.shard[s],
                        (const uint8_t *)&empty.shard[0], sizeof task.shard[s]);
    }
    /* what restart_read_order refuses: an order cut off, a report */
    pieces[1].length -= 16;
    check_call(&task_entry, pieces, 0, AT(8, (uint32_t)(pieces[1].length / 16 - 1)));
    pieces[1].length -= 4;
    check_call(&task_entry, pieces, 0, RESTART_WRONG_LENGTH);
    pieces[1].length = put_report(buffer, 1);
    check_call(&task_entry, pieces, 0, AT(9, 4));
}

int main(void)
{
    written();
    refused();
    subgroups();
    longest(0, 111);
    longest(1, 95);
    late_position(95, RESTART_ACCEPTED, 0);
    late_position(96, RESTART_WRONG_LENGTH, 15);
    all_short();
    orders();
    return summary();
}
