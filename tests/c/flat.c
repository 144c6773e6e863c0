/*
 * Flat reports of the former seller, turned into reports and back: what is written, what is refused
 * and at which record, and both round trips. Case A's settings where no others are named. All memory
 * lies between pages without access.
 */
#include "world.h"

#include <string.h>

#define COUNT(array) (sizeof(array) / sizeof((array)[0]))
#define LENGTH(words) (16777216u + (words))

/* The longest flat report here has one shard and 200 runs. */
enum { MOST_WORDS = 20, ROOM_WORDS = 607 };

static struct world world;
static struct piece pieces[MOST_PIECES];
static uint8_t flat[4 * ROOM_WORDS + 4];
static uint8_t written[RESTART_BUFFER_BYTES], again[RESTART_BUFFER_BYTES];

static void put_settings(const uint32_t *words, size_t count)
{
    static uint8_t settings[RESTART_SETTINGS_BYTES];
    pieces[0] = (struct piece){settings, put_words(settings, words, count)};
}

static void case_a(void)
{
    world_fresh(&world);
    pieces[0] = (struct piece){world.settings, sizeof world.settings};
}

/* Turns what is lent into the buffer, which holds other bytes before. */
static void turn(const struct entry *entry, uint8_t *lent, size_t length, uint8_t *buffer,
                 uint32_t answer)
{
    memset(buffer, 0xEE, RESTART_BUFFER_BYTES);
    pieces[1] = (struct piece){lent, length};
    pieces[2] = (struct piece){buffer, RESTART_BUFFER_BYTES};
    check_call(entry, pieces, 0, answer);
}

/* Checks that a buffer holds these bytes and zeros. */
static void check_buffer(const char *what, const uint8_t *found, const uint8_t *bytes,
                         size_t length)
{
    uint8_t expected[RESTART_BUFFER_BYTES];
    memset(expected, 0, sizeof expected);
    memcpy(expected, bytes, length);
    check_bytes(what, found, expected, sizeof expected);
}

/* A flat report that is taken has a report of this length, and comes back from the report's words
 * and from the whole buffer. The buffer with a flat report is none. */
static void there_and_back(size_t flat_words, uint32_t report_words)
{
    uint32_t answer = LENGTH((uint32_t)flat_words);
    turn(&from_flat, flat, 4 * flat_words, written, LENGTH(report_words));
    turn(&to_flat, written, 4 * (size_t)report_words, again, answer);
    check_buffer("a flat report that comes back", again, flat, 4 * flat_words);
    turn(&to_flat, written, sizeof written, again, answer);
    check_buffer("the same from the whole buffer", again, flat, 4 * flat_words);
    turn(&from_flat, again, sizeof again, written, RESTART_FLAT_LENGTH);
}

/* ---- What is taken ---- */

/* The head and the masks of case A, with node 1. */
#define HEAD 1, 7, 127
#define MASKS 3, 5, 82, 32
#define REPORT 1, 7, 127, 1, 256, 5, 0, 2, 257, 82, 0, 3, 258, 32, 0, 4

static void taken(void)
{
    static const uint32_t run[12] = {HEAD, MASKS, 0, 1, 1, 7, 5};
    static const uint32_t run_report[20] = {REPORT, 769, 7, 5, 0};
    static const uint32_t ended[18] = {HEAD, MASKS, 1, 0, 0, 7, 5, 0, 0, 1, 1, 7, 5};
    static const uint32_t ended_report[32] = {REPORT, 512, 0, 0, 5,   513, 7, 5, 6,
                                              514,    0,   0, 7, 769, 7,   5, 0};
    static const uint32_t empty[9] = {HEAD, MASKS, 0, 0};
    uint8_t expected[4 * 32];
    case_a();
    put_words(flat, run, COUNT(run));
    there_and_back(COUNT(run), 20);
    turn(&from_flat, flat, 4 * COUNT(run), written, LENGTH(20));
    check_buffer("a run", written, expected, put_words(expected, run_report, 20));

    put_words(flat, ended, COUNT(ended));
    there_and_back(COUNT(ended), 32);
    turn(&from_flat, flat, 4 * COUNT(ended), written, LENGTH(32));
    check_buffer("a termination", written, expected, put_words(expected, ended_report, 32));

    put_words(flat, empty, COUNT(empty));
    there_and_back(COUNT(empty), 16);
}

/* ---- What is refused under case A's settings ---- */

struct refused {
    uint32_t count;
    uint32_t words[MOST_WORDS];
    uint32_t answer;
};

/* The words before the triples, with no termination and so many of them. */
#define RUNS(count) HEAD, MASKS, 0, count

static const struct refused refusals[] = {
    /* a mask more than there are shards, and one less: the last record is told */
    {10, {HEAD, 4, 5, 82, 32, 8, 0, 0}, AT(16, 4)},
    {8, {HEAD, 2, 5, 82, 0, 0}, AT(17, 2)},
    {11, {HEAD, 2, 5, 82, 0, 1, 1, 7, 5}, AT(17, 3)},
    {12, {HEAD, 2, 5, 82, 1, 0, 0, 7, 5, 0}, AT(17, 4)},
    /* no masks at all: the head is the last */
    {6, {HEAD, 0, 0, 0}, AT(17, 0)},
    /* a shard that the settings do not have, however large */
    {12, {RUNS(1), 3, 7, 5}, AT(16, 4)},
    {12, {RUNS(1), 16, 7, 5}, AT(16, 4)},
    {12, {RUNS(1), 255, 7, 5}, AT(16, 4)},
    {12, {RUNS(1), 256, 7, 5}, AT(16, 4)},
    {12, {RUNS(1), 257, 7, 5}, AT(16, 4)},
    {12, {RUNS(1), 65537, 7, 5}, AT(16, 4)},
    {12, {RUNS(1), 4294967295, 7, 5}, AT(16, 4)},
    {15, {RUNS(2), 1, 7, 5, 256, 7, 5}, AT(16, 5)},
    {18, {HEAD, MASKS, 1, 0, 0, 7, 5, 0, 0, 1, 4294967041, 7, 5}, AT(16, 7)},
    /* runs out of sequence, and twice the same */
    {15, {RUNS(2), 1, 7, 1, 0, 7, 1}, AT(17, 5)},
    {15, {RUNS(2), 1, 7, 1, 1, 6, 1}, AT(17, 5)},
    {15, {RUNS(2), 1, 7, 1, 1, 7, 2}, AT(17, 5)},
    /* a run or a position that no log can have */
    {12, {RUNS(1), 1, 0, 1}, 11},
    {12, {RUNS(1), 1, 8, 1}, 11},
    {15, {HEAD, MASKS, 1, 0, 3, 0, 0, 0, 0, 0}, 11},
    {15, {HEAD, MASKS, 1, 8, 1, 0, 0, 0, 0, 0}, 11},
    /* a count of 0, whatever else is wrong with its triple, but for the length */
    {12, {RUNS(1), 1, 7, 0}, 20},
    {12, {RUNS(1), 300, 7, 0}, 20},
    {15, {RUNS(2), 1, 7, 1, 0, 0, 0}, 20},
    {12, {RUNS(2), 1, 7, 0}, 19},
    /* head and masks */
    {12, {9, 7, 127, MASKS, 0, 1, 1, 7, 5}, 6},
    {12, {9, 7, 127, MASKS, 2, 1, 1, 7, 5}, 19},
    {12, {1, 0, 127, MASKS, 0, 1, 1, 7, 5}, 7},
    {12, {1, 4294967295, 127, MASKS, 0, 1, 1, 7, 5}, 7},
    {12, {1, 7, 125, MASKS, 0, 1, 1, 7, 5}, 7},
    {12, {HEAD, 3, 0, 82, 32, 0, 1, 1, 7, 5}, 10},
    {12, {HEAD, 3, 0, 82, 32, 0, 1, 1, 8, 1}, 10},
    {12, {HEAD, 3, 5, 82, 36, 0, 1, 1, 7, 5}, 10},
    /* words that end before a count */
    {0, {0}, 19},
    {1, {0}, 19},
    {2, {0}, 19},
    {3, {0}, 19},
    {4, {0}, 19},
    {5, {0}, 19},
    {6, {0}, 7},
    {7, {HEAD, MASKS}, 19},
    {8, {HEAD, MASKS, 0}, 19},
    /* a termination word above 1, without positions and with them */
    {9, {HEAD, MASKS, 2, 0}, 19},
    {15, {HEAD, MASKS, 2, 0, 0, 7, 5, 0, 0, 0}, 19},
    {9, {HEAD, MASKS, 4294967295, 0}, 19},
    /* a word more or less; positions that are not announced, or not there */
    {13, {RUNS(1), 1, 7, 5, 0}, 19},
    {11, {RUNS(1), 1, 7}, 19},
    {15, {HEAD, MASKS, 0, 0, 0, 7, 5, 0, 0, 0}, 19},
    {9, {HEAD, MASKS, 1, 0}, 19},
    /* counts whose sum is right modulo 2 ^ 32 only */
    {6, {HEAD, 4294967295, 0, 0}, 19},
    {9, {RUNS(4294967295)}, 19},
    {11, {RUNS(1431655766), 0, 0}, 19},
    {8, {HEAD, 2147483649, 1, 0, 0, 0}, 19},
};

static void refused(void)
{
    case_a();
    for (size_t i = 0; i < COUNT(refusals); i++) {
        put_words(flat, refusals[i].words, refusals[i].count);
        turn(&from_flat, flat, 4 * (size_t)refusals[i].count, written, refusals[i].answer);
    }
}

/* Part words after those of a flat report that is taken, and in place of its last one. */
static void part_words(void)
{
    static const uint32_t words[12] = {RUNS(1), 1, 7, 5};
    case_a();
    size_t length = put_words(flat, words, COUNT(words));
    for (size_t more = 1; more < 4; more++) {
        turn(&from_flat, flat, length + more, written, RESTART_FLAT_LENGTH);
        turn(&from_flat, flat, length - more, written, RESTART_FLAT_LENGTH);
    }
    turn(&from_flat, flat, length, written, LENGTH(20));
}

/* ---- How many records there can be ---- */

/* So many runs, as many of each shard but the last as are said; gives the length in words. */
static size_t put_runs(size_t at, uint32_t count, uint32_t of_one)
{
    restart_put_word(flat, at++, count);
    for (uint32_t i = 0; i < count; i++) {
        restart_put_word(flat, at++, i / of_one);
        restart_put_word(flat, at++, 1 + i % of_one);
        restart_put_word(flat, at++, 1 + i);
    }
    return at;
}

/* A machine, a shard and its runs of so many views. */
static size_t put_single(uint32_t runs)
{
    static const uint32_t words[6] = {0, 200, 1, 1, 1, 0};
    put_words(flat, words, COUNT(words));
    return put_runs(6, runs, runs);
}

/* 16 shards of four subgroups on four machines, with a termination or not. */
static size_t put_sixteen(uint32_t ended, uint32_t runs)
{
    size_t at = put_words(flat, (const uint32_t[]){2, 9, 15, 16}, 4) / 4;
    for (uint32_t shard = 0; shard < 16; shard++)
        restart_put_word(flat, at++, 1u << shard % 4);
    restart_put_word(flat, at++, ended);
    for (uint32_t shard = 0; ended == 1 && shard < 16; shard++) {
        restart_put_word(flat, at++, shard % 2 == 0 ? 0 : 9);
        restart_put_word(flat, at++, shard % 2 == 0 ? 0 : shard);
    }
    return put_runs(at, runs, 7);
}

/* The same with a count of 0 in the last triple. */
static void zero_last(size_t words)
{
    restart_put_word(flat, words - 1, 0);
    turn(&from_flat, flat, 4 * words, written, RESTART_FLAT_COUNT);
}

static void many_records(void)
{
    static const uint32_t single[6] = {1, 1, 1, 1, 0, 1};
    uint32_t sixteen[24] = {4, 1, 1, 16, 0, 0, 0, 0};
    size_t words;
    for (uint32_t shard = 0; shard < 16; shard++)
        sixteen[8 + shard] = shard / 4 * 256 + 1;

    put_settings(single, COUNT(single));
    words = put_single(126);
    check_word("the longest flat report", (uint32_t)words, 385);
    there_and_back(words, 512);
    zero_last(words);
    words = put_single(127);
    turn(&from_flat, flat, 4 * words, written, RESTART_FLAT_RECORDS);
    zero_last(words);
    words = put_single(200);
    check_word("longer than a message", (uint32_t)words, ROOM_WORDS);
    turn(&from_flat, flat, 4 * words, written, RESTART_FLAT_RECORDS);
    turn(&from_flat, flat, 4 * words + 4, written, RESTART_FLAT_LENGTH);
    zero_last(words);

    put_settings(sixteen, COUNT(sixteen));
    words = put_sixteen(1, 95);
    check_word("16 shards with a termination", (uint32_t)words, 339);
    there_and_back(words, 512);
    turn(&from_flat, flat, 4 * put_sixteen(1, 96), written, RESTART_FLAT_RECORDS);
    words = put_sixteen(0, 111);
    check_word("16 shards without", (uint32_t)words, 355);
    there_and_back(words, 512);
    turn(&from_flat, flat, 4 * put_sixteen(0, 112), written, RESTART_FLAT_RECORDS);
}

/* ---- Reports that become flat ---- */

/* A report whose chain is records 0, 2, 3, 5 and 9 of 12, the others of any words: it comes back with
 * its records one after another. */
static void gaps(void)
{
    static const uint32_t compact[20] = {REPORT, 769, 7, 5, 0};
    static const uint32_t places[5] = {0, 2, 3, 5, 9};
    static const uint32_t plain[12] = {RUNS(1), 1, 7, 5};
    uint8_t message[4 * 48], expected[4 * 20];
    case_a();
    memset(message, 0xDD, sizeof message);
    for (size_t i = 0; i < 5; i++) {
        for (size_t k = 0; k < 3; k++)
            restart_put_word(message, 4 * places[i] + k, compact[4 * i + k]);
        restart_put_word(message, 4 * places[i] + 3, i < 4 ? places[i + 1] : 0);
    }
    turn(&to_flat, message, sizeof message, written, LENGTH(12));
    check_buffer("a flat report of a chain with gaps", written, expected,
                 put_words(expected, plain, COUNT(plain)));
    turn(&from_flat, written, 4 * COUNT(plain), again, LENGTH(20));
    check_buffer("its records one after another", again, expected,
                 put_words(expected, compact, 20));
}

/* What the reader refuses, by the same word; an order is no report. */
static void not_to_flat(void)
{
    static const struct refused rows[] = {
        {0, {0}, 5},
        {4, {1, 7, 127, 0}, AT(17, 0)},
        {19, {REPORT, 769, 7, 5}, 5},
        {16, {REPORT}, AT(8, 3)},
        {20, {REPORT, 1025, 1, 0, 0}, AT(9, 4)},
        {20, {REPORT, 771, 7, 5, 0}, AT(16, 4)},
        {20, {REPORT, 512, 7, 5, 0}, AT(17, 4)},
        {20, {REPORT, 769, 7, 0, 0}, 11},
        {20, {9, 7, 127, 1, 256, 5, 0, 2, 257, 82, 0, 3, 258, 32, 0, 4, 769, 7, 5, 0}, 6},
        {20, {1, 0, 127, 1, 256, 5, 0, 2, 257, 82, 0, 3, 258, 32, 0, 4, 769, 7, 5, 0}, 7},
        {20, {1, 7, 127, 1, 256, 0, 0, 2, 257, 82, 0, 3, 258, 32, 0, 4, 769, 7, 5, 0}, 10},
    };
    uint8_t message[4 * MOST_WORDS];
    case_a();
    for (size_t i = 0; i < COUNT(rows); i++) {
        size_t length = put_words(message, rows[i].words, rows[i].count);
        turn(&to_flat, message, length, written, rows[i].answer);
        turn(&read_report, message, length, written, rows[i].answer);
    }
}

/* A flat report, turned, is fed to a restart as it is. */
static void fed(void)
{
    static const uint32_t words[12] = {RUNS(1), 1, 7, 5};
    case_a();
    size_t length = put_words(flat, words, COUNT(words));
    turn(&from_flat, flat, length, written, LENGTH(20));
    check_word("a report that was flat",
               restart_report(RESTART_PLANNER, world.settings, sizeof world.settings, world.state,
                              sizeof world.state, world.desk, sizeof world.desk, written, 4 * 20),
               RESTART_ACCEPTED);
    check_bytes("its slot", world.desk + RESTART_SLOT_BYTES, written, RESTART_SLOT_BYTES);
}

int main(void)
{
    taken();
    refused();
    part_words();
    many_records();
    gaps();
    not_to_flat();
    fed();
    return summary();
}
