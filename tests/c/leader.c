/*
 * What a leader keeps: the calls over it beside the plain ones on case A, who still owes a mark, and
 * the leader's file: its bytes by hand, taken up again, and every kind of wrong file told by its
 * number. Case A's settings where no others are named.
 */
#include "world.h"

#include <string.h>

#define COUNT(array) (sizeof(array) / sizeof((array)[0]))
#define LENGTH(words) (16777216u + (words))

enum {
    OWN_WORDS = 3,
    HEAD = 28,
    SETTINGS_LEN = 4 * 14,
    STATE_AT = HEAD + SETTINGS_LEN,
    DESK_AT = STATE_AT + RESTART_STATE_BYTES,
    OWN_AT = DESK_AT + RESTART_DESK_BYTES,
    SUM_AT = OWN_AT + 4 * OWN_WORDS,
    FILE_LEN = SUM_AT + 4
};

static const uint64_t tag = UINT64_C(0x0123456789ABCDEF);
static const uint32_t own_words[OWN_WORDS] = {7, 127, 0x5A5A5A5A};

static struct world world;
static struct restart_leader leader, other;
static uint8_t file[RESTART_FILE_BYTES + RESTART_OWN_BYTES + 8];
static uint8_t own[RESTART_OWN_BYTES + 4];
static struct piece pieces[MOST_PIECES];

#define LENT(who)                                                                                  \
    RESTART_PLANNER, (who)->settings, sizeof(who)->settings, (who)->state, sizeof(who)->state,     \
        (who)->desk, sizeof(who)->desk

/* ---- The calls between pages without access ---- */

static uint32_t call_begin(const struct piece *p, uint32_t node)
{
    (void)node;
    return restart_leader_begin((struct restart_leader *)(void *)p[0].bytes, p[1].bytes,
                                p[1].length, tag);
}

static uint32_t call_save(const struct piece *p, uint32_t node)
{
    (void)node;
    return restart_leader_save((const struct restart_leader *)(const void *)p[0].bytes, p[1].bytes,
                               p[1].length, p[2].bytes, p[2].length);
}

static uint32_t call_take(const struct piece *p, uint32_t node)
{
    (void)node;
    return restart_leader_take((struct restart_leader *)(void *)p[0].bytes, p[1].bytes, p[1].length,
                               p[2].bytes, p[2].length);
}

static const struct entry begin_entry = {"restart_leader_begin", 2, 1, call_begin};
static const struct entry save_entry = {"restart_leader_save", 3, 4, call_save};
static const struct entry take_entry = {"restart_leader_take", 3, 3, call_take};

static void begins(struct restart_leader *who, uint8_t *settings, size_t length, uint32_t answer)
{
    pieces[0] = (struct piece){(uint8_t *)who, sizeof *who};
    pieces[1] = (struct piece){settings, length};
    check_call(&begin_entry, pieces, 0, answer);
}

static void saves(size_t own_len, size_t file_len, uint32_t answer)
{
    pieces[0] = (struct piece){(uint8_t *)&leader, sizeof leader};
    pieces[1] = (struct piece){own, own_len};
    pieces[2] = (struct piece){file, file_len};
    check_call(&save_entry, pieces, 0, answer);
}

/* Takes the file into the other leader. */
static void takes(size_t own_len, size_t file_len, uint32_t answer)
{
    pieces[0] = (struct piece){(uint8_t *)&other, sizeof other};
    pieces[1] = (struct piece){own, own_len};
    pieces[2] = (struct piece){file, file_len};
    check_call(&take_entry, pieces, 0, answer);
}

/* ---- The calls over it, and who owes a mark ---- */

/* State and desk are those of the plain calls, and these still owe. */
static void same(const char *what, uint32_t owing)
{
    check_bytes(what, leader.state, world.state, sizeof world.state);
    check_bytes(what, leader.desk, world.desk, sizeof world.desk);
    check_word(what, restart_owing(leader.state), owing);
}

static void same_buffers(const char *what, const uint8_t *found, const uint8_t *expected)
{
    check_bytes(what, found, expected, RESTART_BUFFER_BYTES);
}

static void calls(void)
{
    uint8_t message[RESTART_MESSAGE_BYTES];
    uint8_t found[RESTART_BUFFER_BYTES], expected[RESTART_BUFFER_BYTES];
    world_fresh(&world);
    memset(world.desk, 0, sizeof world.desk);
    memset(&leader, 0xEE, sizeof leader);
    begins(&leader, world.settings, sizeof world.settings, RESTART_ACCEPTED);
    check_word("its tag", leader.tag == tag, 1);
    check_word("its settings", (uint32_t)leader.settings_len, sizeof world.settings);
    check_bytes("its settings", leader.settings, world.settings, sizeof world.settings);
    same("fresh", 0);
    begins(&leader, world.settings, sizeof world.settings - 4, RESTART_WRONG_SETTINGS);

    for (uint32_t node = 0; node < 7; node++) {
        size_t length = put_report(message, node);
        check_word("a report", restart_report(LENT(&world), message, length), RESTART_ACCEPTED);
        check_word("a report", restart_leader_report(&leader, message, length), RESTART_ACCEPTED);
        same("held", 0);
    }
    check_word("a report that is cut off", restart_leader_report(&leader, message, 12),
               RESTART_WRONG_LENGTH);
    for (uint32_t node = 0; node < 8; node++) {
        uint32_t answer = restart_preview(LENT(&world), node, expected, sizeof expected);
        check_word("a preview", restart_leader_preview(&leader, node, found), answer);
        if (!restart_is_refusal(answer))
            same_buffers("a preview", found, expected);
    }
    check_word("a preview of all", restart_leader_preview_all(&leader, found), LENGTH(1));
    check_word("a preview of all", restart_preview_all(LENT(&world), expected, sizeof expected),
               LENGTH(1));
    same_buffers("a preview of all", found, expected);
    for (uint32_t held = 0; held < 128; held += 31)
        check_word("a game", restart_leader_game(&leader, held, 2),
                   restart_game(LENT(&world), held, 2));
    check_word("a drop", restart_drop(LENT(&world), 6), RESTART_ACCEPTED);
    check_word("a drop", restart_leader_drop(&leader, 6), RESTART_ACCEPTED);
    same("dropped", 0);

    other = leader; /* all its bytes are in it */
    check_word("a plan by rounds", restart_leader_decide_within(&other, 0), 33554432 + 2);
    check_word("moves by rounds", restart_leader_word(&other, RESTART_PLAN_MOVES), 3);
    check_word("a plan", restart_decide(LENT(&world)), 33554432);
    check_word("a plan", restart_leader_decide(&leader), 33554432);
    same("ordered", 63);
    check_word("a word", restart_leader_word(&leader, RESTART_PLAN_VIEW), 8);
    for (uint32_t node = 0; node < 7; node++) {
        uint32_t answer = restart_order(LENT(&world), node, expected, sizeof expected);
        check_word("an order", restart_leader_order(&leader, node, found), answer);
        if (!restart_is_refusal(answer))
            same_buffers("an order", found, expected);
    }
    for (uint32_t role = 511; role < 514; role++) {
        uint32_t answer = restart_page(role, world.settings, sizeof world.settings, world.state,
                                       sizeof world.state, world.desk, sizeof world.desk, 0,
                                       expected, sizeof expected);
        check_word("a page by its role", restart_leader_page(&leader, role, 0, found), answer);
        check_word("whose page", answer, role == 512 ? LENGTH(72) : 15);
        if (role == 512)
            same_buffers("a page", found, expected);
    }
    static const uint32_t order[6] = {3, 0, 5, 1, 4, 2};
    uint32_t owing = 63;
    for (size_t i = 0; i < COUNT(order); i++) {
        check_word("fetched", restart_fetched(LENT(&world), order[i]), RESTART_ACCEPTED);
        check_word("fetched", restart_leader_fetched(&leader, order[i]), RESTART_ACCEPTED);
        owing &= ~(UINT32_C(1) << order[i]);
        same("fetched", owing != 0 ? owing : 63); /* with the last, preparing begins */
    }
    owing = 63;
    for (size_t i = 0; i < COUNT(order); i++) {
        check_word("prepared", restart_prepared(LENT(&world), order[i]), RESTART_ACCEPTED);
        check_word("prepared", restart_leader_prepared(&leader, order[i]), RESTART_ACCEPTED);
        owing &= ~(UINT32_C(1) << order[i]);
        same("prepared", owing);
    }
    check_word("committed", restart_leader_word(&leader, RESTART_PHASE), RESTART_COMMITTED);
    check_word("a sound state", restart_leader_check(&leader), RESTART_ACCEPTED);
    restart_put_word(leader.state, RESTART_PLAN_MOVES, 99);
    check_word("an unsound one", restart_leader_check(&leader), RESTART_UNSOUND_STATE);
    restart_leader_fresh(&leader, tag + 1);
    world_fresh(&world);
    check_word("another tag", leader.tag == tag + 1, 1);
    check_bytes("a fresh state", leader.state, world.state, sizeof world.state);
}

/* ---- The leader's file ---- */

/* CRC-32, bit by bit. */
static uint32_t sum_of(const uint8_t *bytes, size_t length)
{
    uint32_t sum = UINT32_MAX;
    for (size_t at = 0; at < length; at++) {
        sum ^= bytes[at];
        for (int bit = 0; bit < 8; bit++)
            sum = sum >> 1 ^ (sum & 1 ? UINT32_C(0xEDB88320) : 0);
    }
    return ~sum;
}

/* Makes the sum right again. */
static void mend(size_t file_len)
{
    restart_put_word(file, file_len / 4 - 1, sum_of(file, file_len - 4));
}

/* Case A while ordered, with words of the caller's own, as a file. */
static void saved(void)
{
    world_ordered(&world);
    begins(&leader, world.settings, sizeof world.settings, RESTART_ACCEPTED);
    memcpy(leader.state, world.state, sizeof world.state);
    memcpy(leader.desk, world.desk, sizeof world.desk);
    put_words(own, own_words, OWN_WORDS);
    memset(file, 0xEE, sizeof file);
    saves(4 * OWN_WORDS, sizeof file, LENGTH(FILE_LEN / 4));
}

/* The other leader, with these settings and nothing else of this restart. */
static void fresh_other(void)
{
    begins(&other, world.settings, sizeof world.settings, RESTART_ACCEPTED);
    memset(own, 0xEE, sizeof own);
}

static void there_and_back(void)
{
    static const uint8_t mark[4] = {'r', 'l', 'd', 'r'};
    static const uint8_t check[9] = {'1', '2', '3', '4', '5', '6', '7', '8', '9'};
    uint8_t expected[4 * OWN_WORDS];
    put_words(expected, own_words, OWN_WORDS);
    check_word("the sum's check value", sum_of(check, sizeof check), 0xCBF43926);
    saved();
    check_bytes("the mark", file, mark, sizeof mark);
    check_word("the format", restart_get_word(file, 1), 2);
    check_word("the length", restart_get_word(file, 2), FILE_LEN);
    check_word("the tag's low half", restart_get_word(file, 3), 0x89ABCDEF);
    check_word("the tag's high half", restart_get_word(file, 4), 0x01234567);
    check_word("the settings' length", restart_get_word(file, 5), SETTINGS_LEN);
    check_word("the own words' length", restart_get_word(file, 6), 4 * OWN_WORDS);
    check_bytes("the settings", file + HEAD, world.settings, SETTINGS_LEN);
    check_bytes("the state", file + STATE_AT, world.state, sizeof world.state);
    check_bytes("the desk", file + DESK_AT, world.desk, sizeof world.desk);
    check_bytes("the own words", file + OWN_AT, expected, sizeof expected);
    check_word("the sum", restart_get_word(file + SUM_AT, 0), sum_of(file, SUM_AT));
    check_word("what follows", file[FILE_LEN], 0xEE);

    fresh_other();
    takes(4 * OWN_WORDS, FILE_LEN, LENGTH(OWN_WORDS));
    check_bytes("all comes back", (const uint8_t *)&other, (const uint8_t *)&leader, sizeof leader);
    check_bytes("and the own words", own, expected, sizeof expected);
    check_word("no more than those", own[sizeof expected], 0xEE);

    memset(&other, 0xEE, sizeof other); /* a reader that knows no settings */
    other.settings_len = 0;
    takes(sizeof own, FILE_LEN, LENGTH(OWN_WORDS));
    check_bytes("all comes back", (const uint8_t *)&other, (const uint8_t *)&leader, sizeof leader);

    /* no own words, and the most; the longest settings */
    saves(0, FILE_LEN - 4 * OWN_WORDS, LENGTH(FILE_LEN / 4 - OWN_WORDS));
    fresh_other();
    takes(0, FILE_LEN - 4 * OWN_WORDS, LENGTH(0));
    static uint8_t most[RESTART_SETTINGS_BYTES];
    static const uint32_t words[4] = {32, 1, 1, 16};
    memset(most, 0, sizeof most);
    put_words(most, words, COUNT(words));
    for (size_t shard = 0; shard < 16; shard++)
        restart_put_word(most, 36 + shard, 1);
    begins(&leader, most, sizeof most, RESTART_ACCEPTED);
    saves(RESTART_OWN_BYTES, RESTART_FILE_BYTES + RESTART_OWN_BYTES - 1, RESTART_WRONG_LENT);
    saves(RESTART_OWN_BYTES, RESTART_FILE_BYTES + RESTART_OWN_BYTES,
          LENGTH((RESTART_FILE_BYTES + RESTART_OWN_BYTES) / 4));
    memset(&other, 0, sizeof other);
    takes(RESTART_OWN_BYTES, RESTART_FILE_BYTES + RESTART_OWN_BYTES, LENGTH(RESTART_OWN_BYTES / 4));
    check_bytes("the longest file", (const uint8_t *)&other, (const uint8_t *)&leader,
                sizeof leader);
}

static void not_saved(void)
{
    saved();
    saves(4 * OWN_WORDS, FILE_LEN - 1, RESTART_WRONG_LENT);
    saves(4 * OWN_WORDS - 1, sizeof file, RESTART_WRONG_LENT);
    saves(RESTART_OWN_BYTES + 4, sizeof file, RESTART_WRONG_LENT);
    leader.settings_len -= 4;
    saves(4 * OWN_WORDS, sizeof file, RESTART_WRONG_SETTINGS);
    leader.settings_len = SIZE_MAX;
    saves(4 * OWN_WORDS, sizeof file, RESTART_WRONG_SETTINGS);
    leader.settings_len = SETTINGS_LEN;
    saves(4 * OWN_WORDS, FILE_LEN, LENGTH(FILE_LEN / 4));
}

/* Takes without the pages, which take time: the answer, and that nothing has changed. */
static void refuses(const char *what, size_t file_len, uint32_t answer)
{
    static struct restart_leader before;
    memcpy(&before, &other, sizeof before);
    check_word(what, restart_leader_take(&other, own, sizeof own, file, file_len), answer);
    check_word(what, memcmp(&before, &other, sizeof before) == 0 && own[0] == 0xEE, 1);
}

static void torn(void)
{
    saved();
    fresh_other();
    for (size_t length = 0; length < FILE_LEN; length += length < 2048 ? 1 : 509)
        refuses("cut off", length, RESTART_FILE_TORN);
    refuses("cut off by a byte", FILE_LEN - 1, RESTART_FILE_TORN);
    refuses("a byte more", FILE_LEN + 1, RESTART_FILE_TORN);
    takes(sizeof own, 0, RESTART_FILE_TORN);
    takes(sizeof own, 3, RESTART_FILE_TORN);
    takes(sizeof own, 300, RESTART_FILE_TORN);
    takes(sizeof own, FILE_LEN - 4, RESTART_FILE_TORN);
    for (size_t length = 16; length < HEAD + 8; length += 4) { /* short, and right by itself */
        restart_put_word(file, 2, (uint32_t)length);
        mend(length);
        takes(sizeof own, length, RESTART_FILE_TORN);
    }
    /* the beginning of the new file and the end of the old one */
    for (size_t length = HEAD; length < SUM_AT; length += 8192) {
        saved();
        fresh_other();
        memset(file + length, 0x33, FILE_LEN - length);
        refuses("half written", FILE_LEN, RESTART_FILE_CHANGED);
    }
}

/* A bit of each byte of the head and the settings, and of some of the others. */
static void changed(void)
{
    saved();
    fresh_other();
    for (size_t at = 0; at < FILE_LEN; at += at < STATE_AT ? 1 : 997) {
        file[at] ^= 4;
        refuses("a bit that has changed", FILE_LEN,
                at < 4               ? RESTART_FILE_FOREIGN
                : at >= 8 && at < 12 ? RESTART_FILE_TORN
                                     : RESTART_FILE_CHANGED);
        file[at] ^= 4;
    }
    file[SUM_AT] ^= 1;
    takes(sizeof own, FILE_LEN, RESTART_FILE_CHANGED);
    file[0] = 0;
    takes(sizeof own, FILE_LEN, RESTART_FILE_FOREIGN);
    takes(sizeof own, 1, RESTART_FILE_FOREIGN);
}

/* Files whose sum is right, with one thing wrong; what comes first in the order is told. */
static void wrong(void)
{
    saved();
    fresh_other();
    restart_put_word(file, 1, 3);
    mend(FILE_LEN);
    takes(sizeof own, FILE_LEN, RESTART_FILE_FORMAT);

    saved();
    restart_put_word(file, 5, SETTINGS_LEN + 4);
    mend(FILE_LEN);
    fresh_other();
    takes(sizeof own, FILE_LEN, RESTART_FILE_CHANGED);
    restart_put_word(file, 5,
                     SETTINGS_LEN + 1); /* the lengths agree, and own words are not whole */
    restart_put_word(file, 6, 4 * OWN_WORDS - 1);
    mend(FILE_LEN);
    takes(sizeof own, FILE_LEN, RESTART_FILE_CHANGED);
    restart_put_word(file, 5, SETTINGS_LEN + 4 * OWN_WORDS + RESTART_DESK_BYTES);
    restart_put_word(file, 6, (uint32_t)-RESTART_DESK_BYTES);
    mend(FILE_LEN);
    takes(sizeof own, FILE_LEN, RESTART_FILE_CHANGED);
    saves(256, FILE_LEN + 244, LENGTH(FILE_LEN / 4 + 61)); /* longer settings than there are */
    restart_put_word(file, 5, RESTART_SETTINGS_BYTES + 4);
    restart_put_word(file, 6, 256 + SETTINGS_LEN - RESTART_SETTINGS_BYTES - 4);
    mend(FILE_LEN + 244);
    other.settings_len = 0;
    takes(sizeof own, FILE_LEN + 244, RESTART_FILE_CHANGED);

    saved();
    fresh_other();
    restart_put_word(other.settings, 2, 5);
    takes(0, FILE_LEN, RESTART_FILE_SETTINGS);
    fresh_other();
    other.settings_len -= 4;
    takes(0, FILE_LEN, RESTART_FILE_SETTINGS);

    fresh_other();
    takes(4 * OWN_WORDS - 1, FILE_LEN, RESTART_WRONG_LENT);

    memset(&other, 0, sizeof other);
    restart_put_word(file + HEAD, 0, 8); /* settings with a node too many */
    mend(FILE_LEN);
    takes(sizeof own, FILE_LEN, RESTART_WRONG_SETTINGS);

    saved();
    fresh_other();
    restart_put_word(file + STATE_AT, RESTART_PLAN_MOVES, 99);
    mend(FILE_LEN);
    takes(sizeof own, FILE_LEN, RESTART_UNSOUND_STATE);
    saved();
    fresh_other();
    restart_put_word(file + DESK_AT, 1, 6); /* node 0's report of another view */
    mend(FILE_LEN);
    takes(sizeof own, FILE_LEN, RESTART_UNSOUND_STATE);
}

static void texts(void)
{
    check_word("a text", strcmp(restart_number_text(32), "this is no leader's file") == 0, 1);
    check_word("numbers between", strcmp(restart_number_text(31), "unknown number") == 0, 1);
    check_word("numbers above", strcmp(restart_number_text(37), "unknown number") == 0, 1);
    for (uint32_t one = 31; one < 37; one++)
        for (uint32_t another = one + 1; another < 37; another++)
            check_word("two numbers have two texts",
                       strcmp(restart_number_text(one), restart_number_text(another)) != 0, 1);
}

int main(void)
{
    calls();
    there_and_back();
    not_saved();
    torn();
    changed();
    wrong();
    texts();
    return summary();
}
