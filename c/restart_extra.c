/*
 * What the library has beside the proved calls: versions, texts, reports and orders shard by shard,
 * the leader's file, and the header's small functions under their names, for callers that cannot use
 * the inline ones. Plain C, not proved; no proved call needs it.
 */
#define RESTART_INLINE extern /* gives each of the header's small functions a body here */
#include <restart.h>

#include <string.h>

/* Texts stand in rows of one width, so that the library has no pointers that a loader would fill
 * in. */
enum { WIDTH = 48 };

static const char numbers[][WIDTH] = {
    "accepted",
    "a buffer has the wrong length",
    "the settings are wrong",
    "the state is unsound",
    "not in this phase",
    "the message has the wrong length",
    "no such machine",
    "the view or its members are wrong",
    "a next index is wrong",
    "a record's kind or zero word is wrong",
    "a shard's members are wrong",
    "a position, run or holder is wrong",
    "another view has the kept number",
    "another termination of the kept view",
    "the machine is not held, or marked already",
    "not allowed to this role",
    "a record names an unknown shard",
    "a record is out of sequence, missing or surplus",
    "the machine has reported a later view before",
    "the flat report's counts do not fit its length",
    "a run of the flat report has count 0",
    "the flat report needs over 128 records",
    "too many machines or rounds, or no such machine",
    "no kept view, or a machine has no valid report",
    "unknown number",
};

/* From RESTART_FILE_FOREIGN on. */
static const char files[][WIDTH] = {
    "this is no leader's file",
    "the leader's file is cut off or too long",
    "the leader's file was damaged after its saving",
    "the leader's file is of another format",
    "the leader's file is of other settings",
    "unknown number",
};

static const char reasons[][WIDTH] = {
    "no wait",
    "no machine has reported",
    "no majority of the kept view is back",
    "fewer machines are back than the least group",
    "nobody who is back has the log of a shard",
    "a subgroup cannot be laid out",
    "unknown reason",
};

static const char phases[][WIDTH] = {
    "gathering", "ordered", "preparing", "committed", "unknown phase",
};

static const char views[][WIDTH] = {
    "no finding",
    "the open view counts",
    "the open view was never served",
    "it is not known whether the open view counts",
    "the open view is said to count and not to",
    "unknown finding",
};

/* Row `index`, or the last one if there are no more. */
#define ROW(rows, index) (rows)[(index) < sizeof(rows) / WIDTH ? (index) : sizeof(rows) / WIDTH - 1]

const char *restart_number_text(uint32_t number)
{
    return number < RESTART_FILE_FOREIGN ? ROW(numbers, number)
                                         : ROW(files, number - RESTART_FILE_FOREIGN);
}

const char *restart_reason_text(uint32_t reason)
{
    return ROW(reasons, reason);
}

const char *restart_phase_text(uint32_t phase)
{
    return ROW(phases, phase);
}

const char *restart_view_text(uint32_t view)
{
    return ROW(views, view);
}

uint32_t restart_version(void)
{
    return RESTART_VERSION_NUMBER;
}

const char *restart_version_text(void)
{
    return RESTART_VERSION;
}

uint32_t restart_format(void)
{
    return RESTART_FORMAT;
}

/* ---- Reports shard by shard ---- */

/* A refusal at a record of the report as it would stand. */
static uint32_t at_record(uint32_t number, uint32_t index)
{
    return number + 256 * index;
}

static uint32_t shards_of(const uint8_t *settings)
{
    return restart_get_word(settings, 3);
}

static uint32_t subgroup_of(const uint8_t *settings, uint32_t shard)
{
    return restart_get_word(settings, 4 + restart_get_word(settings, 0) + shard) / 256 % 256;
}

/* The records before the runs: the head, each shard's members and, if there is a termination, each
 * shard's position. */
static uint32_t before_runs(const struct restart_draft *draft)
{
    return 1 + shards_of(draft->settings) * (draft->ended != 0 ? 2 : 1);
}

uint32_t restart_draft_begin(struct restart_draft *draft, const uint8_t *settings,
                             size_t settings_len, uint32_t node, uint32_t view, uint32_t members)
{
    uint32_t answer = restart_check_settings(settings, settings_len);
    if (answer != RESTART_ACCEPTED)
        return answer;
    uint32_t nodes = restart_get_word(settings, 0);
    if (node >= nodes)
        return RESTART_WRONG_NODE;
    if (view == 0 || view == UINT32_MAX || (uint64_t)members >> nodes != 0 ||
        !(members >> node & 1))
        return RESTART_WRONG_VIEW;
    memset(draft, 0, sizeof *draft);
    memcpy(draft->settings, settings, settings_len);
    draft->settings_len = (uint32_t)settings_len;
    draft->node = node;
    draft->view = view;
    draft->members = members;
    return RESTART_ACCEPTED;
}

uint32_t restart_draft_shard(struct restart_draft *draft, uint32_t members)
{
    uint32_t shard = draft->shards, shards = shards_of(draft->settings);
    if (shard == shards)
        return at_record(RESTART_UNKNOWN_SHARD, 1 + shard);
    if (draft->ended != 0 && draft->ended != shard)
        return at_record(RESTART_WRONG_SEQUENCE, shards + shard);
    if (members == 0 || (members & ~draft->members) != 0)
        return RESTART_WRONG_SHARD;
    for (uint32_t other = 0; other < shard; other++)
        if (subgroup_of(draft->settings, other) == subgroup_of(draft->settings, shard) &&
            (draft->masks[other] & members) != 0)
            return RESTART_WRONG_SHARD;
    draft->masks[shard] = members;
    draft->shards++;
    draft->first = draft->runs;
    return RESTART_ACCEPTED;
}

uint32_t restart_draft_ended(struct restart_draft *draft, uint32_t view, uint32_t k)
{
    uint32_t shards = shards_of(draft->settings), ended = draft->ended;
    if (ended == 0 && restart_draft_room(draft) < shards)
        return RESTART_WRONG_LENGTH;
    if (draft->shards != ended + 1)
        return at_record(RESTART_WRONG_SEQUENCE, 1 + shards + ended);
    if ((view == 0) != (k == 0) || view > draft->view)
        return RESTART_WRONG_POSITION;
    draft->positions[2 * ended] = view;
    draft->positions[2 * ended + 1] = k;
    draft->ended++;
    return RESTART_ACCEPTED;
}

uint32_t restart_draft_run(struct restart_draft *draft, uint32_t view, uint32_t count)
{
    uint32_t *triple = draft->triples + 3 * draft->runs;
    if (restart_draft_room(draft) == 0)
        return RESTART_WRONG_LENGTH;
    if (draft->shards == 0 || (draft->runs != draft->first && view <= triple[-2]))
        return at_record(RESTART_WRONG_SEQUENCE, before_runs(draft) + draft->runs);
    if (view == 0 || view > draft->view || count == 0)
        return RESTART_WRONG_POSITION;
    triple[0] = draft->shards - 1;
    triple[1] = view;
    triple[2] = count;
    draft->runs++;
    return RESTART_ACCEPTED;
}

uint32_t restart_draft_room(const struct restart_draft *draft)
{
    return RESTART_RECORDS - before_runs(draft) - draft->runs;
}

/* Stores the next record's words; gives how many words there are then. */
static size_t put_record(uint8_t *contents, size_t at, uint32_t word0, uint32_t word1,
                         uint32_t word2)
{
    restart_put_word(contents, at, word0);
    restart_put_word(contents, at + 1, word1);
    restart_put_word(contents, at + 2, word2);
    return at + 3;
}

uint32_t restart_draft_write(const struct restart_draft *draft, uint8_t *buffer, size_t buffer_len)
{
    uint8_t contents[RESTART_CONTENTS_BYTES];
    size_t at = put_record(contents, 0, draft->node, draft->view, draft->members);
    for (uint32_t shard = 0; shard < draft->shards; shard++)
        at = put_record(contents, at, 256 * RESTART_KIND_MEMBERS + shard, draft->masks[shard], 0);
    for (uint32_t shard = 0; shard < draft->ended; shard++)
        at = put_record(contents, at, 256 * RESTART_KIND_TERMINATION + shard,
                        draft->positions[2 * shard], draft->positions[2 * shard + 1]);
    for (const uint32_t *run = draft->triples; run != draft->triples + 3 * draft->runs; run += 3)
        at = put_record(contents, at, 256 * RESTART_KIND_RUN + run[0], run[1], run[2]);
    return restart_write_report(draft->settings, draft->settings_len, contents, 4 * at, buffer,
                                buffer_len);
}

/* ---- Orders shard by shard ---- */

static struct restart_position position_at(const uint8_t *contents, size_t at)
{
    struct restart_position position;
    position.view = restart_get_word(contents, at + 1);
    position.k = restart_get_word(contents, at + 2);
    return position;
}

uint32_t restart_read_task(const uint8_t *settings, size_t settings_len, const uint8_t *message,
                           size_t message_len, struct restart_task *task)
{
    uint8_t contents[RESTART_CONTENTS_BYTES];
    uint32_t answer =
        restart_read_order(settings, settings_len, message, message_len, contents, sizeof contents);
    if (restart_is_refusal(answer))
        return answer;
    memset(task, 0, sizeof *task);
    task->node = restart_get_word(contents, 0);
    task->view = restart_get_word(contents, 1);
    task->members = restart_get_word(contents, 2);
    task->shards = shards_of(settings);
    for (size_t at = 3; at < restart_length_of(answer); at += 3) {
        struct restart_shard *shard = task->shard + restart_get_word(contents, at) % 256;
        switch (restart_get_word(contents, at) / 256) {
        case RESTART_KIND_MEMBERS:
            shard->members = restart_get_word(contents, at + 1);
            shard->carried = shard->members >> task->node & 1;
            break;
        case RESTART_KIND_TERMINATION:
            shard->target = position_at(contents, at);
            break;
        case RESTART_KIND_HOLDER:
            shard->holder = restart_get_word(contents, at + 1);
            break;
        default:
            shard->cut = position_at(contents, at);
        }
    }
    return RESTART_ACCEPTED;
}

/* ---- What a leader keeps ---- */

uint32_t restart_leader_begin(struct restart_leader *leader, const uint8_t *settings,
                              size_t settings_len, uint64_t tag)
{
    uint32_t answer = restart_check_settings(settings, settings_len);
    if (answer != RESTART_ACCEPTED)
        return answer;
    memset(leader, 0, sizeof *leader);
    memcpy(leader->settings, settings, settings_len);
    leader->settings_len = settings_len;
    restart_leader_fresh(leader, tag);
    return RESTART_ACCEPTED;
}

/*
 * The leader's file is words: mark, RESTART_FORMAT, length of the file, tag (low half, high half),
 * length of the settings, length of the caller's own; settings, state, desk and own words; a sum of
 * all before it. Lengths are in bytes.
 */
enum { MARK_WORD, FORMAT_WORD, LENGTH_WORD, TAG_WORD, SETTINGS_WORD = 5, OWN_WORD, HEAD_WORDS };
enum { HEAD_BYTES = 4 * HEAD_WORDS, SUM_BYTES = 4 };

/* The file's first four bytes. */
static const uint8_t mark[4] = {'r', 'l', 'd', 'r'};

/* CRC-32, as in zlib and IEEE 802.3, eight bytes at a time. The sum of a byte is that of its bits, put
 * together by exclusive or: a table has 256 sums, and eight words say them all. AFTER_n is for a byte
 * with n more behind it. */
#define BIT(n, bit, word) ((n) >> (bit)&1 ? UINT32_C(word) : 0)
#define ONE(n, a, b, c, d, e, f, g, h)                                                             \
    BIT(n, 0, a) ^ BIT(n, 1, b) ^ BIT(n, 2, c) ^ BIT(n, 3, d) ^ BIT(n, 4, e) ^ BIT(n, 5, f) ^      \
        BIT(n, 6, g) ^ BIT(n, 7, h)
#define AFTER_0(n)                                                                                 \
    ONE(n, 0x77073096, 0xEE0E612C, 0x076DC419, 0x0EDB8832, 0x1DB71064, 0x3B6E20C8, 0x76DC4190,     \
        0xEDB88320)
#define AFTER_1(n)                                                                                 \
    ONE(n, 0x191B3141, 0x32366282, 0x646CC504, 0xC8D98A08, 0x4AC21251, 0x958424A2, 0xF0794F05,     \
        0x3B83984B)
#define AFTER_2(n)                                                                                 \
    ONE(n, 0x01C26A37, 0x0384D46E, 0x0709A8DC, 0x0E1351B8, 0x1C26A370, 0x384D46E0, 0x709A8DC0,     \
        0xE1351B80)
#define AFTER_3(n)                                                                                 \
    ONE(n, 0xB8BC6765, 0xAA09C88B, 0x8F629757, 0xC5B428EF, 0x5019579F, 0xA032AF3E, 0x9B14583D,     \
        0xED59B63B)
#define AFTER_4(n)                                                                                 \
    ONE(n, 0x3D6029B0, 0x7AC05360, 0xF580A6C0, 0x30704BC1, 0x60E09782, 0xC1C12F04, 0x58F35849,     \
        0xB1E6B092)
#define AFTER_5(n)                                                                                 \
    ONE(n, 0xCB5CD3A5, 0x4DC8A10B, 0x9B914216, 0xEC53826D, 0x03D6029B, 0x07AC0536, 0x0F580A6C,     \
        0x1EB014D8)
#define AFTER_6(n)                                                                                 \
    ONE(n, 0xA6770BB4, 0x979F1129, 0xF44F2413, 0x33EF4E67, 0x67DE9CCE, 0xCFBD399C, 0x440B7579,     \
        0x8816EAF2)
#define AFTER_7(n)                                                                                 \
    ONE(n, 0xCCAA009E, 0x4225077D, 0x844A0EFA, 0xD3E51BB5, 0x7CBB312B, 0xF9766256, 0x299DC2ED,     \
        0x533B85DA)
#define FOUR(of, n) of(n), of((n) + 1), of((n) + 2), of((n) + 3)
#define SIXTEEN(of, n) FOUR(of, n), FOUR(of, (n) + 4), FOUR(of, (n) + 8), FOUR(of, (n) + 12)
#define SIXTY_FOUR(of, n)                                                                          \
    SIXTEEN(of, n), SIXTEEN(of, (n) + 16), SIXTEEN(of, (n) + 32), SIXTEEN(of, (n) + 48)
#define TABLE(of)                                                                                  \
    {                                                                                              \
        SIXTY_FOUR(of, 0), SIXTY_FOUR(of, 64), SIXTY_FOUR(of, 128), SIXTY_FOUR(of, 192)            \
    }

static uint32_t sum_of(const uint8_t *bytes, size_t length)
{
    static const uint32_t after[8][256] = {TABLE(AFTER_0), TABLE(AFTER_1), TABLE(AFTER_2),
                                           TABLE(AFTER_3), TABLE(AFTER_4), TABLE(AFTER_5),
                                           TABLE(AFTER_6), TABLE(AFTER_7)};
    uint32_t sum = UINT32_MAX;
    size_t at = 0;
    for (; length - at >= 8; at += 8) {
        uint32_t next = restart_get_word(bytes + at, 1);
        sum ^= restart_get_word(bytes + at, 0);
        sum = after[7][sum & 255] ^ after[6][sum >> 8 & 255] ^ after[5][sum >> 16 & 255] ^
              after[4][sum >> 24] ^ after[3][next & 255] ^ after[2][next >> 8 & 255] ^
              after[1][next >> 16 & 255] ^ after[0][next >> 24];
    }
    for (; at < length; at++)
        sum = after[0][(sum ^ bytes[at]) & 255] ^ sum >> 8;
    return ~sum;
}

static size_t file_bytes(size_t settings_len, size_t own_len)
{
    return HEAD_BYTES + settings_len + RESTART_STATE_BYTES + RESTART_DESK_BYTES + own_len +
           SUM_BYTES;
}

uint32_t restart_leader_save(const struct restart_leader *leader, const uint8_t *own,
                             size_t own_len, uint8_t *bytes, size_t bytes_len)
{
    size_t settings_len = leader->settings_len;
    if (own_len % 4 != 0 || own_len > RESTART_OWN_BYTES)
        return RESTART_WRONG_LENT;
    if (settings_len > RESTART_SETTINGS_BYTES)
        return RESTART_WRONG_SETTINGS;
    size_t length = file_bytes(settings_len, own_len);
    if (bytes_len < length)
        return RESTART_WRONG_LENT;
    uint32_t answer = restart_check_settings(leader->settings, settings_len);
    if (answer != RESTART_ACCEPTED)
        return answer;
    memcpy(bytes, mark, sizeof mark);
    restart_put_word(bytes, FORMAT_WORD, RESTART_FORMAT);
    restart_put_word(bytes, LENGTH_WORD, (uint32_t)length);
    restart_put_word(bytes, TAG_WORD, (uint32_t)(leader->tag & UINT32_MAX));
    restart_put_word(bytes, TAG_WORD + 1, (uint32_t)(leader->tag >> 32));
    restart_put_word(bytes, SETTINGS_WORD, (uint32_t)settings_len);
    restart_put_word(bytes, OWN_WORD, (uint32_t)own_len);
    uint8_t *at = bytes + HEAD_BYTES;
    memcpy(at, leader->settings, settings_len);
    at += settings_len;
    memcpy(at, leader->state, sizeof leader->state);
    at += sizeof leader->state;
    memcpy(at, leader->desk, sizeof leader->desk);
    at += sizeof leader->desk;
    memcpy(at, own, own_len);
    restart_put_word(at + own_len, 0, sum_of(bytes, length - SUM_BYTES));
    return RESTART_LENGTH * RESTART_CLASS_UNIT + (uint32_t)(length / 4);
}

/* What is wrong with the file by itself. */
static uint32_t damage_of(const uint8_t *bytes, size_t length)
{
    if (memcmp(bytes, mark, length < sizeof mark ? length : sizeof mark) != 0)
        return RESTART_FILE_FOREIGN;
    if (length < file_bytes(0, 0) || length != restart_get_word(bytes, LENGTH_WORD))
        return RESTART_FILE_TORN;
    if (restart_get_word(bytes + length - SUM_BYTES, 0) != sum_of(bytes, length - SUM_BYTES))
        return RESTART_FILE_CHANGED;
    if (restart_get_word(bytes, FORMAT_WORD) != RESTART_FORMAT)
        return RESTART_FILE_FORMAT;
    return RESTART_ACCEPTED;
}

uint32_t restart_leader_take(struct restart_leader *leader, uint8_t *own, size_t own_len,
                             const uint8_t *bytes, size_t bytes_len)
{
    uint32_t answer = damage_of(bytes, bytes_len);
    if (answer != RESTART_ACCEPTED)
        return answer;
    uint32_t settings_len = restart_get_word(bytes, SETTINGS_WORD);
    uint32_t saved_len = restart_get_word(bytes, OWN_WORD);
    if (settings_len > RESTART_SETTINGS_BYTES || saved_len % 4 != 0 ||
        bytes_len != file_bytes(settings_len, saved_len))
        return RESTART_FILE_CHANGED;
    const uint8_t *settings = bytes + HEAD_BYTES, *state = settings + settings_len;
    const uint8_t *desk = state + RESTART_STATE_BYTES, *saved = desk + RESTART_DESK_BYTES;
    if (leader->settings_len != 0 && (leader->settings_len != settings_len ||
                                      memcmp(leader->settings, settings, settings_len) != 0))
        return RESTART_FILE_SETTINGS;
    if (saved_len > own_len)
        return RESTART_WRONG_LENT;
    answer = restart_check_state(RESTART_PLANNER, settings, settings_len, state,
                                 RESTART_STATE_BYTES, desk, RESTART_DESK_BYTES);
    if (answer != RESTART_ACCEPTED)
        return answer;
    memset(leader->settings, 0, sizeof leader->settings);
    memcpy(leader->settings, settings, settings_len);
    leader->settings_len = settings_len;
    memcpy(leader->state, state, sizeof leader->state);
    memcpy(leader->desk, desk, sizeof leader->desk);
    leader->tag =
        (uint64_t)restart_get_word(bytes, TAG_WORD + 1) << 32 | restart_get_word(bytes, TAG_WORD);
    memcpy(own, saved, saved_len);
    return RESTART_LENGTH * RESTART_CLASS_UNIT + saved_len / 4;
}
