/* Drafts, tasks and the leader's file; see extras.h. */
#include "extras.h"

#include "../peer/c/peer.h"
#include "plain.h"

#include <string.h>

extern unsigned fault;

static void same_number(const char *what, uint32_t answer, uint32_t expected)
{
    if (restart_number_of(answer) != expected)
        differs(what, restart_number_of(answer), expected);
}

/* ---- Reports shard by shard ---- */

/* What has been accepted so far. */
struct sketch {
    uint32_t shards, positions, runs, runs_of_last, last_view;
    uint32_t masks[RESTART_SHARDS], ends[RESTART_SHARDS][2], lines[RESTART_RECORDS][3];
};

static uint32_t room_left(const struct sketch *sketch, const struct plan_settings *settings)
{
    uint32_t taken = 1 + settings->shards + (sketch->positions != 0 ? settings->shards : 0);
    return RESTART_RECORDS - taken - sketch->runs;
}

static uint32_t add_shard(struct sketch *sketch, const struct plan_settings *settings,
                          uint32_t members, uint32_t mask)
{
    if (sketch->shards == settings->shards)
        return 16;
    if (sketch->positions != 0 && sketch->positions < sketch->shards)
        return 17;
    if (mask == 0 || (mask & ~members) != 0)
        return 10;
    for (uint32_t s = 0; s < sketch->shards; s++)
        if (settings->group[s] == settings->group[sketch->shards] && (sketch->masks[s] & mask) != 0)
            return 10;
    sketch->masks[sketch->shards++] = mask;
    sketch->runs_of_last = 0;
    return 0;
}

static uint32_t add_end(struct sketch *sketch, const struct plan_settings *settings, uint32_t head,
                        uint32_t view, uint32_t k)
{
    if (sketch->positions == 0 && room_left(sketch, settings) < settings->shards)
        return 5;
    if (sketch->positions + 1 != sketch->shards)
        return 17;
    if ((view == 0 && k != 0) || (view != 0 && k == 0) || view > head)
        return 11;
    sketch->ends[sketch->positions][0] = view;
    sketch->ends[sketch->positions++][1] = k;
    return 0;
}

static uint32_t add_run(struct sketch *sketch, const struct plan_settings *settings, uint32_t head,
                        uint32_t view, uint32_t count)
{
    if (room_left(sketch, settings) == 0)
        return 5;
    if (sketch->shards == 0 || (sketch->runs_of_last != 0 && view <= sketch->last_view))
        return 17;
    if (view == 0 || count == 0 || view > head)
        return 11;
    uint32_t *line = sketch->lines[sketch->runs++];
    line[0] = sketch->shards - 1;
    line[1] = sketch->last_view = view;
    line[2] = count;
    sketch->runs_of_last++;
    return 0;
}

/* The contents of the report that the sketch has come to; their length in bytes. */
static size_t contents_of(const struct sketch *sketch, uint32_t node, uint32_t view,
                          uint32_t members, uint8_t *to)
{
    size_t words = 0;
    word_to(to, words++, node);
    word_to(to, words++, view);
    word_to(to, words++, members);
    for (uint32_t s = 0; s < sketch->shards; s++) {
        word_to(to, words++, 256 + s);
        word_to(to, words++, sketch->masks[s]);
        word_to(to, words++, 0);
    }
    for (uint32_t s = 0; s < sketch->positions; s++) {
        word_to(to, words++, 512 + s);
        word_to(to, words++, sketch->ends[s][0]);
        word_to(to, words++, sketch->ends[s][1]);
    }
    for (uint32_t r = 0; r < sketch->runs; r++) {
        word_to(to, words++, 768 + sketch->lines[r][0]);
        word_to(to, words++, sketch->lines[r][1]);
        word_to(to, words++, sketch->lines[r][2]);
    }
    return 4 * words;
}

static void write_draft(const struct restart_draft *draft, const struct sketch *sketch,
                        const uint8_t *settings, size_t settings_len, uint32_t node, uint32_t view,
                        uint32_t members)
{
    uint8_t contents[4 * 3 * RESTART_RECORDS], found[RESTART_BUFFER_BYTES],
        own[RESTART_BUFFER_BYTES];
    memset(found, 0xA5, sizeof found);
    memset(own, 0xA5, sizeof own);
    size_t length = contents_of(sketch, node, view, members, contents);
    uint32_t expected =
        plain_write(A_REPORT, settings, settings_len, contents, length, own, sizeof own);
    uint32_t answer = restart_draft_write(draft, found, sizeof found);
    if (answer != expected)
        differs("a draft's report", answer, expected);
    if (memcmp(found, own, sizeof own) != 0)
        differs("a draft's bytes", 1, 0);
}

void draft_step(const struct step *step, const uint8_t *settings, size_t settings_len)
{
    struct restart_draft draft, before;
    struct plan_settings read;
    struct sketch sketch;
    memset(&draft, 0xA5, sizeof draft);
    memset(&sketch, 0, sizeof sketch);
    if (step->length < 8)
        return;
    uint32_t view = word_of(step->bytes, 0), members = word_of(step->bytes, 1), expected = 0;
    if (!plain_settings(&read, settings, settings_len))
        expected = 2;
    else if (step->word >= read.nodes)
        expected = 6;
    else if (view == 0 || view == ~0u || !is_in(members, step->word) ||
             (read.nodes < 32 && members >> read.nodes != 0))
        expected = 7;
    before = draft;
    uint32_t answer =
        restart_draft_begin(&draft, settings, settings_len, step->word, view, members);
    same_number("a draft's beginning", answer, expected);
    if (expected != 0 && memcmp(&draft, &before, sizeof draft) != 0)
        differs("a refused draft", 1, 0);
    for (size_t at = 2; expected == 0 && 4 * (at + 3) <= step->length; at += 3) {
        uint32_t a = word_of(step->bytes, at + 1), b = word_of(step->bytes, at + 2), refusal = 0;
        before = draft;
        switch (word_of(step->bytes, at) % 4) {
        case 0:
            refusal = add_shard(&sketch, &read, members, a);
            same_number("a draft's shard", restart_draft_shard(&draft, a), refusal);
            break;
        case 1:
            refusal = add_end(&sketch, &read, view, a, b);
            same_number("a draft's position", restart_draft_ended(&draft, a, b), refusal);
            break;
        case 2:
            refusal = add_run(&sketch, &read, view, a, b);
            same_number("a draft's run", restart_draft_run(&draft, a, b), refusal);
            break;
        default:
            write_draft(&draft, &sketch, settings, settings_len, step->word, view, members);
            break;
        }
        if (refusal != 0 && memcmp(&draft, &before, sizeof draft) != 0)
            differs("a refused draft", 1, 0);
        uint32_t room = restart_draft_room(&draft) + (fault == 22 && draft.ended != 0);
        if (room != room_left(&sketch, &read))
            differs("a draft's room", room, room_left(&sketch, &read));
    }
    if (expected == 0)
        write_draft(&draft, &sketch, settings, settings_len, step->word, view, members);
}

/* ---- Orders shard by shard ---- */

void task_step(const struct step *step, const uint8_t *settings, size_t settings_len)
{
    struct restart_task task, own;
    struct plan_settings read;
    struct letter letter;
    memset(&task, 0xA5, sizeof task);
    memset(&own, 0xA5, sizeof own);
    uint32_t expected = 2;
    if (plain_settings(&read, settings, settings_len))
        expected = plain_letter(&letter, AN_ORDER, &read, step->bytes, step->length);
    uint32_t answer = restart_read_task(settings, settings_len, step->bytes, step->length, &task);
    if (answer != expected)
        differs("a task's answer", answer, expected);
    if (expected == 0) {
        memset(&own, 0, sizeof own);
        own.node = letter.node;
        own.view = letter.view;
        own.members = letter.members;
        own.shards = read.shards;
        for (uint32_t k = 0; k < letter.count; k++) {
            const struct line *line = &letter.lines[k];
            struct restart_shard *shard = &own.shard[line->key % 256];
            if (line->key / 256 == RESTART_KIND_MEMBERS) {
                shard->members = line->first;
                shard->carried = (uint32_t)is_in(line->first, letter.node);
            } else if (line->key / 256 == RESTART_KIND_TERMINATION)
                shard->target = (struct restart_position){line->first, line->second};
            else if (line->key / 256 == RESTART_KIND_HOLDER)
                shard->holder = line->first;
            else
                shard->cut = (struct restart_position){line->first, line->second};
        }
    }
    if (memcmp(&task, &own, sizeof own) != 0)
        differs("a task", 1, 0);
}

/* ---- The leader's file ---- */

/* CRC-32, bit by bit for each of 256 bytes once. */
static uint32_t sum_of_file(const uint8_t *bytes, size_t length)
{
    static uint32_t table[256];
    for (uint32_t i = 0; table[255] == 0 && i < 256; i++) {
        uint32_t rest = i;
        for (int bit = 0; bit < 8; bit++)
            rest = rest % 2 != 0 ? rest / 2 ^ 0xEDB88320u : rest / 2;
        table[i] = rest;
    }
    uint32_t sum = ~0u;
    for (size_t at = 0; at < length; at++)
        sum = table[(sum ^ bytes[at]) % 256] ^ sum / 256;
    return ~sum;
}

enum { HEAD = 28, MOST_OWN = 64, FILE_ROOM = RESTART_FILE_BYTES + MOST_OWN + 8 };

/* The file as restart(7) has it; its length. */
static size_t put_file(const struct restart_leader *leader, const uint8_t *own, size_t own_len,
                       uint8_t *to)
{
    size_t at = HEAD;
    memcpy(to, "rldr", 4);
    word_to(to, 1, RESTART_FORMAT);
    word_to(to, 3, (uint32_t)leader->tag);
    word_to(to, 4, (uint32_t)(leader->tag >> 32));
    word_to(to, 5, (uint32_t)leader->settings_len);
    word_to(to, 6, (uint32_t)own_len);
    memcpy(to + at, leader->settings, leader->settings_len);
    at += leader->settings_len;
    memcpy(to + at, leader->state, RESTART_STATE_BYTES);
    at += RESTART_STATE_BYTES;
    memcpy(to + at, leader->desk, RESTART_DESK_BYTES);
    at += RESTART_DESK_BYTES;
    memcpy(to + at, own, own_len);
    at += own_len;
    word_to(to, 2, (uint32_t)at + 4);
    word_to(to + at, 0, sum_of_file(to, at));
    return at + 4;
}

/* The number with which a file is refused, 0 if it is taken. */
static uint32_t refusal_of_file(const struct restart_leader *leader, size_t room,
                                const uint8_t *file, size_t length)
{
    struct plan_settings read;
    if (memcmp(file, "rldr", length < 4 ? length : 4) != 0)
        return 32;
    if (length < HEAD + RESTART_STATE_BYTES + RESTART_DESK_BYTES + 4 || length != word_of(file, 2))
        return 33;
    if (word_of(file + length - 4, 0) != sum_of_file(file, length - 4))
        return 34;
    if (word_of(file, 1) != RESTART_FORMAT)
        return 35;
    uint64_t settings_len = word_of(file, 5), own_len = word_of(file, 6);
    if (settings_len > RESTART_SETTINGS_BYTES || own_len % 4 != 0 ||
        HEAD + settings_len + RESTART_STATE_BYTES + RESTART_DESK_BYTES + own_len + 4 != length)
        return 34;
    const uint8_t *settings = file + HEAD, *state = settings + settings_len;
    if (leader->settings_len != 0 &&
        (leader->settings_len != settings_len ||
         memcmp(leader->settings, settings, (size_t)settings_len) != 0))
        return 36;
    if (own_len > room)
        return 1;
    if (!plain_settings(&read, settings, (size_t)settings_len))
        return 2;
    return peer_check_state(RESTART_PLANNER, settings, (size_t)settings_len, state,
                            RESTART_STATE_BYTES, state + RESTART_STATE_BYTES, RESTART_DESK_BYTES);
}

/* Changes the file as the step says; its length then. */
static size_t change_file(const struct step *step, uint8_t *file, size_t length)
{
    if (step->wrong == 1)
        length -= 1 + step->wrong_length % 4;
    else if (step->wrong == 2)
        length = step->wrong_length % (length + 8);
    else if (step->wrong == 3)
        length += step->wrong_length % 8;
    if (length > 8 && step->wrong_length / 256 != 0)
        file[step->word % (length - 4)] ^= (uint8_t)(step->wrong_length / 256);
    if (length > 8 && step->rounds & 1)
        word_to(file + length - 4, 0, sum_of_file(file, length - 4));
    return length;
}

void file_step(const struct step *step, const uint8_t *settings, size_t settings_len,
               const uint8_t *state, const uint8_t *desk)
{
    static struct restart_leader leader, before;
    static uint8_t file[FILE_ROOM], own_file[FILE_ROOM];
    uint8_t own[MOST_OWN], back[MOST_OWN], kept[MOST_OWN];
    struct plan_settings read;
    size_t own_len = step->length < MOST_OWN ? step->length : MOST_OWN, length;
    uint32_t expected = plain_settings(&read, settings, settings_len) ? 0 : 2;
    uint32_t answer = restart_leader_begin(&leader, settings, settings_len, step->word);
    if (answer != expected)
        differs("a leader's beginning", answer, expected);
    if (expected != 0)
        return;
    memcpy(leader.state, state, RESTART_STATE_BYTES);
    memcpy(leader.desk, desk, RESTART_DESK_BYTES);
    leader.tag = (uint64_t)step->word << 32 | step->wrong_length;
    memcpy(own, step->bytes, own_len);
    memset(file, 0xA5, sizeof file);
    memset(own_file, 0xA5, sizeof own_file);
    if (own_len % 4 != 0) {
        same_number("own words", restart_leader_save(&leader, own, own_len, file, sizeof file), 1);
        return;
    }
    length = put_file(&leader, own, own_len, own_file);
    if (restart_leader_save(&leader, own, own_len, file, length - 1) != 1)
        differs("a file without room", 0, 1);
    answer = restart_leader_save(&leader, own, own_len, file, length);
    if (answer != 16777216 + length / 4)
        differs("a file's length", answer, 16777216 + length / 4);
    if (memcmp(file, own_file, sizeof file) != 0)
        differs("a file's bytes", 1, 0);
    length = change_file(step, file, length);
    if (step->rounds & 2)
        leader.settings_len = 0;
    if (step->rounds & 4)
        leader.settings[0] ^= 1;
    if (step->rounds & 8)
        leader.state[0] ^= 1;
    size_t room = step->rounds & 16 ? 4 : MOST_OWN;
    memset(back, 0xA5, sizeof back);
    memset(kept, 0xA5, sizeof kept);
    before = leader;
    expected = refusal_of_file(&leader, room, file, length);
    answer = restart_leader_take(&leader, back, room, file, length);
    if (fault == 21 && restart_number_of(answer) == RESTART_FILE_SETTINGS)
        answer = RESTART_FILE_CHANGED;
    same_number("a file's refusal", answer, expected);
    if (expected != 0) {
        if (memcmp(&leader, &before, sizeof leader) != 0 || memcmp(back, kept, sizeof back) != 0)
            differs("a refused file", 1, 0);
        return;
    }
    size_t taken = word_of(file, 5), saved = word_of(file, 6);
    const uint8_t *from = file + HEAD;
    if (answer != 16777216 + saved / 4 || leader.settings_len != taken ||
        leader.tag != ((uint64_t)word_of(file, 4) << 32 | word_of(file, 3)) ||
        memcmp(leader.settings, from, taken) != 0 ||
        memcmp(leader.state, from + taken, RESTART_STATE_BYTES) != 0 ||
        memcmp(leader.desk, from + taken + RESTART_STATE_BYTES, RESTART_DESK_BYTES) != 0 ||
        memcmp(back, from + taken + RESTART_STATE_BYTES + RESTART_DESK_BYTES, saved) != 0)
        differs("what a file gives", 1, 0);
}

/* ---- Marks ---- */

void owing_step(const uint8_t *state)
{
    uint32_t phase = word_of(state, 0), owing = 0;
    for (uint32_t n = 0; n < RESTART_NODES; n++)
        if (is_in(word_of(state, RESTART_HELD), n) &&
            ((phase == RESTART_ORDERED && !is_in(word_of(state, RESTART_FETCHED), n)) ||
             (phase == RESTART_PREPARING && !is_in(word_of(state, RESTART_PREPARED), n))))
            owing |= 1u << n;
    if (restart_owing(state) != owing)
        differs("who owes a mark", restart_owing(state), owing);
}
