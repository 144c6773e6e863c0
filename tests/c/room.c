#include "room.h"

#include <string.h>

void begin(struct room *room, const uint32_t *words, size_t count)
{
    room->settings_len = put_words(room->settings, words, count);
    memset(room->desk, 0xEE, sizeof room->desk);
    check_word("the fresh state", restart_fresh(RESTART_PLANNER, room->state, sizeof room->state),
               RESTART_ACCEPTED);
}

void lend_room(struct piece *pieces, struct room *room)
{
    pieces[0].bytes = room->settings;
    pieces[0].length = room->settings_len;
    pieces[1].bytes = room->state;
    pieces[1].length = sizeof room->state;
    pieces[2].bytes = room->desk;
    pieces[2].length = sizeof room->desk;
}

void call_in(struct room *room, const struct entry *entry, uint32_t node, uint32_t expected)
{
    struct piece pieces[MOST_PIECES];
    lend_room(pieces, room);
    check_call(entry, pieces, node, expected);
}

size_t put_told(uint8_t *message, const struct told *told, uint32_t shards)
{
    uint32_t words[RESTART_RECORD_WORDS * RESTART_RECORDS] = {told->node, told->view, told->members,
                                                              1};
    size_t at = 4;
    for (uint32_t s = 0; s < shards; s++, at += 4) {
        const uint32_t record[3] = {256 + s, told->masks[s], 0};
        memcpy(words + at, record, sizeof record);
    }
    for (uint32_t s = 0; told->positions != NULL && s < shards; s++, at += 4) {
        const uint32_t record[3] = {512 + s, told->positions[2 * s], told->positions[2 * s + 1]};
        memcpy(words + at, record, sizeof record);
    }
    for (size_t i = 0; i < MOST_RUNS && told->runs[i].count != 0; i++, at += 4) {
        const uint32_t record[3] = {768 + told->runs[i].shard, told->runs[i].view,
                                    told->runs[i].count};
        memcpy(words + at, record, sizeof record);
    }
    for (size_t i = 3; i < at; i += 4)
        words[i] = i + 4 < at ? (uint32_t)(i / 4 + 1) : 0;
    return put_words(message, words, at);
}

void take(struct room *room, const struct told *told)
{
    uint8_t message[RESTART_MESSAGE_BYTES];
    struct piece pieces[MOST_PIECES];
    lend_room(pieces, room);
    pieces[3].bytes = message;
    pieces[3].length = put_told(message, told, restart_get_word(room->settings, 3));
    check_call(&report, pieces, 0, RESTART_ACCEPTED);
}
