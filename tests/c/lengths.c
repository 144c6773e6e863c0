/*
 * Wrong lengths by bytes and words for each argument of each entry point, with the
 * number; all memory lies between pages without access. A length that is no whole words is wrong: 1
 * for desk and buffers, 2 for settings, 3 for the state, 5 for a message, 19 for a flat report.
 */
#include "world.h"

#include <string.h>

#define COUNT(array) (sizeof(array) / sizeof((array)[0]))

/* Room for a desk of twice its length. */
enum { ROOM = 2 * RESTART_DESK_BYTES };

/* A call that is accepted, from bytes that zeros follow. */
struct right {
    const struct entry *entry;
    unsigned pieces;
    size_t length[MOST_PIECES];
    uint8_t bytes[MOST_PIECES][ROOM];
    uint32_t answer;
};

static struct right right;

static void take(const struct entry *entry, uint32_t answer)
{
    memset(&right, 0, sizeof right);
    right.entry = entry;
    right.answer = answer;
}

static void add(const uint8_t *bytes, size_t length)
{
    memcpy(right.bytes[right.pieces], bytes, length);
    right.length[right.pieces] = length;
    right.pieces++;
}

/* The call with one piece of another length. Node 3, subgroup 3, 3 rounds or held nodes 0
 * and 1 are used where one is. */
static void check_length(unsigned piece, size_t length, uint32_t expected)
{
    static uint8_t bytes[MOST_PIECES][ROOM];
    struct piece pieces[MOST_PIECES];
    memcpy(bytes, right.bytes, sizeof bytes);
    for (unsigned i = 0; i < right.pieces; i++) {
        pieces[i].bytes = bytes[i];
        pieces[i].length = i == piece ? length : right.length[i];
    }
    check_call(right.entry, pieces, 3, expected);
}

static void check_lengths(unsigned piece, const size_t *lengths, size_t count, uint32_t expected)
{
    check_length(piece, right.length[piece], right.answer);
    for (size_t i = 0; i < count; i++)
        check_length(piece, lengths[i], expected);
}

static void settings_lengths(void)
{
    static const size_t lengths[] = {0,  1,  3,  4,  12, 16,  52,  53,  54,   55,
                                     57, 58, 59, 60, 64, 208, 209, 212, 2048, 65536};
    check_lengths(0, lengths, COUNT(lengths), 2);
}

static void state_lengths(unsigned piece)
{
    static const size_t lengths[] = {0, 1, 4, 636, 637, 638, 639, 641, 642, 643, 644, 1280, 65536};
    check_lengths(piece, lengths, COUNT(lengths), 3);
}

static void desk_lengths(void)
{
    static const size_t lengths[] = {0,     1,     4,     2048,  65532, 65533, 65534,
                                     65535, 65537, 65538, 65539, 65540, 131072};
    check_lengths(2, lengths, COUNT(lengths), 1);
}

static void buffer_lengths(unsigned piece)
{
    static const size_t lengths[] = {0,    1,    4,    2044, 2045, 2046, 2047,
                                     2049, 2050, 2051, 2052, 4096, 65536};
    check_lengths(piece, lengths, COUNT(lengths), 1);
}

/* A message of 20 words. A record more is off the chain; a record less cuts the chain. */
static void message_lengths(unsigned piece)
{
    static const size_t lengths[] = {0,  1,  2,  3,  4,  8,  12,   15,   17,   24,   76,   77,  78,
                                     79, 81, 82, 83, 84, 88, 2047, 2049, 2052, 2056, 2064, 4096};
    check_lengths(piece, lengths, COUNT(lengths), 5);
    check_length(piece, 64, AT(8, 3));
    check_length(piece, 96, right.answer);
    check_length(piece, 2048, right.answer);
}

/* Contents of 15 words. A head alone and a record less than there must be have a right length and
 * lack records; records of zeros have no kind. */
static void contents_lengths(void)
{
    static const size_t lengths[] = {0,  1,  3,  4,  8,  11,   13,   16,   20,   59,
                                     61, 62, 63, 64, 68, 1537, 1540, 1548, 2048, 65536};
    check_lengths(1, lengths, COUNT(lengths), 5);
    check_length(1, 12, AT(17, 0));
    check_length(1, 36, AT(17, 2));
    check_length(1, 1536, AT(9, 5));
}

/* A flat report of 12 words. */
static void flat_lengths(void)
{
    static const size_t lengths[] = {0,  1,  2,  3,  4,  8,  12, 16, 20, 24, 28,   32,   36,
                                     40, 44, 45, 46, 47, 49, 50, 51, 52, 60, 2048, 65536};
    check_lengths(1, lengths, COUNT(lengths), 19);
}

static void messages(void)
{
    static const uint32_t contents_words[] = {4, 7,   127, 256, 5,   0, 257, 82,
                                              0, 258, 32,  0,   769, 7, 4};
    static const uint32_t flat_words[] = {4, 7, 127, 3, 5, 82, 32, 0, 1, 1, 7, 4};
    static struct world world;
    uint8_t message[RESTART_MESSAGE_BYTES], contents[sizeof contents_words],
        flat[sizeof flat_words], buffer[RESTART_BUFFER_BYTES];
    size_t length = put_report(message, 4);
    put_words(contents, contents_words, COUNT(contents_words));
    memset(buffer, 0xEE, sizeof buffer);
    world_fresh(&world);

    take(&check_settings, RESTART_ACCEPTED);
    add(world.settings, sizeof world.settings);
    settings_lengths();

    take(&read_report, 16777216 + 15);
    add(world.settings, sizeof world.settings);
    add(message, length);
    add(buffer, sizeof buffer);
    settings_lengths();
    message_lengths(1);
    buffer_lengths(2);

    take(&to_flat, 16777216 + 12);
    add(world.settings, sizeof world.settings);
    add(message, length);
    add(buffer, sizeof buffer);
    settings_lengths();
    message_lengths(1);
    buffer_lengths(2);

    take(&from_flat, 16777216 + 20);
    add(world.settings, sizeof world.settings);
    add(flat, put_words(flat, flat_words, COUNT(flat_words)));
    add(buffer, sizeof buffer);
    settings_lengths();
    flat_lengths();
    buffer_lengths(2);

    take(&write_report, 16777216 + 20);
    add(world.settings, sizeof world.settings);
    add(contents, sizeof contents);
    add(buffer, sizeof buffer);
    settings_lengths();
    contents_lengths();
    buffer_lengths(2);
}

/* An order to node 6, which carries nothing, has the shortest contents: 21 words; the message
 * has 28. */
static void orders(void)
{
    static const uint32_t contents_words[] = {6, 8,   127, 256, 5,   0, 257, 50,  0, 258, 8,
                                              0, 512, 0,   0,   513, 7, 5,   514, 0, 0};
    static const size_t message_wrong[] = {0,   1,   2,   3,   4,    24,   108, 109,
                                           110, 111, 113, 116, 2049, 2052, 2064};
    static const size_t contents_wrong[] = {0, 1, 4, 8, 13, 80, 83, 85, 88, 92, 1540, 1548};
    static struct world world;
    uint8_t message[RESTART_BUFFER_BYTES], contents[sizeof contents_words],
        buffer[RESTART_BUFFER_BYTES];
    put_words(contents, contents_words, COUNT(contents_words));
    memset(buffer, 0xEE, sizeof buffer);
    world_fresh(&world);
    check_word("an order to a node without a shard",
               restart_write_order(world.settings, sizeof world.settings, contents, sizeof contents,
                                   message, sizeof message),
               16777216 + 28);

    take(&read_order, 16777216 + 21);
    add(world.settings, sizeof world.settings);
    add(message, 112);
    add(buffer, sizeof buffer);
    settings_lengths();
    check_lengths(1, message_wrong, COUNT(message_wrong), 5);
    check_length(1, 96, AT(8, 5));
    buffer_lengths(2);

    take(&write_order, 16777216 + 28);
    add(world.settings, sizeof world.settings);
    add(contents, sizeof contents);
    add(buffer, sizeof buffer);
    settings_lengths();
    check_lengths(1, contents_wrong, COUNT(contents_wrong), 5);
    check_length(1, 72, AT(17, 5));
    buffer_lengths(2);
}

static void take_event(const struct entry *entry, uint32_t answer, const struct world *world)
{
    take(entry, answer);
    add(world->settings, sizeof world->settings);
    add(world->state, sizeof world->state);
    add(world->desk, sizeof world->desk);
}

static void event_lengths(const struct entry *entry, uint32_t answer, const struct world *world)
{
    take_event(entry, answer, world);
    settings_lengths();
    state_lengths(1);
    desk_lengths();
}

static void events(void)
{
    static struct world world;
    uint8_t message[RESTART_MESSAGE_BYTES], buffer[RESTART_BUFFER_BYTES];
    memset(buffer, 0xEE, sizeof buffer);
    world_gathered(&world);

    take(&fresh, RESTART_ACCEPTED);
    add(world.state, sizeof world.state);
    state_lengths(0);

    take_event(&report, RESTART_ACCEPTED, &world);
    add(message, put_report(message, 4));
    settings_lengths();
    state_lengths(1);
    desk_lengths();
    message_lengths(3);

    event_lengths(&check_state, RESTART_ACCEPTED, &world);
    event_lengths(&drop, RESTART_ACCEPTED, &world);
    event_lengths(&decide, 33554432, &world);
    event_lengths(&decide_within, 33554432 + 1, &world);

    take_event(&preview, 50331648 + 256 * 5, &world);
    add(buffer, sizeof buffer);
    settings_lengths();
    state_lengths(1);
    desk_lengths();
    buffer_lengths(3);

    take_event(&preview_all, 16777216 + 1, &world);
    add(buffer, sizeof buffer);
    settings_lengths();
    state_lengths(1);
    desk_lengths();
    buffer_lengths(3);

    world_ready(&world);
    event_lengths(&game, 83886080 + 256, &world);

    world_ordered(&world);
    take_event(&order, 16777216 + 36, &world);
    add(buffer, sizeof buffer);
    settings_lengths();
    state_lengths(1);
    desk_lengths();
    buffer_lengths(3);

    take_event(&page, 16777216 + 72, &world);
    add(buffer, sizeof buffer);
    settings_lengths();
    state_lengths(1);
    desk_lengths();
    buffer_lengths(3);

    event_lengths(&fetched, RESTART_ACCEPTED, &world);
    world_preparing(&world);
    event_lengths(&prepared, RESTART_ACCEPTED, &world);
}

int main(void)
{
    messages();
    orders();
    events();
    return summary();
}
