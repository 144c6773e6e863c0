/*
 * Changes inputs of calls.c by what they mean: whole restarts, steps, settings, and the records and words
 * of messages. Reports of one view mostly agree, so that inputs get past the checks and far into a
 * restart; then one word is made wrong.
 */
#include "dice.h"
#include "plain.h"
#include "steps.h"

#include <string.h>

size_t LLVMFuzzerMutate(uint8_t *data, size_t size, size_t most);
size_t LLVMFuzzerCustomMutator(uint8_t *data, size_t size, size_t most, unsigned seed);
size_t LLVMFuzzerCustomCrossOver(const uint8_t *one, size_t one_size, const uint8_t *two,
                                 size_t two_size, uint8_t *to, size_t most, unsigned seed);

/* ---- An input taken apart ---- */

struct part {
    struct step step;
    size_t length;
    uint8_t bytes[MOST_STEP_BYTES];
};

struct input {
    unsigned count;
    struct part parts[MOST_STEPS];
};

static struct input work, second;

static void take_apart(struct input *to, const uint8_t *data, size_t size)
{
    for (to->count = 0; to->count < MOST_STEPS; to->count++) {
        struct part *part = &to->parts[to->count];
        if (!next_step(&part->step, &data, &size))
            return;
        part->length = part->step.length;
        memcpy(part->bytes, part->step.bytes, part->length);
    }
}

static size_t put_together(const struct input *from, uint8_t *data, size_t most)
{
    size_t size = 0;
    for (unsigned i = 0; i < from->count; i++) {
        const struct part *part = &from->parts[i];
        uint8_t *to = data + size;
        if (size + STEP_HEAD + part->length > most)
            break;
        to[0] = part->step.kind;
        to[1] = part->step.role;
        to[2] = part->step.wrong;
        to[3] = part->step.rounds;
        word_to(to, 1, part->step.word);
        to[8] = (uint8_t)(part->length % 256);
        to[9] = (uint8_t)(part->length / 256);
        to[10] = (uint8_t)(part->step.wrong_length % 256);
        to[11] = (uint8_t)(part->step.wrong_length / 256);
        memcpy(to + STEP_HEAD, part->bytes, part->length);
        size += STEP_HEAD + part->length;
    }
    return size;
}

/* Room for a step at this place; the last one goes if there are too many. */
static struct part *insert(unsigned at, uint8_t kind, uint32_t word)
{
    if (work.count == MOST_STEPS)
        work.count--;
    if (at > work.count)
        at = work.count;
    memmove(&work.parts[at + 1], &work.parts[at], (work.count - at) * sizeof work.parts[0]);
    work.count++;
    struct part *part = &work.parts[at];
    part->step = (struct step){.kind = kind, .word = word};
    part->length = 0;
    return part;
}

static struct part *append(uint8_t kind, uint32_t word)
{
    return insert(work.count, kind, word);
}

/* ---- Settings ---- */

static void put_settings(struct part *part, const struct plan_settings *settings)
{
    word_to(part->bytes, 0, settings->nodes);
    word_to(part->bytes, 1, settings->sets);
    word_to(part->bytes, 2, settings->least);
    word_to(part->bytes, 3, settings->shards);
    for (uint32_t n = 0; n < settings->nodes; n++)
        word_to(part->bytes, 4 + n, settings->set[n]);
    for (uint32_t s = 0; s < settings->shards; s++)
        word_to(part->bytes, 4 + settings->nodes + s,
                settings->cap[s] * 65536 + settings->group[s] * 256 + settings->need[s]);
    part->length = 4 * (4 + settings->nodes + settings->shards);
}

static void any_shard(struct plan_settings *settings, uint32_t s)
{
    settings->need[s] = 1 + under(settings->sets < 3 || one_in(6) ? settings->sets : 2);
    settings->group[s] = one_in(3) ? under(4) : 0;
    settings->cap[s] = one_in(2) ? 0 : settings->need[s] + under(17 - settings->need[s]) % 4;
}

static void any_settings(struct plan_settings *settings)
{
    int large = one_in(12);
    settings->nodes = 1 + under(large ? 32 : 8);
    settings->sets = 1 + under(large ? 16 : 4);
    settings->shards = 1 + under(large ? 16 : 4);
    settings->least = 1 + under(one_in(4) ? settings->nodes : 1 + settings->nodes / 3);
    for (uint32_t n = 0; n < settings->nodes; n++)
        settings->set[n] = under(settings->sets);
    for (uint32_t s = 0; s < settings->shards; s++)
        any_shard(settings, s);
}

/* The settings that a step is made under; others where they are wrong. */
static void settings_at(unsigned at, struct plan_settings *settings)
{
    for (unsigned i = at; i > 0; i--)
        if (work.parts[i - 1].step.kind == SETTINGS) {
            if (plain_settings(settings, work.parts[i - 1].bytes, work.parts[i - 1].length))
                return;
            break;
        }
    any_settings(settings);
}

/* ---- Views and messages ---- */

/* A view as a history has it: the same for whoever asks with the same number and variant. */
struct view {
    uint32_t number, members, masks[16], ends[16][2];
};

static void view_of(struct view *to, const struct plan_settings *settings, uint32_t number,
                    uint32_t variant)
{
    uint64_t own = dice_of(number * UINT64_C(977) + variant * UINT64_C(31) + settings->nodes * 7 +
                           settings->shards);
    uint32_t taken[4] = {0};
    to->number = number;
    to->members = 0;
    for (uint32_t n = 0; n < settings->nodes; n++)
        if (roll(&own) % 5 != 0)
            to->members |= 1u << n;
    if (to->members == 0)
        to->members = 1;
    for (uint32_t s = 0; s < settings->shards; s++) {
        uint32_t *in_group = &taken[settings->group[s] % 4], wanted = 1 + roll(&own) % 3;
        to->masks[s] = 0;
        for (uint32_t tries = 0; tries < 64 && wanted > 0; tries++) {
            uint32_t n = roll(&own) % settings->nodes;
            if (is_in(to->members & ~*in_group, n)) {
                to->masks[s] |= 1u << n;
                *in_group |= 1u << n;
                wanted--;
            }
        }
        uint32_t back = roll(&own) % 4;
        to->ends[s][0] = back == 3 || number <= back ? 0 : number - back % 2;
        to->ends[s][1] = to->ends[s][0] == 0 ? 0 : 1 + roll(&own) % 4;
    }
}

static void record(struct part *part, uint32_t key, uint32_t first, uint32_t second_word)
{
    size_t k = part->length / 16;
    if (part->length + 16 > 2048)
        return;
    if (k > 0)
        word_to(part->bytes, 4 * k - 1, (uint32_t)k);
    word_to(part->bytes, 4 * k, key);
    word_to(part->bytes, 4 * k + 1, first);
    word_to(part->bytes, 4 * k + 2, second_word);
    word_to(part->bytes, 4 * k + 3, 0);
    part->length += 16;
}

/* The head, and each shard's members. */
static void begin(struct part *part, const struct plan_settings *settings, const struct view *view,
                  uint32_t node)
{
    part->length = 0;
    record(part, node, view->number, view->members);
    for (uint32_t s = 0; s < settings->shards; s++)
        record(part, 256 + s, view->masks[s], 0);
}

/* Who reports: mostly a member. */
static uint32_t some_node(const struct plan_settings *settings, uint32_t members)
{
    for (uint32_t tries = 0; tries < 16; tries++) {
        uint32_t n = under(settings->nodes);
        if (is_in(members, n))
            return n;
    }
    return under(settings->nodes);
}

static void put_report(struct part *part, const struct plan_settings *settings,
                       const struct view *view, uint32_t node, int terminated)
{
    begin(part, settings, view, node);
    for (uint32_t s = 0; terminated && s < settings->shards; s++)
        record(part, 512 + s, view->ends[s][0], view->ends[s][1]);
    for (uint32_t s = 0; s < settings->shards; s++) {
        if (!is_in(view->masks[s], node) && !one_in(4))
            continue;
        uint32_t from = view->number > 3 ? view->number - 3 : 1;
        for (uint32_t v = from; v <= view->number && v != 0; v++) {
            uint64_t shared = dice_of(v * UINT64_C(131) + s);
            if (roll(&shared) % 4 == 0 || (v == view->number && one_in(4)))
                continue;
            uint32_t count = 1 + roll(&shared) % 4;
            record(part, 768 + s, v, one_in(6) || v == view->number ? 1 + under(5) : count);
        }
    }
}

static void put_order(struct part *part, const struct plan_settings *settings,
                      const struct view *view, uint32_t node)
{
    begin(part, settings, view, node);
    for (uint32_t s = 0; s < settings->shards; s++)
        record(part, 512 + s, view->ends[s][0] == view->number ? 0 : view->ends[s][0],
               view->ends[s][0] == view->number ? 0 : view->ends[s][1]);
    for (uint32_t s = 0; s < settings->shards; s++)
        if (is_in(view->masks[s], node))
            record(part, 1024 + s, some_node(settings, view->members), 0);
    for (uint32_t s = 0; s < settings->shards; s++)
        if (is_in(view->masks[s], node))
            record(part, 1280 + s, view->number - 1, 1 + under(4));
}

/* The contents of a message whose records stand one after another. */
static void to_contents(struct part *part)
{
    size_t records = part->length / 16;
    for (size_t k = 0; k < records; k++)
        memmove(part->bytes + 12 * k, part->bytes + 16 * k, 12);
    part->length = 12 * records;
}

/* A flat report of such a message. */
static void to_flat(struct part *part, uint32_t shards)
{
    uint8_t made[MOST_STEP_BYTES];
    size_t records = part->length / 16, words = 4, runs = 0;
    uint32_t positions = 0, shards_there = 0;
    memcpy(made, part->bytes, 12);
    for (size_t k = 1; k < records; k++) {
        shards_there += word_of(part->bytes, 4 * k) / 256 == 1;
        positions += word_of(part->bytes, 4 * k) / 256 == 2;
        runs += word_of(part->bytes, 4 * k) / 256 == 3;
    }
    word_to(made, 3, one_in(16) ? shards : shards_there);
    for (size_t k = 1; k <= shards_there; k++)
        word_to(made, words++, word_of(part->bytes, 4 * k + 1));
    word_to(made, words++, positions != 0);
    for (size_t k = shards_there + 1; k <= shards_there + positions; k++) {
        word_to(made, words++, word_of(part->bytes, 4 * k + 1));
        word_to(made, words++, word_of(part->bytes, 4 * k + 2));
    }
    word_to(made, words++, (uint32_t)runs);
    for (size_t k = records - runs; k < records; k++) {
        uint32_t more = one_in(12) ? 256 * under(3) : 0;
        word_to(made, words++, word_of(part->bytes, 4 * k) % 256 + more);
        word_to(made, words++, word_of(part->bytes, 4 * k + 1));
        word_to(made, words++, word_of(part->bytes, 4 * k + 2));
    }
    memcpy(part->bytes, made, 4 * words);
    part->length = 4 * words;
}

/* A draft that comes to such a message: view, members, then what is done, one after another. */
static void to_draft(struct part *part)
{
    uint8_t made[MOST_STEP_BYTES];
    size_t records = part->length / 16, words = 2;
    uint32_t shard = 0;
    memcpy(made, part->bytes + 4, 8);
    part->step.word = word_of(part->bytes, 0);
    for (size_t k = 1; k < records && word_of(part->bytes, 4 * k) / 256 == 1; k++, shard++) {
        for (size_t j = k; j < records; j++) {
            uint32_t key = word_of(part->bytes, 4 * j);
            if (key % 256 != shard || 4 * (words + 3) > sizeof made)
                continue;
            word_to(made, words++, key / 256 - 1);
            word_to(made, words++, word_of(part->bytes, 4 * j + 1));
            word_to(made, words++, word_of(part->bytes, 4 * j + 2));
        }
    }
    memcpy(part->bytes, made, 4 * words);
    part->length = 4 * words;
}

/* The number of a view: mostly a few, so that reports meet. */
static uint32_t some_view(void)
{
    return one_in(24) ? odd_word() : 2 + under(4);
}

/* The bytes that a call of this kind takes, right for the settings. */
static void right_bytes(struct part *part, const struct plan_settings *settings)
{
    struct view view;
    uint8_t kind = part->step.kind;
    view_of(&view, settings, some_view(), (uint32_t)one_in(8));
    uint32_t node = some_node(settings, view.members);
    if (kind == READ_ORDER || kind == WRITE_ORDER || kind == TASK)
        put_order(part, settings, &view, node);
    else
        put_report(part, settings, &view, node, one_in(3));
    if (kind == WRITE_REPORT || kind == WRITE_ORDER)
        to_contents(part);
    if (kind == FROM_FLAT)
        to_flat(part, settings->shards);
    if (kind == DRAFT)
        to_draft(part);
}

/* ---- Changes of a message ---- */

/* A record that nobody points at, before record `at`. */
static void open_gap(struct part *part, size_t at)
{
    if (part->length + 16 > 2048 || part->length % 16 != 0)
        return;
    memmove(part->bytes + 16 * at + 16, part->bytes + 16 * at, part->length - 16 * at);
    part->length += 16;
    for (size_t k = 0; k < part->length / 16; k++) {
        uint32_t next = word_of(part->bytes, 4 * k + 3);
        if (k != at && next >= at && next != 0)
            word_to(part->bytes, 4 * k + 3, next + 1);
    }
    for (size_t k = 0; k < 4; k++)
        word_to(part->bytes, 4 * at + k, odd_word());
}

/* Takes a record out and closes up the chain. */
static void take_out(struct part *part, size_t at, size_t width)
{
    memmove(part->bytes + width * at, part->bytes + width * (at + 1),
            part->length - width * (at + 1));
    part->length -= width;
    for (size_t k = 0; width == 16 && k < part->length / 16; k++) {
        uint32_t next = word_of(part->bytes, 4 * k + 3);
        if (next > at)
            word_to(part->bytes, 4 * k + 3, next - 1 == k ? 0 : next - 1);
    }
}

/* A record twice, one behind the other. */
static void repeat(struct part *part, size_t at, size_t width)
{
    if (part->length + width > 2048)
        return;
    memmove(part->bytes + width * (at + 1), part->bytes + width * at, part->length - width * at);
    part->length += width;
    for (size_t k = 0; width == 16 && k < part->length / 16; k++) {
        uint32_t next = word_of(part->bytes, 4 * k + 3);
        if (next > at)
            word_to(part->bytes, 4 * k + 3, next + 1);
    }
    if (width == 16)
        word_to(part->bytes, 4 * at + 3, (uint32_t)at + 1);
}

/* Exchanges what two records say, but not where they point. */
static void exchange(struct part *part, size_t a, size_t b, size_t width)
{
    uint8_t kept[12];
    memcpy(kept, part->bytes + width * a, 12);
    memmove(part->bytes + width * a, part->bytes + width * b, 12);
    memcpy(part->bytes + width * b, kept, 12);
}

static void change_words(struct part *part)
{
    size_t words = part->length / 4, at = under((uint32_t)words);
    uint32_t word = word_of(part->bytes, at);
    switch (under(6)) {
    case 0:
        word = odd_word();
        break;
    case 1:
        word += 1;
        break;
    case 2:
        word -= 1;
        break;
    case 3:
        word ^= 1u << under(32);
        break;
    case 4:
        word = word_of(part->bytes, under((uint32_t)words));
        break;
    default:
        word += 256 * (1 + under(3));
        break;
    }
    word_to(part->bytes, at, word);
}

/* Changes the bytes of a step by records of so many bytes. */
static void change_records(struct part *part, size_t width)
{
    size_t records = part->length / width;
    if (records < 2) {
        change_words(part);
        return;
    }
    size_t at = 1 + under((uint32_t)records - 1), other = 1 + under((uint32_t)records - 1);
    switch (under(8)) {
    case 0:
        if (width == 16)
            open_gap(part, at);
        break;
    case 1:
        take_out(part, at, width);
        break;
    case 2:
        exchange(part, at, other, width);
        break;
    case 3:
        if (one_in(2))
            memmove(part->bytes + width * at, part->bytes + width * other, 12);
        else
            repeat(part, at, width);
        break;
    case 4:
        if (width == 16)
            word_to(part->bytes, 4 * at + 3, one_in(3) ? 0 : under((uint32_t)records + 2));
        break;
    case 5: { /* the end once more, or further */
        size_t more = width * (1 + under(one_in(6) ? 128 : 3));
        if (part->length + more <= MOST_STEP_BYTES) {
            for (size_t k = 0; k < more; k++)
                part->bytes[part->length + k] = part->bytes[part->length + k - width];
            part->length += more;
        }
        break;
    }
    case 6:
        part->length -= one_in(2) ? width : under((uint32_t)width);
        break;
    default:
        change_words(part);
        break;
    }
}

/* A step's bytes as its call reads them. */
static void change_bytes(struct part *part)
{
    if (part->length < 4 || one_in(24)) {
        size_t size = LLVMFuzzerMutate(part->bytes, part->length,
                                       part->length + 64 < MOST_STEP_BYTES ? part->length + 64
                                                                           : MOST_STEP_BYTES);
        part->length = size;
        return;
    }
    switch (part->step.kind) {
    case REPORT:
    case READ_REPORT:
    case READ_ORDER:
    case TO_FLAT:
    case TASK:
        change_records(part, 16);
        break;
    case WRITE_REPORT:
    case WRITE_ORDER:
    case DRAFT:
        change_records(part, 12);
        break;
    default:
        change_words(part);
        if (one_in(8))
            part->length -= under(5) % part->length;
        break;
    }
}

/* ---- Steps ---- */

static uint32_t right_word(uint8_t kind, const struct plan_settings *settings)
{
    switch (kind) {
    case PAGE:
        return under(one_in(6) ? 6 : 4);
    case DECIDE_WITHIN:
        return one_in(6) ? odd_word() : under(4);
    case GAME:
        return one_in(8) ? odd_word() : roll(&dice) & ((1u << (settings->nodes % 32)) - 1);
    case SMALL:
        return under(7) * 16777216u + (one_in(2) ? odd_word() % 16777216u : under(800));
    default:
        return one_in(12) ? odd_word() : under(settings->nodes);
    }
}

/* A leader's file with own words, changed or not. */
static void any_file(struct part *part)
{
    part->length = 4 * under(17) + (unsigned)one_in(12);
    memset(part->bytes, 7, part->length);
    part->step.rounds = (uint8_t)(one_in(2) ? under(32) : under(4));
    part->step.word = one_in(2) ? 4 * under(9) : under(66400);
    part->step.wrong = (uint8_t)(one_in(3) ? under(4) : 0);
    part->step.wrong_length = (uint16_t)(one_in(2) ? roll(&dice) : 0);
}

static struct part *any_step(unsigned at, uint8_t kind)
{
    struct plan_settings settings;
    settings_at(at, &settings);
    struct part *part = insert(at, kind, right_word(kind, &settings));
    part->step.rounds = (uint8_t)under(one_in(8) ? 6 : 4);
    if (kind == PAGE && one_in(2))
        part->step.role = (uint8_t)(one_in(4) ? under(12) : 1 + part->step.word % 4);
    if (kind == REPORT || (kind >= READ_REPORT && kind <= TO_FLAT) || kind == DRAFT ||
        kind == TASK) {
        right_bytes(part, &settings);
        for (uint32_t wrong = one_in(2) ? 1 + under(2) : 0; wrong > 0; wrong--)
            change_bytes(part);
    }
    if (kind == FILE_KEPT)
        any_file(part);
    if (kind == SETTINGS || kind == CHECK_SETTINGS) {
        any_settings(&settings);
        put_settings(part, &settings);
    }
    if (kind == OPEN_VIEW) {
        uint32_t few = one_in(3) ? ~0u : 15;
        for (size_t k = 0; k < 5; k++)
            word_to(part->bytes, k, one_in(3) ? 0 : one_in(3) ? few : roll(&dice) & few);
        part->length = 20;
    }
    if (kind == POKE_STATE || kind == POKE_DESK) {
        part->step.word =
            kind == POKE_STATE ? 4 * under(160) : 2048 * under(settings.nodes) + 4 * under(64);
        part->length = 4;
        word_to(part->bytes, 0, odd_word());
    }
    return part;
}

/* A call that asks and changes nothing. */
static void some_question(void)
{
    static const uint8_t questions[] = {CHECK_STATE, PREVIEW, PREVIEW_ALL, PAGE, GAME, DROP};
    any_step(work.count, questions[under(one_in(6) ? 6 : 5)]);
}

/* A whole restart: settings, reports of one view or two, a plan, orders and marks. */
static void whole_restart(void)
{
    static struct plan_settings settings;
    struct view view, old;
    uint32_t number = 2 + under(4), variant = (uint32_t)one_in(8), held = 0;
    work.count = 0;
    any_settings(&settings);
    put_settings(append(SETTINGS, 0), &settings);
    if (one_in(2))
        append(FRESH, 0);
    view_of(&view, &settings, number, variant);
    view_of(&old, &settings, number - 1, variant);
    uint32_t reports = one_in(4) ? under(settings.nodes + 1) : settings.nodes;
    for (uint32_t n = 0; n < reports && n < 14; n++) {
        const struct view *own = is_in(view.members, n) && !one_in(6) ? &view : &old;
        struct part *part = append(REPORT, 0);
        put_report(part, &settings, own, n, one_in(5));
        held |= 1u << n;
        if (one_in(10))
            change_bytes(part);
        if (one_in(10))
            some_question();
    }
    if (one_in(3))
        some_question();
    append(one_in(3) ? DECIDE_WITHIN : DECIDE, under(4));
    for (uint32_t n = 0; n < reports && n < 14; n++)
        if (one_in(2))
            append(ORDER, n);
    for (uint32_t n = 0; n < reports && n < 14; n++)
        if (is_in(held, n) && !one_in(10))
            append(FETCHED, n);
    if (one_in(3))
        some_question();
    for (uint32_t n = 0; n < reports && n < 14; n++)
        if (is_in(held, n) && !one_in(10))
            append(PREPARED, n);
    if (one_in(3))
        some_question();
}

static void change_settings(struct part *part)
{
    struct plan_settings settings;
    if (one_in(3) || !plain_settings(&settings, part->bytes, part->length)) {
        change_bytes(part);
        return;
    }
    switch (under(4)) {
    case 0:
        settings.set[under(settings.nodes)] = under(settings.sets);
        break;
    case 1:
        any_shard(&settings, under(settings.shards));
        break;
    case 2:
        settings.least = 1 + under(settings.nodes);
        break;
    default:
        if (settings.shards < 16)
            any_shard(&settings, settings.shards++);
        break;
    }
    put_settings(part, &settings);
}

static void change_head(struct part *part)
{
    switch (under(5)) {
    case 0:
        part->step.word = one_in(3) ? odd_word() : under(8);
        break;
    case 1:
        part->step.role = (uint8_t)under(one_in(3) ? 256 : 12);
        break;
    case 2:
        part->step.wrong = (uint8_t)under(5);
        part->step.wrong_length = (uint16_t)(one_in(2) ? part->length + under(9) - 4 : roll(&dice));
        break;
    case 3:
        part->step.wrong = 0;
        part->step.role = 0;
        break;
    default:
        part->step.rounds = (uint8_t)under(6);
        break;
    }
}

/* The same bytes in another call that takes such bytes. */
static void change_kind(struct part *part)
{
    static const uint8_t messages[] = {REPORT, READ_REPORT, READ_ORDER, TO_FLAT};
    static const uint8_t nodes[] = {DROP,    ORDER, FETCHED, PREPARED,
                                    PREVIEW, PAGE,  GAME,    DECIDE_WITHIN};
    if (part->step.kind == REPORT || part->step.kind == READ_REPORT ||
        part->step.kind == READ_ORDER || part->step.kind == TO_FLAT)
        part->step.kind = messages[under(4)];
    else if (part->length == 0)
        part->step.kind = nodes[under(8)];
    else
        part->step.kind = (uint8_t)under(STEP_KINDS);
}

static void change(void)
{
    unsigned at = work.count == 0 ? 0 : under(work.count);
    struct part *part = &work.parts[at];
    if (work.count == 0 || one_in(40)) {
        whole_restart();
        return;
    }
    switch (under(10)) {
    case 0:
    case 1:
        any_step(at + 1, (uint8_t)under(STEP_KINDS));
        break;
    case 2:
        memmove(part, part + 1, (work.count - at - 1) * sizeof *part);
        work.count--;
        break;
    case 3: {
        struct part copy = *part;
        *insert(under(work.count + 1), copy.step.kind, 0) = copy;
        break;
    }
    case 4:
        change_head(part);
        break;
    case 5:
        change_kind(part);
        break;
    case 6: {
        struct part copy = *part, *to = &work.parts[under(work.count)];
        *part = *to;
        *to = copy;
        break;
    }
    default:
        if (part->step.kind == SETTINGS)
            change_settings(part);
        else if (part->length > 0)
            change_bytes(part);
        else
            change_head(part);
        break;
    }
}

size_t LLVMFuzzerCustomMutator(uint8_t *data, size_t size, size_t most, unsigned seed)
{
    dice = dice_of(seed);
    take_apart(&work, data, size);
    for (uint32_t changes = 1 + under(one_in(3) ? 6 : 2); changes > 0; changes--)
        change();
    return put_together(&work, data, most);
}

/* The beginning of one and the end of the other. */
size_t LLVMFuzzerCustomCrossOver(const uint8_t *one, size_t one_size, const uint8_t *two,
                                 size_t two_size, uint8_t *to, size_t most, unsigned seed)
{
    dice = dice_of(seed);
    take_apart(&work, one, one_size);
    take_apart(&second, two, two_size);
    if (work.count > 0)
        work.count = 1 + under(work.count);
    for (unsigned i = second.count == 0 ? 0 : under(second.count);
         i < second.count && work.count < MOST_STEPS; i++)
        work.parts[work.count++] = second.parts[i];
    return put_together(&work, to, most);
}
