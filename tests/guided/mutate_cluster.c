/* Changes inputs of cluster.c by what they mean: steps, and changes of messages. */
#include "dice.h"
#include "happenings.h"
#include "plain.h"

#include <string.h>

size_t LLVMFuzzerMutate(uint8_t *data, size_t size, size_t most);
size_t LLVMFuzzerCustomMutator(uint8_t *data, size_t size, size_t most, unsigned seed);
size_t LLVMFuzzerCustomCrossOver(const uint8_t *one, size_t one_size, const uint8_t *two,
                                 size_t two_size, uint8_t *to, size_t most, unsigned seed);

enum { MOST_BYTES = 512 };

struct part {
    uint8_t head[HAPPENING_HEAD], bytes[MOST_BYTES];
    size_t length;
};

struct input {
    uint8_t beginning;
    unsigned count;
    struct part parts[MOST_HAPPENINGS];
};

static struct input work, second;

static void take_apart(struct input *to, const uint8_t *data, size_t size)
{
    to->count = 0;
    to->beginning = size > 0 ? data[0] : 0;
    if (size > 0) {
        data++;
        size--;
    }
    while (to->count < MOST_HAPPENINGS && size >= HAPPENING_HEAD) {
        struct part *part = &to->parts[to->count++];
        size_t length = (size_t)data[8] + 256 * (size_t)data[9];
        memcpy(part->head, data, HAPPENING_HEAD);
        data += HAPPENING_HEAD;
        size -= HAPPENING_HEAD;
        if (length > size)
            length = size;
        part->length = length < MOST_BYTES ? length : MOST_BYTES;
        memcpy(part->bytes, data, part->length);
        data += length;
        size -= length;
    }
}

static size_t put_together(const struct input *from, uint8_t *data, size_t most)
{
    size_t size = 1;
    if (most == 0)
        return 0;
    data[0] = from->beginning;
    for (unsigned i = 0; i < from->count; i++) {
        const struct part *part = &from->parts[i];
        if (size + HAPPENING_HEAD + part->length > most)
            break;
        memcpy(data + size, part->head, HAPPENING_HEAD);
        data[size + 8] = (uint8_t)(part->length % 256);
        data[size + 9] = (uint8_t)(part->length / 256);
        memcpy(data + size + HAPPENING_HEAD, part->bytes, part->length);
        size += HAPPENING_HEAD + part->length;
    }
    return size;
}

/* One more change of a message. Words at the front are the ones that matter most. */
static void add_change(struct part *part)
{
    uint8_t *one = part->bytes + part->length;
    uint32_t place = one_in(2) ? under(12) : under(one_in(4) ? 600 : 40);
    if (part->length % 8 != 0 || part->length + 8 > MOST_BYTES)
        return;
    memset(one, 0, 8);
    one[0] = (uint8_t)(one_in(3) ? RECEIVER_TAG : under(CHANGES));
    one[2] = (uint8_t)(place % 256);
    one[3] = (uint8_t)(place / 256);
    word_to(one, 1, one[0] == SET_KNOWN || one[0] == SET_FROM ? under(16) : odd_word());
    part->length += 8;
}

/* A message from nothing: kind, tag and some words. */
static void any_message(struct part *part)
{
    uint32_t words = 3 + under(one_in(3) ? 60 : 8);
    for (uint32_t i = 0; i < words; i++)
        word_to(part->bytes, i, i == 0 ? 1 + under(22) : odd_word());
    part->length = 4 * words;
    if (one_in(8))
        part->length -= under(4);
}

static void any_part(struct part *part)
{
    static const uint8_t likely[] = {DELIVER, DELIVER, CHANGED, CHANGED, CHANGED, TIME};
    memset(part->head, 0, sizeof part->head);
    part->length = 0;
    part->head[0] = one_in(3) ? (uint8_t)under(HAPPENINGS) : likely[under(6)];
    part->head[1] = (uint8_t)under(4);
    part->head[2] = (uint8_t)under(11);
    part->head[3] = (uint8_t)(one_in(2) ? under(4) : 0);
    word_to(part->head, 1, one_in(3) ? under(400) : under(8));
    if (part->head[0] == TIME)
        word_to(part->head, 1, 60 * under(8));
    if (part->head[0] == RAW)
        any_message(part);
    if (part->head[0] == CHANGED)
        for (uint32_t changes = under(4); changes > 0; changes--)
            add_change(part);
}

static struct part *insert(unsigned at)
{
    if (work.count == MOST_HAPPENINGS)
        work.count--;
    if (at > work.count)
        at = work.count;
    memmove(&work.parts[at + 1], &work.parts[at], (work.count - at) * sizeof work.parts[0]);
    work.count++;
    return &work.parts[at];
}

static void change_part(struct part *part)
{
    switch (under(6)) {
    case 0:
        part->head[1 + under(3)] = (uint8_t)under(12);
        break;
    case 1:
        word_to(part->head, 1, one_in(3) ? under(400) : word_of(part->head, 1) + 1 - under(3));
        break;
    case 2:
        if (part->head[0] % HAPPENINGS == CHANGED && part->length >= 8)
            part->length -= 8;
        break;
    case 3:
        if (part->length >= 8)
            word_to(part->bytes + part->length / 8 * 8 - 8, 1, odd_word());
        break;
    case 4:
        if (part->length > 0)
            part->length = LLVMFuzzerMutate(part->bytes, part->length, MOST_BYTES);
        break;
    default:
        if (part->head[0] % HAPPENINGS == CHANGED)
            add_change(part);
        break;
    }
}

static void change(void)
{
    if (work.count == 0 || one_in(3)) {
        any_part(insert(under(work.count + 1)));
        return;
    }
    unsigned at = under(work.count);
    struct part copy = work.parts[at];
    switch (under(8)) {
    case 0:
        memmove(&work.parts[at], &work.parts[at + 1], (work.count - at - 1) * sizeof work.parts[0]);
        work.count--;
        break;
    case 1:
        *insert(under(work.count + 1)) = copy;
        break;
    case 2:
        work.beginning = (uint8_t)under(96);
        break;
    case 3: /* what is on its way arrives, and time goes by */
        for (uint32_t steps = 1 + under(12); steps > 0; steps--) {
            struct part *part = insert(at);
            any_part(part);
            part->head[0] = one_in(5) ? TIME : DELIVER;
            part->length = 0;
            word_to(part->head, 1, part->head[0] == TIME ? 60 : 0);
        }
        break;
    default:
        change_part(&work.parts[at]);
        break;
    }
}

size_t LLVMFuzzerCustomMutator(uint8_t *data, size_t size, size_t most, unsigned seed)
{
    dice = dice_of(seed);
    take_apart(&work, data, size);
    for (uint32_t changes = 1 + under(3); changes > 0; changes--)
        change();
    return put_together(&work, data, most);
}

/* The beginning of one and the end of the other. */
size_t LLVMFuzzerCustomCrossOver(const uint8_t *one, size_t one_size, const uint8_t *two,
                                 size_t two_size, uint8_t *to, size_t most, unsigned seed)
{
    dice = dice_of(seed);
    take_apart(&work, one, one_size);
    take_apart(&second, two, two_size);
    work.count = work.count == 0 ? 0 : under(work.count + 1);
    for (unsigned i = second.count == 0 ? 0 : under(second.count);
         i < second.count && work.count < MOST_HAPPENINGS; i++)
        work.parts[work.count++] = second.parts[i];
    return put_together(&work, to, most);
}
