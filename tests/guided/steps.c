/* The steps of an input; see steps.h. */
#include "steps.h"

#include "plain.h"

int next_step(struct step *to, const uint8_t **input, size_t *left)
{
    const uint8_t *bytes = *input;
    if (*left < STEP_HEAD)
        return 0;
    to->kind = bytes[0] % STEP_KINDS;
    to->role = bytes[1];
    to->wrong = bytes[2];
    to->rounds = bytes[3];
    to->word = word_of(bytes, 1);
    to->length = (uint16_t)(bytes[8] + 256 * bytes[9]);
    to->wrong_length = (uint16_t)(bytes[10] + 256 * bytes[11]);
    to->bytes = bytes + STEP_HEAD;
    *left -= STEP_HEAD;
    if (to->length > *left)
        to->length = (uint16_t)*left;
    *input += STEP_HEAD + to->length;
    *left -= to->length;
    if (to->length > MOST_STEP_BYTES)
        to->length = MOST_STEP_BYTES;
    return 1;
}

uint32_t role_of(uint8_t byte)
{
    static const uint32_t others[] = {256, 512, 513, 514, 515, 0, 255, 257, 511, 516, 768};
    return byte < sizeof others / sizeof others[0] ? others[byte] : 256u * byte;
}
