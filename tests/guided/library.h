/* The library's calls as the fuzzer makes them: straight, or with one of the faults of faults.c. */
#ifndef LIBRARY_H
#define LIBRARY_H

#include <restart.h>

/* Which fault stands in for the library; 0: none. Some are put in by extras.c. */
extern unsigned fault;

#define LENT_READ                                                                                  \
    uint32_t role, const uint8_t *settings, size_t settings_len, const uint8_t *state,             \
        size_t state_len, const uint8_t *desk, size_t desk_len
#define LENT_STATE                                                                                 \
    uint32_t role, const uint8_t *settings, size_t settings_len, uint8_t *state, size_t state_len, \
        const uint8_t *desk, size_t desk_len
#define LENT_BOTH                                                                                  \
    uint32_t role, const uint8_t *settings, size_t settings_len, uint8_t *state, size_t state_len, \
        uint8_t *desk, size_t desk_len
#define TURNED                                                                                     \
    const uint8_t *settings, size_t settings_len, const uint8_t *from, size_t from_len,            \
        uint8_t *to, size_t to_len

struct library {
    uint32_t (*check_settings)(const uint8_t *settings, size_t settings_len);
    uint32_t (*read_report)(TURNED);
    uint32_t (*read_order)(TURNED);
    uint32_t (*write_report)(TURNED);
    uint32_t (*write_order)(TURNED);
    uint32_t (*from_flat)(TURNED);
    uint32_t (*to_flat)(TURNED);
    uint32_t (*open_view)(uint32_t members, uint32_t known, uint32_t have, uint32_t lack,
                          uint32_t passed);
    uint32_t (*fresh)(uint32_t role, uint8_t *state, size_t state_len);
    uint32_t (*check_state)(LENT_READ);
    uint32_t (*report)(LENT_BOTH, const uint8_t *message, size_t message_len);
    uint32_t (*drop)(LENT_STATE, uint32_t node);
    uint32_t (*decide)(LENT_STATE);
    uint32_t (*decide_within)(LENT_STATE, uint32_t rounds);
    uint32_t (*order)(LENT_READ, uint32_t node, uint8_t *buffer, size_t buffer_len);
    uint32_t (*fetched)(LENT_STATE, uint32_t node);
    uint32_t (*prepared)(LENT_STATE, uint32_t node);
    uint32_t (*preview)(LENT_READ, uint32_t node, uint8_t *buffer, size_t buffer_len);
    uint32_t (*preview_all)(LENT_READ, uint8_t *buffer, size_t buffer_len);
    uint32_t (*page)(LENT_READ, uint32_t subgroup, uint8_t *buffer, size_t buffer_len);
    uint32_t (*game)(LENT_READ, uint32_t held, uint32_t rounds);
};

/* The calls of librestart, those with the fault among them. */
struct library library_with(unsigned number);

#endif
