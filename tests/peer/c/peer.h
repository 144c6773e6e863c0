/*
 * A peer of the library, in C and for speed alone: the events of include/restart.h from the same
 * bytes, with the same answers and the same bytes left. It is what the library's times are compared
 * with, and nothing else. Nothing is proved of it; the comparison in ../src/compare.rs holds it to
 * the library and the reference.
 *
 * It was written from the specification and its requests, not from the library. decide has two forms.
 * Of the placements of least moves and, of those, most stays, peer_decide gives any, and
 * peer_decide_first the first in order, as the library does. The peer has no pages: roles other than
 * the planner's get number 15 of every event.
 */
#ifndef PEER_H
#define PEER_H

#include <stddef.h>
#include <stdint.h>

uint32_t peer_fresh(uint32_t role, uint8_t *state, size_t state_len);
uint32_t peer_check_state(uint32_t role, const uint8_t *settings, size_t settings_len,
                          const uint8_t *state, size_t state_len, const uint8_t *desk,
                          size_t desk_len);
uint32_t peer_report(uint32_t role, const uint8_t *settings, size_t settings_len, uint8_t *state,
                     size_t state_len, uint8_t *desk, size_t desk_len, const uint8_t *message,
                     size_t message_len);
uint32_t peer_drop(uint32_t role, const uint8_t *settings, size_t settings_len, uint8_t *state,
                   size_t state_len, const uint8_t *desk, size_t desk_len, uint32_t node);
uint32_t peer_decide(uint32_t role, const uint8_t *settings, size_t settings_len, uint8_t *state,
                     size_t state_len, const uint8_t *desk, size_t desk_len);
uint32_t peer_decide_first(uint32_t role, const uint8_t *settings, size_t settings_len,
                           uint8_t *state, size_t state_len, const uint8_t *desk, size_t desk_len);
uint32_t peer_order(uint32_t role, const uint8_t *settings, size_t settings_len,
                    const uint8_t *state, size_t state_len, const uint8_t *desk, size_t desk_len,
                    uint32_t node, uint8_t *buffer, size_t buffer_len);
uint32_t peer_fetched(uint32_t role, const uint8_t *settings, size_t settings_len, uint8_t *state,
                      size_t state_len, const uint8_t *desk, size_t desk_len, uint32_t node);
uint32_t peer_prepared(uint32_t role, const uint8_t *settings, size_t settings_len, uint8_t *state,
                       size_t state_len, const uint8_t *desk, size_t desk_len, uint32_t node);

#endif
