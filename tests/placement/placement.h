// The proved placement of one subgroup, as target/staticlib/libc_placement.a exports it.
//   sets: 32 bytes, the failure set of each node      needs: 16 bytes, from how many sets each shard needs nodes
//   caps: 16 bytes, how many nodes each shard may have
//   costs: 512 bytes at shard * 32 + node, 255 where the node is not allowed     idle: the cost of a node placed nowhere
//   owners: 32 bytes, set to the shard of each node, 16 for none
// Each array with its length. Where one is wrong the answer is 10001, and the owners stay as they are.
// A placement's weight is the sum of the costs of all 32 nodes.
#pragma once
#include <stddef.h>
#include <stdint.h>

#ifdef __cplusplus
extern "C" {
#endif

// The first placement, shards ascending and nodes ascending, among those of least weight: its weight,
// or 10000 where no valid placement exists.
uint32_t placement_least(const uint8_t *sets, size_t sets_len, const uint8_t *needs,
                         size_t needs_len, const uint8_t *caps, size_t caps_len,
                         const uint8_t *costs, size_t costs_len, uint8_t idle, uint8_t *owners,
                         size_t owners_len);

// The first placement among those of a weight of at most k: its weight, or 10000 where there is none.
uint32_t placement_within(const uint8_t *sets, size_t sets_len, const uint8_t *needs,
                          size_t needs_len, const uint8_t *caps, size_t caps_len,
                          const uint8_t *costs, size_t costs_len, uint8_t idle, uint32_t k,
                          uint8_t *owners, size_t owners_len);

#ifdef __cplusplus
}
#endif
