/* What each of the two fuzzers, calls.c and cluster.c, has for libFuzzer and for replay.c. */
#ifndef GUIDED_H
#define GUIDED_H

#include <stddef.h>
#include <stdint.h>

int LLVMFuzzerInitialize(int *count, char ***arguments);

/* Runs an input; ends the program at the first thing that is wrong. */
int LLVMFuzzerTestOneInput(const uint8_t *input, size_t length);

/* Faults that can be put in, 1 to this many, to show that they are found: one by the environment's
 * GUIDED_FAULT, or by hand. */
extern const unsigned guided_faults;
const char *guided_fault_text(unsigned number);
void guided_put_fault(unsigned number);

#endif
