/*
 * What holds of every call, whatever is lent.
 */
#ifndef INVARIANTS_H
#define INVARIANTS_H

#include <stddef.h>
#include <stdint.h>

/* A digest of every code, count, line and state so far; the same on every
 * machine. */
extern uint64_t digest;

/* Takes a number into the digest. */
void tell(uint64_t number);

/* Makes the calls of an input, and stops the program where something does not
 * hold. The name is libFuzzer's. */
int LLVMFuzzerTestOneInput(const uint8_t *input, size_t length);

#endif
