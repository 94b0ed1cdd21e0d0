/*
 * The requests of the test, and what the library says of them.
 */
#ifndef POWER_EXPECTED_H
#define POWER_EXPECTED_H

#include "disk.h"

#include <stdint.h>

enum { REQUESTS = 9 };
typedef uint32_t request[3];

extern const char terms_text[];
extern const size_t terms_size;
extern const request requests[REQUESTS];

/* A share that is always granted. */
extern const request probe[1];

/* After each count of requests: what is stored, and what is stored when the probe
 * follows. */
extern struct bytes stored[REQUESTS + 1];
extern struct bytes probed[REQUESTS + 1];

/* What is told, and how much of it for each count of requests. */
extern char told[REQUESTS * 16];
extern size_t told_length[REQUESTS + 1];

/* Fills all that; false where the library refuses something. */
bool expect_all(void);

#endif
