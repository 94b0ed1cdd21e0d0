/* What the test programs share: facts that are looked at, and whether one of
 * them was not so. */
#ifndef EXPECT_H
#define EXPECT_H

#include "cuckooormolu.h"

#include <stdio.h>

static int failed;

/* A length that the compiler does not know: it warns of memory that is shorter. */
static inline size_t unseen(size_t length)
{
    volatile size_t hidden = length;
    return hidden;
}

#define EXPECT(fact)                                                \
    do {                                                            \
        if (!(fact)) {                                              \
            printf("%s:%d: not so: %s\n", __FILE__, __LINE__, #fact); \
            failed = 1;                                             \
        }                                                           \
    } while (0)

/* The call was refused by the number of that name. */
#define EXPECT_REFUSED(name, call) \
    EXPECT(cuckooormolu_refusal(call) == CUCKOOORMOLU_REFUSED_##name)

#endif
