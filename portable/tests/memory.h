/*
 * The lent memory of the invariants. Each has exactly the length that is lent,
 * so that a sanitizer sees every byte beyond it; the words beyond the named
 * ones have to stay as they are.
 */
#ifndef MEMORY_H
#define MEMORY_H

#include "cuckooormolu.h"

#include <stdio.h>
#include <stdlib.h>
#include <string.h>

#define BEYOND 2
#define TERMS (CUCKOOORMOLU_TERMS_WORDS + BEYOND)
#define STATE (CUCKOOORMOLU_STATE_WORDS + BEYOND)
#define SCRATCH (CUCKOOORMOLU_SCRATCH_WORDS + BEYOND)
#define RELATION_WORDS 1024
#define EVENT_WORD (CUCKOOORMOLU_STATE_WORDS - 1)
#define KEPT_MARKS (CUCKOOORMOLU_TERMS_WORDS - 16)
#define FILLED 0x5a5a

/* Stops where something does not hold. */
#define HOLDS(fact)                                                        \
    do {                                                                   \
        if (!(fact)) {                                                     \
            fprintf(stderr, "%s:%d: not so: %s\n", __FILE__, __LINE__,     \
                    #fact);                                                \
            abort();                                                       \
        }                                                                  \
    } while (0)

struct memory {
    uint16_t *terms;
    uint64_t *state;
    uint64_t *scratch;
};

static inline void *lent(const void *from, size_t bytes)
{
    void *copy = malloc(bytes > 0 ? bytes : 1);
    HOLDS(copy != NULL);
    if (from != NULL)
        memcpy(copy, from, bytes);
    return copy;
}

static inline struct memory copied(struct memory m)
{
    struct memory copy = {(uint16_t *)lent(m.terms, TERMS * sizeof *m.terms),
                          (uint64_t *)lent(m.state, STATE * sizeof *m.state),
                          (uint64_t *)lent(m.scratch, SCRATCH * sizeof *m.scratch)};
    return copy;
}

static inline struct memory filled(void)
{
    struct memory none = {NULL, NULL, NULL};
    struct memory m = copied(none);
    for (size_t i = 0; i < TERMS; i++)
        m.terms[i] = FILLED;
    for (size_t i = 0; i < STATE; i++)
        m.state[i] = FILLED;
    for (size_t i = 0; i < SCRATCH; i++)
        m.scratch[i] = FILLED;
    return m;
}

static inline void released(struct memory m)
{
    free(m.terms);
    free(m.state);
    free(m.scratch);
}

static inline bool same_terms(struct memory a, struct memory b)
{
    return memcmp(a.terms, b.terms, TERMS * sizeof *a.terms) == 0;
}

static inline bool same_relations(struct memory a, struct memory b)
{
    return memcmp(a.state, b.state, RELATION_WORDS * sizeof *a.state) == 0;
}

static inline bool same_kept(struct memory a, struct memory b)
{
    return same_terms(a, b) && memcmp(a.state, b.state, STATE * sizeof *a.state) == 0;
}

static inline bool same(struct memory a, struct memory b)
{
    return same_kept(a, b) && memcmp(a.scratch, b.scratch, SCRATCH * sizeof *a.scratch) == 0;
}

/* The words beyond the named ones are as they were filled. */
static inline bool stays_beyond(struct memory m)
{
    bool stays = true;
    for (size_t i = 1; i <= BEYOND; i++)
        stays = stays && m.terms[TERMS - i] == FILLED && m.state[STATE - i] == FILLED &&
                m.scratch[SCRATCH - i] == FILLED;
    return stays;
}

#endif
