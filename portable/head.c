#include "cuckooormolu.h"

#include <string.h>

/* What is one function in the source is many here, down to the turn of a loop:
 * gcc joins them at -O3, and at -O2 too few of them. */
#if defined(__GNUC__) && !defined(__clang__) && defined(__OPTIMIZE__) &&       \
    !defined(__OPTIMIZE_SIZE__)
#pragma GCC optimize("O3")
#endif

/* A function with a large array is not inlined: two such arrays would share a
 * frame, and both would be on the stack where one is needed. */
#ifdef __GNUC__
#define OUT_OF_LINE __attribute__((noinline))
#define MAYBE_UNUSED __attribute__((unused))
#else
#define OUT_OF_LINE
#define MAYBE_UNUSED
#endif

/* What is proved not to be reached. */
#if defined(__GNUC__) && !defined(CUCKOOORMOLU_NO_BUILTINS)
#define UNREACHABLE __builtin_unreachable()
#else
#define UNREACHABLE                                                            \
    for (;;) {                                                                 \
    }
#endif

/* What is meant to wrap, which the sanitizers would report elsewhere. */
#ifdef __clang__
#define WRAPS __attribute__((no_sanitize("unsigned-integer-overflow")))
#else
#define WRAPS
#endif

/* The place of the least bit that is set, counted from 0; 64 where none is. */
static MAYBE_UNUSED uint32_t trailing_zeros(uint64_t word)
{
#if defined(__GNUC__) && !defined(CUCKOOORMOLU_NO_BUILTINS)
    return word == 0 ? 64u : (uint32_t)__builtin_ctzll(word);
#else
    uint32_t count = 0;
    while (count < 64u && (word >> count & 1u) == 0)
        count++;
    return count;
#endif
}

/* The number of bits above the greatest that is set; 64 where none is. */
static MAYBE_UNUSED uint32_t leading_zeros(uint64_t word)
{
#if defined(__GNUC__) && !defined(CUCKOOORMOLU_NO_BUILTINS)
    return word == 0 ? 64u : (uint32_t)__builtin_clzll(word);
#else
    uint32_t count = 0;
    while (count < 64u && (word << count >> 63 & 1u) == 0)
        count++;
    return count;
#endif
}

/* The number of bits that are set. */
static MAYBE_UNUSED uint32_t count_ones(uint64_t word)
{
    word -= word >> 1 & UINT64_C(0x5555555555555555);
    word = (word & UINT64_C(0x3333333333333333)) +
           (word >> 2 & UINT64_C(0x3333333333333333));
    word = (word + (word >> 4)) & UINT64_C(0x0f0f0f0f0f0f0f0f);
    word += word >> 8;
    word += word >> 16;
    word += word >> 32;
    return (uint32_t)(word & 127u);
}

/* Numbers modulo 2^64. */
static inline MAYBE_UNUSED WRAPS uint64_t wrapping_sum(uint64_t a, uint64_t b)
{
    return a + b;
}

static inline MAYBE_UNUSED WRAPS uint64_t wrapping_difference(uint64_t a,
                                                              uint64_t b)
{
    return a - b;
}

static inline MAYBE_UNUSED WRAPS uint64_t wrapping_product(uint64_t a,
                                                           uint64_t b)
{
    return a * b;
}
