/*
 * Past-time entries with two free variables: which are accepted, what they
 * answer, the bits of their tables and the lines that store them. It is compiled
 * as C and as C++, and prints nothing where all of it holds.
 */
#include "cuckooormolu.h"
#include "expect.h"

#include <stdio.h>
#include <stdlib.h>
#include <string.h>

/* Events are 0 pick, 1 share and 2 load. Entry 10, of table 1: here has at some
 * time shared with variable 1 a moment after picking variable 0. The target may
 * be loaded by whoever it was so shared with. */
static const char introduced[] =
    "M\t%d\nL\t0\t3\nF\t0\tvar\t0\t0\nF\t1\tout\t0\t0\nF\t2\tprev\t1\t0\n"
    "F\t3\tvar\t1\t0\nF\t4\tout\t1\t3\nF\t5\tnot\t2\t0\nF\t6\tnot\t4\t0\n"
    "F\t7\tor\t5\t6\nF\t8\tnot\t7\t0\nF\t9\ttop\t0\t0\nF\t10\tsince\t9\t8\n"
    "F\t11\treach\t2\t9\t10\nF\t12\tbind\t1\t11\nP\t0\t9\nP\t1\t9\nP\t2\t12\n";

/* Where table 1 begins. */
#define TABLE (1024 + 64)

static struct cuckooormolu m;

static struct cuckooormolu_result read_terms(int members, size_t *line)
{
    char text[sizeof introduced + 8];
    int length = snprintf(text, sizeof text, introduced, members);
    return cuckooormolu_monitor_read(&m, text, (size_t)length, line);
}

/* Up to sixteen members may have such entries. */
static void accepted(void)
{
    size_t line = 77;
    for (int members = 1; members <= 16; members++) {
        EXPECT(cuckooormolu_done(read_terms(members, &line)));
    }
    struct cuckooormolu before = m;
    for (int members = 17; members <= 64; members++) {
        struct cuckooormolu_result result = read_terms(members, &line);
        EXPECT_REFUSED(PAST, result);
        EXPECT(line == 13);
        EXPECT(strstr(cuckooormolu_words(result), "more than 16 members"));
    }
    EXPECT(memcmp(&before, &m, sizeof m) == 0);
    before.terms[0] = 17;
    EXPECT_REFUSED(TERMS, cuckooormolu_monitor_check(&before));
}

/* An answer depends on all three. */
static void answers(void)
{
    EXPECT(cuckooormolu_done(read_terms(5, NULL)));
    EXPECT(cuckooormolu_granted(cuckooormolu_monitor_request(&m, 0, 0, 3)));
    EXPECT(cuckooormolu_granted(cuckooormolu_monitor_request(&m, 1, 0, 1)));
    for (size_t from = 0; from < 5; from++) {
        for (size_t to = 0; to < 5; to++) {
            bool shared = from == 1 && to == 3;
            EXPECT(cuckooormolu_granted(
                       cuckooormolu_monitor_look(&m, 2, from, to)) == shared);
        }
    }
    /* At 0, with 3 and 1. */
    for (size_t word = 0; word < 64; word++) {
        EXPECT(m.state[TABLE + word] ==
               (word == 0 ? UINT64_C(1) << (16 * 3 + 1) : 0));
    }
}

/* Each bit has its place, and nobody who does not exist has one. */
static void bits(void)
{
    const int members = 7;
    EXPECT(cuckooormolu_done(read_terms(members, NULL)));
    for (int place = 0; place < 64 * 64; place++) {
        int word = place / 64;
        int bit = place % 64;
        int b = 4 * (word % 4) + bit / 16;
        bool there = word / 4 < members && b < members && bit % 16 < members;
        m.state[TABLE + word] = UINT64_C(1) << bit;
        EXPECT(cuckooormolu_done(cuckooormolu_monitor_check(&m)) == there);
        if (!there) {
            EXPECT_REFUSED(STATE, cuckooormolu_monitor_check(&m));
        }
        m.state[TABLE + word] = 0;
    }
}

/* A line of such a table has five fields. */
static void storing(void)
{
    static struct cuckooormolu other;
    char output[2 * sizeof introduced];
    size_t count = 0;
    size_t line = 77;
    EXPECT(cuckooormolu_done(read_terms(5, NULL)));
    EXPECT(cuckooormolu_granted(cuckooormolu_monitor_request(&m, 0, 0, 3)));
    EXPECT(cuckooormolu_granted(cuckooormolu_monitor_request(&m, 1, 0, 1)));
    EXPECT(cuckooormolu_done(
        cuckooormolu_monitor_store(&m, output, sizeof output - 1, &count)));
    output[count] = 0;
    EXPECT(strstr(output, "\nT\t0\t0\t3\nT\t1") != NULL);
    char *stored = strstr(output, "T\t1\t0\t3\t1\nV\t1\t0\t1\n");
    EXPECT(stored != NULL);
    EXPECT(cuckooormolu_done(
        cuckooormolu_monitor_read(&other, output, count, &line)));
    EXPECT(memcmp(m.state, other.state, sizeof m.state) == 0);
    if (stored != NULL) {
        /* A table with one variable has no such line. */
        stored[2] = '0';
        EXPECT_REFUSED(FORM,
                       cuckooormolu_monitor_read(&other, output, count, &line));
        EXPECT(line == 21);
        stored[2] = '1';
        /* Member 5 does not exist. */
        stored[8] = '5';
        EXPECT_REFUSED(RANGE,
                       cuckooormolu_monitor_read(&other, output, count, &line));
        EXPECT(line == 21);
    }
}

int main(void)
{
    accepted();
    answers();
    bits();
    storing();
    return failed;
}
