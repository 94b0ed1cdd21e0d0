/*
 * The stack that is told of terms is more than what calls take: each runs in a
 * thread on a painted stack, and the paint that is left is counted. Where the
 * machine or a sanitizer makes other frames, nothing is measured. It is compiled as
 * C and as C++, and prints nothing where all of it holds.
 */
#ifndef _DEFAULT_SOURCE
#define _DEFAULT_SOURCE
#endif
#include "cuckooormolu.h"
#include "expect.h"

#include <string.h>

#if defined(__has_feature)
#if __has_feature(address_sanitizer) || __has_feature(memory_sanitizer)
#define OTHER_FRAMES
#endif
#endif
#if defined(__SANITIZE_ADDRESS__) || !defined(__x86_64__) || !defined(__linux__)
#define OTHER_FRAMES
#endif

static struct cuckooormolu m;
static char text[16384];
static size_t length;

/* Entries that nest so deep by an operator, and then so often by or of the one
 * below twice; the last is a policy and under a since. Event 0 is always granted. */
static void write_terms(const char *operators, int depth, int doubled)
{
    char *at = text;
    int entry = 1;
    at += sprintf(at, "M\t64\nL\t1\t2\nF\t0\ttop\t0\t0\nF\t1\tvar\t0\t0\n");
    for (int i = 0; i < depth; i++, entry++)
        at += sprintf(at, operators, entry + 1, entry);
    for (int i = 0; i < doubled; i++, entry++)
        at += sprintf(at, "F\t%d\tor\t%d\t%d\n", entry + 1, entry, entry);
    at += sprintf(at, "F\t%d\tsince\t%d\t%d\nP\t0\t0\nP\t1\t%d\n", entry + 1,
                  entry, entry, entry);
    at += sprintf(at, "G\t0\t0\t1\nG\t0\t1\t2\n");
    length = (size_t)(at - text);
}

#ifndef OTHER_FRAMES
#include <pthread.h>
#include <stdlib.h>

#define STACK ((size_t)2 << 20)
#define PAINT 0xa5

static void no_call(void)
{
}

static void read_terms(void)
{
    EXPECT(cuckooormolu_done(
        cuckooormolu_monitor_read(&m, text, length, NULL)));
}

static void write_text(void)
{
    static char output[sizeof text];
    EXPECT(cuckooormolu_done(
        cuckooormolu_monitor_write(&m, output, sizeof output, NULL)));
}

static void request(void)
{
    EXPECT(cuckooormolu_refusal(cuckooormolu_monitor_request(&m, 1, 0, 1)) ==
           0);
    EXPECT(cuckooormolu_granted(cuckooormolu_monitor_request(&m, 0, 0, 1)));
}

static void revise(void)
{
    static struct cuckooormolu next;
    next = m;
    EXPECT(cuckooormolu_done(cuckooormolu_monitor_revise(&m, &next)));
}

static void (*const calls[])(void) = {no_call, read_terms, write_text, request,
                                      revise};
static size_t call;

static void *run(void *nothing)
{
    calls[call]();
    return nothing;
}

/* The bytes of stack that a thread with the call touches. */
static size_t touched(unsigned char *stack)
{
    pthread_attr_t attributes;
    pthread_t thread;
    size_t left = 0;
    memset(stack, PAINT, STACK);
    EXPECT(pthread_attr_init(&attributes) == 0);
    EXPECT(pthread_attr_setstack(&attributes, stack, STACK) == 0);
    EXPECT(pthread_create(&thread, &attributes, run, NULL) == 0);
    EXPECT(pthread_join(thread, NULL) == 0);
    while (left < STACK && stack[left] == PAINT)
        left++;
    return STACK - left;
}

static void hold(unsigned char *stack, int depth)
{
    size_t bare, most = 0;
    call = 0;
    bare = touched(stack);
    for (call = 1; call < sizeof calls / sizeof *calls; call++) {
        size_t bytes = touched(stack) - bare;
        if (most < bytes)
            most = bytes;
    }
    EXPECT(most < cuckooormolu_monitor_stack(&m));
    /* A memo has 266 KiB, more than the frames of so many levels. */
    if (depth <= 60)
        EXPECT((most > 266 * 1024) == cuckooormolu_takes_memo(m.terms));
}

static void measured(void)
{
    static const char *const operators[] = {
        "F\t%d\tnot\t%d\t0\n",   "F\t%d\tor\t0\t%d\n",
        "F\t%d\tout\t0\t%d\n",   "F\t%d\tat\t0\t%d\n",
        "F\t%d\tbind\t1\t%d\n",  "F\t%d\tmany\t0\t%d\t2\n",
        "F\t%d\tbind\t15\t%d\n", "F\t%d\tin\t0\t%d\n"};
    static const int depths[] = {1, 6, 7, 30, 60, 120};
    unsigned char *stack = (unsigned char *)aligned_alloc(4096, STACK);
    EXPECT(stack != NULL);
    if (stack == NULL)
        return;
    for (size_t i = 0; i < sizeof operators / sizeof *operators; i++)
        for (size_t j = 0; j < sizeof depths / sizeof *depths; j++)
            for (int doubled = 0; doubled <= 9; doubled += 3) {
                write_terms(operators[i], depths[j], doubled);
                hold(stack, depths[j]);
            }
    free(stack);
}
#else
static void measured(void)
{
}
#endif

static size_t told(const char *operators, int depth, int doubled)
{
    write_terms(operators, depth, doubled);
    EXPECT(cuckooormolu_done(
        cuckooormolu_monitor_read(&m, text, length, NULL)));
    return cuckooormolu_monitor_stack(&m);
}

/* Deeper terms take more, and those that are counted too often a memo. */
static void by_the_terms(void)
{
    const size_t memo = 272 * 1024;
    const size_t level = told("F\t%d\tnot\t%d\t0\n", 9, 0) -
                         told("F\t%d\tnot\t%d\t0\n", 8, 0);
    EXPECT(level >= 1024 && level < 8192);
    EXPECT(told("F\t%d\tnot\t%d\t0\n", 30, 0) < memo);
    /* 511 for either operand of the since, and 767. */
    EXPECT(told("F\t%d\tnot\t%d\t0\n", 1, 8) < memo);
    EXPECT(told("F\t%d\tnot\t%d\t0\n", 2, 8) > memo);
    EXPECT(told("F\t%d\tbind\t1\t%d\n", 6, 0) < memo);
    EXPECT(told("F\t%d\tbind\t1\t%d\n", 60, 0) > memo);
    EXPECT(told("F\t%d\tbind\t1\t%d\n", 250, 0) <= CUCKOOORMOLU_STACK_BYTES);
}

/* Words that are no terms do not look harmless, and are not followed. */
static void no_terms(void)
{
    static struct cuckooormolu bad;
    const size_t most = CUCKOOORMOLU_STACK_BYTES;
    EXPECT(cuckooormolu_monitor_stack(NULL) == most);
    EXPECT(cuckooormolu_monitor_stack(&bad) == most);
    EXPECT(cuckooormolu_stack(m.terms, CUCKOOORMOLU_TERMS_WORDS - 1) == most);
    memset(&bad, 0xff, sizeof bad);
    EXPECT(cuckooormolu_monitor_stack(&bad) == most);
    for (uint16_t op = 0; op < 16; op++) {
        bad.terms[3] = 1;
        bad.terms[4] = op;
        EXPECT((cuckooormolu_monitor_stack(&bad) == most) == (op > 1));
        bad.terms[3] = 257;
        EXPECT(cuckooormolu_monitor_stack(&bad) == most);
    }
}

int main(void)
{
    by_the_terms();
    no_terms();
    measured();
    return failed;
}
