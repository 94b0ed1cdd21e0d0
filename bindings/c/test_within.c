/*
 * Untrusted terms: what a request by them may take is asked before their state is
 * opened, and no past of theirs is believed. It is compiled as C and as C++, and prints nothing where all of it
 * holds.
 */
#include "cuckooormolu.h"
#include "expect.h"

#include <stdio.h>
#include <string.h>

/* Event 0 is for everybody; event 1 is for who has an edge to the target, or had
 * one at the start. */
static const char text[] =
    "M\t3\nL\t1\t2\nF\t0\tvar\t0\t0\nF\t1\tout\t0\t0\nF\t2\ttop\t0\t0\n"
    "F\t3\tsince\t2\t1\nP\t0\t2\nP\t1\t3\nE\t0\tadd\t0\tfwd\nG\t0\t0\t2\n";
static const size_t length = sizeof text - 1;

static struct cuckooormolu m;
static struct cuckooormolu plain;
static char buffer[16384];

/* A text of 64 members whose only past-time entry takes ages to open: three
 * variables that are bound anew in turn, and every level reads all of them. */
static char costly[8192];
static size_t costly_length;

static void write_costly(void)
{
    char *at = costly;
    at += sprintf(at, "M\t64\nL\t1\t1\nF\t0\tvar\t1\t0\nF\t1\tvar\t2\t0\n"
                      "F\t2\tvar\t3\t0\nF\t3\tor\t0\t1\nF\t4\tor\t3\t2\n");
    int entry = 4;
    for (int level = 0; level < 12; level++) {
        at += sprintf(at, "F\t%d\tout\t0\t%d\n", entry + 1, entry);
        at += sprintf(at, "F\t%d\tor\t%d\t4\n", entry + 2, entry + 1);
        at += sprintf(at, "F\t%d\tbind\t%d\t%d\n", entry + 3, 1 + level % 3,
                      entry + 2);
        at += sprintf(at, "F\t%d\tor\t%d\t4\n", entry + 4, entry + 3);
        entry += 4;
    }
    for (int variable = 1; variable <= 3; variable++, entry++)
        at += sprintf(at, "F\t%d\tbind\t%d\t%d\n", entry + 1, variable, entry);
    at += sprintf(at, "F\t%d\tsince\t%d\t%d\nP\t0\t%d\n", entry + 1, entry,
                  entry, entry + 1);
    for (int from = 0; from < 64; from++)
        for (int to = 0; to < 64; to += 8)
            at += sprintf(at, "G\t0\t%d\t%d\n", from, to);
    costly_length = (size_t)(at - costly);
}

static bool same_words(const struct cuckooormolu *a,
                       const struct cuckooormolu *b)
{
    return memcmp(a->terms, b->terms, sizeof a->terms) == 0 &&
           memcmp(a->state, b->state, sizeof a->state) == 0;
}

/* A monitor without terms, which refuses every request. */
static bool is_blank(const struct cuckooormolu *a)
{
    for (size_t i = 0; i < CUCKOOORMOLU_TERMS_WORDS; i++)
        if (a->terms[i] != 0)
            return false;
    return cuckooormolu_refusal(cuckooormolu_monitor_look(a, 0, 0, 0)) ==
           CUCKOOORMOLU_REFUSED_TERMS;
}

/* By hand: a line S 2 before the text, read, asked and opened, gives the words
 * that reading the text gives. */
static void by_hand(void)
{
    memcpy(buffer, "S\t2\n", 4);
    memcpy(buffer + 4, text, length);
    EXPECT(cuckooormolu_done(
        cuckooormolu_monitor_read(&plain, text, length, NULL)));
    EXPECT(cuckooormolu_done(
        cuckooormolu_monitor_read(&m, buffer, 4 + length, NULL)));
    EXPECT(memcmp(m.terms, plain.terms, sizeof m.terms) == 0);
    EXPECT(cuckooormolu_monitor_effort(&m) ==
           cuckooormolu_monitor_effort(&plain));
    EXPECT(!same_words(&m, &plain)); /* the since holds at the start */
    EXPECT(cuckooormolu_done(cuckooormolu_monitor_open(&m)));
    EXPECT(same_words(&m, &plain));
}

/* Up to the bound it is a reading, above it nothing is opened. */
static void at_the_bound(void)
{
    size_t line = 77;
    size_t effort = cuckooormolu_monitor_effort(&plain);
    EXPECT(effort > 0 && effort < 1000);
    memset(&m, 5, sizeof m);
    EXPECT(cuckooormolu_done(cuckooormolu_monitor_read_within(
        &m, text, length, buffer, 4 + length, effort, &line)));
    EXPECT(line == 0 && same_words(&m, &plain));
    line = 77;
    struct cuckooormolu_result result = cuckooormolu_monitor_read_within(
        &m, text, length, buffer, sizeof buffer, effort - 1, &line);
    EXPECT(cuckooormolu_costly(result) && !cuckooormolu_done(result));
    EXPECT(cuckooormolu_refusal(result) == 0 && line == 0 && is_blank(&m));
}

/* This ends, since nothing is opened; reading the text would take ages. */
static void long_ones(void)
{
    write_costly();
    EXPECT(cuckooormolu_costly(cuckooormolu_monitor_read_within(
        &m, costly, costly_length, buffer, sizeof buffer, 1000000, NULL)));
    EXPECT(is_blank(&m));
    memcpy(buffer, "S\t2\n", 4);
    memcpy(buffer + 4, costly, costly_length);
    EXPECT(cuckooormolu_done(cuckooormolu_monitor_read(
        &m, buffer, 4 + costly_length, NULL)));
    EXPECT(cuckooormolu_monitor_effort(&m) == CUCKOOORMOLU_MOST_EFFORT);
    EXPECT(cuckooormolu_costly(cuckooormolu_monitor_read_within(
        &m, buffer, 4 + costly_length, NULL, 0, 1000000, NULL)));
    EXPECT(is_blank(&m));
}

/* A stored text goes on from its state, and needs no buffer. */
static void stored_ones(void)
{
    static char stored[1024];
    size_t size = 0;
    EXPECT(cuckooormolu_granted(cuckooormolu_monitor_request(&plain, 0, 1, 2)));
    EXPECT(cuckooormolu_done(
        cuckooormolu_monitor_store(&plain, stored, sizeof stored, &size)));
    EXPECT(cuckooormolu_done(cuckooormolu_monitor_read_within(
        &m, stored, size, NULL, 0, 1000000, NULL)));
    EXPECT(same_words(&m, &plain));
    EXPECT(cuckooormolu_costly(cuckooormolu_monitor_read_within(
        &m, stored, size, NULL, 0, 0, NULL)));
    EXPECT(is_blank(&m));
}

/* How many rows costly terms may take can be asked of what is in the buffer. */
static void how_costly(void)
{
    size_t effort = cuckooormolu_monitor_effort(&plain);
    EXPECT(cuckooormolu_costly(cuckooormolu_monitor_read_within(
        &m, text, length, buffer, sizeof buffer, effort - 1, NULL)));
    EXPECT(cuckooormolu_done(
        cuckooormolu_monitor_read(&m, buffer, 4 + length, NULL)));
    EXPECT(cuckooormolu_monitor_effort(&m) == effort);
}

/* A terms file is read as by the other; a stored text is refused, with the terms
 * that were there. */
static void terms_only(void)
{
    static char stored[1024];
    size_t size = 0;
    size_t line = 77;
    EXPECT(cuckooormolu_done(
        cuckooormolu_monitor_store(&plain, stored, sizeof stored, &size)));
    EXPECT(cuckooormolu_done(
        cuckooormolu_monitor_read(&plain, text, length, NULL)));
    EXPECT(cuckooormolu_done(cuckooormolu_monitor_read_terms_within(
        &m, text, length, buffer, sizeof buffer, 1000, &line)));
    EXPECT(line == 0 && same_words(&m, &plain));
    EXPECT_REFUSED(FORM, cuckooormolu_monitor_read_terms_within(
                             &m, stored, size, buffer, sizeof buffer, 1000,
                             &line));
    EXPECT(line == 1 && is_blank(&m));
    EXPECT(cuckooormolu_costly(cuckooormolu_monitor_read_terms_within(
        &m, text, length, buffer, sizeof buffer, 0, &line)));
    EXPECT(line == 0 && is_blank(&m));
    EXPECT_REFUSED(FORM, cuckooormolu_monitor_read_terms_within(
                             &m, NULL, unseen(9), buffer, sizeof buffer, 9,
                             &line));
    EXPECT(line == 1);
    EXPECT_REFUSED(FORM,
                   cuckooormolu_monitor_read_terms_within(
                       &m, "", 0, buffer, sizeof buffer, 9, &line));
    EXPECT(line == 1);
    EXPECT_REFUSED(SHORT,
                   cuckooormolu_monitor_read_terms_within(
                       NULL, stored, size, buffer, sizeof buffer, 9, &line));
    EXPECT(line == 0);
}

/* Whatever is refused is refused as by a reading, at the same line. */
static void refused_ones(void)
{
    /* Lines that only a stored text has. */
    static const char table[] = "M\t2\nL\t0\t1\nF\t0\ttop\t0\t0\n"
                                "F\t1\tprev\t0\t0\nP\t0\t1\nT\t0\t0\t0\n";
    static const char event[] = "M\t2\nL\t0\t1\nF\t0\ttop\t0\t0\n"
                                "P\t0\t0\nV\t0\t0\t1\n";
    static const char *const faulty[] = {
        "", "M\t3", "M\t3\n", "M\t65\n", "X\n", "S", "S\t2\n", "S\t3\nM\t3\n",
        "M\t3\nL\t0\t1\nF\t0\tnot\t0\t0\n", table, event};
    for (size_t i = 0; i < sizeof faulty / sizeof *faulty; i++) {
        size_t line = 77;
        size_t wanted = 78;
        size_t number = cuckooormolu_refusal(cuckooormolu_monitor_read(
            &plain, faulty[i], strlen(faulty[i]), &wanted));
        EXPECT(number != 0);
        EXPECT(cuckooormolu_refusal(cuckooormolu_monitor_read_within(
                   &m, faulty[i], strlen(faulty[i]), buffer, sizeof buffer,
                   1000000, &line)) == number);
        EXPECT(line == wanted && is_blank(&m));
    }
}

/* Short and overlapping memory, and none. */
static void short_ones(void)
{
    size_t line = 77;
    EXPECT_REFUSED(SHORT, cuckooormolu_monitor_read_within(
                              &m, text, length, buffer, 3 + length, 9, &line));
    EXPECT(line == 0);
    EXPECT_REFUSED(SHORT, cuckooormolu_monitor_read_within(
                              &m, text, length, buffer, 3, 9, NULL));
    EXPECT_REFUSED(SHORT, cuckooormolu_monitor_read_within(
                              &m, text, unseen(SIZE_MAX), buffer, 3, 9, NULL));
    EXPECT_REFUSED(SHORT, cuckooormolu_monitor_read_within(
                              &m, text, length, NULL, unseen(9999), 9, NULL));
    EXPECT_REFUSED(SHORT,
                   cuckooormolu_monitor_read_within(
                       NULL, text, length, buffer, sizeof buffer, 9, NULL));
    EXPECT_REFUSED(FORM,
                   cuckooormolu_monitor_read_within(
                       &m, NULL, unseen(9), buffer, sizeof buffer, 9, &line));
    EXPECT(line == 1);
    memcpy(buffer + 2, text, length);
    EXPECT_REFUSED(SHORT,
                   cuckooormolu_monitor_read_within(
                       &m, buffer + 2, length, buffer, sizeof buffer, 9, NULL));
    EXPECT_REFUSED(SHORT,
                   cuckooormolu_monitor_read_within(
                       &m, text, length, m.state, sizeof m.state, 9, NULL));
    EXPECT(is_blank(&m));
    memcpy(m.state, text, length);
    EXPECT_REFUSED(SHORT, cuckooormolu_monitor_read_within(
                              &m, m.state, length, buffer, sizeof buffer, 9,
                              NULL));
    EXPECT(is_blank(&m));
}

int main(void)
{
    by_hand();
    at_the_bound();
    how_costly();
    long_ones();
    stored_ones();
    terms_only();
    refused_ones();
    short_ones();
    return failed;
}
