/*
 * What the header promises of codes, lengths and null pointers. It is compiled
 * as C and as C++, and prints nothing where all of it holds.
 */
#include "cuckooormolu.h"
#include "expect.h"

#include <stdio.h>
#include <stdlib.h>
#include <string.h>

/* Event 0 makes an edge from initiator to target, event 1 asks for one. */
static const char text[] = "M\t3\nL\t1\t2\nF\t0\tvar\t0\t0\nF\t1\tout\t0\t0\n"
                           "F\t2\ttop\t0\t0\nP\t0\t2\nP\t1\t1\n"
                           "E\t0\tadd\t0\tfwd\n";
static const size_t length = sizeof text - 1;

static struct cuckooormolu m;

static void codes(void)
{
    struct cuckooormolu_result zeroed;
    memset(&zeroed, 0, sizeof zeroed);
    EXPECT(!cuckooormolu_granted(zeroed) && !cuckooormolu_denied(zeroed));
    EXPECT(!cuckooormolu_done(zeroed));
    for (size_t code = 0; code < 1000; code++) {
        struct cuckooormolu_result result = cuckooormolu_result_of(code);
        EXPECT(cuckooormolu_granted(result) == (code == 300));
        EXPECT(cuckooormolu_denied(result) == (code == 200));
        EXPECT(cuckooormolu_done(result) == (code == 100));
        EXPECT(cuckooormolu_refusal(result) == (code < 100 ? code : 0));
        EXPECT(cuckooormolu_costly(result) == (code == 800));
        bool known = (code >= 1 && code <= 15) ||
                     (code >= 100 && code <= 800 && code % 100 == 0);
        EXPECT((strcmp(cuckooormolu_words(result),
                       "not a code of the monitor") != 0) == known);
        struct cuckooormolu_ruling ruling = cuckooormolu_ruling_of(code);
        EXPECT(cuckooormolu_accepted(ruling) == (code == 500));
        EXPECT(cuckooormolu_rejected(ruling) == (code == 400));
        EXPECT(cuckooormolu_ruling_refusal(ruling) ==
               cuckooormolu_refusal(result));
        EXPECT(strcmp(cuckooormolu_ruling_words(ruling),
                      cuckooormolu_words(result)) == 0);
        struct cuckooormolu_fact fact = cuckooormolu_fact_of(code);
        EXPECT(cuckooormolu_holds(fact) == (code == 700));
        EXPECT(cuckooormolu_fails(fact) == (code == 600));
        EXPECT(cuckooormolu_fact_refusal(fact) == cuckooormolu_refusal(result));
        EXPECT(strcmp(cuckooormolu_fact_words(fact),
                      cuckooormolu_words(result)) == 0);
    }
    struct cuckooormolu_ruling no_ruling;
    struct cuckooormolu_fact no_fact;
    memset(&no_ruling, 0, sizeof no_ruling);
    memset(&no_fact, 0, sizeof no_fact);
    EXPECT(!cuckooormolu_accepted(no_ruling) && !cuckooormolu_holds(no_fact));
    EXPECT(strcmp(cuckooormolu_words(cuckooormolu_result_of(9)),
                  "no such event or member") == 0);
    EXPECT(strncmp(cuckooormolu_words(cuckooormolu_result_of(10)),
                   "reach whose variable is 0", 25) == 0);
}

static void version(void)
{
    char words[32];
    snprintf(words, sizeof words, "%d.%d.%d", CUCKOOORMOLU_VERSION_MAJOR,
             CUCKOOORMOLU_VERSION_MINOR, CUCKOOORMOLU_VERSION_PATCH);
    EXPECT(strcmp(words, CUCKOOORMOLU_VERSION) == 0);
    EXPECT(cuckooormolu_raw_version_0_15_0() ==
           1000000 * CUCKOOORMOLU_VERSION_MAJOR +
               1000 * CUCKOOORMOLU_VERSION_MINOR + CUCKOOORMOLU_VERSION_PATCH);
}

/* Zeroed memory decides nothing, and does not look harmless. */
static void zeroed(void)
{
    memset(&m, 0, sizeof m);
    EXPECT(cuckooormolu_monitor_effort(&m) == CUCKOOORMOLU_MOST_EFFORT);
    EXPECT_REFUSED(TERMS, cuckooormolu_monitor_check(&m));
    EXPECT_REFUSED(TERMS, cuckooormolu_monitor_request(&m, 0, 0, 0));
    EXPECT_REFUSED(TERMS, cuckooormolu_monitor_set_list(&m, NULL, 0, NULL));
}

static void calls(void)
{
    size_t line = 77;
    size_t count = 77;
    char output[sizeof text + 1];
    EXPECT(
        cuckooormolu_done(cuckooormolu_monitor_read(&m, text, length, &line)));
    EXPECT(line == 0);
    EXPECT(cuckooormolu_done(cuckooormolu_monitor_check(&m)));
    EXPECT(cuckooormolu_denied(cuckooormolu_monitor_look(&m, 1, 0, 2)));
    EXPECT(cuckooormolu_denied(cuckooormolu_monitor_request(&m, 1, 0, 2)));
    EXPECT(cuckooormolu_granted(cuckooormolu_monitor_request(&m, 0, 0, 2)));
    EXPECT(cuckooormolu_granted(cuckooormolu_monitor_look(&m, 1, 0, 2)));
    EXPECT_REFUSED(NAME, cuckooormolu_monitor_look(&m, 2, 0, 2));
    EXPECT_REFUSED(FRESH, cuckooormolu_monitor_size(&m, &count));
    EXPECT(count == 0);
    count = 77;
    EXPECT_REFUSED(
        FRESH, cuckooormolu_monitor_write(&m, output, sizeof output, &count));
    EXPECT(count == 0);
    EXPECT_REFUSED(FORM, cuckooormolu_monitor_read(&m, "M\t3\nL\t", 6, &line));
    EXPECT(line == 2);
    EXPECT_REFUSED(FORM, cuckooormolu_monitor_read(&m, text, length + 1, &line));
    EXPECT(line == 9);
    EXPECT(cuckooormolu_granted(cuckooormolu_monitor_look(&m, 1, 0, 2)));
}

/* Event 0 is always granted; event 1 is for whoever once did it to somebody
 * that is the target. */
static const char reach[] =
    "M\t3\nL\t0\t2\nF\t0\ttop\t0\t0\nF\t1\tvar\t1\t0\nF\t2\tout\t0\t1\n"
    "F\t3\tsince\t0\t2\nF\t4\tvar\t0\t0\nF\t5\treach\t1\t3\t4\nP\t0\t0\n"
    "P\t1\t5\n";

static void reaching(void)
{
    size_t line = 77;
    char faulty[sizeof reach];
    EXPECT(cuckooormolu_done(
        cuckooormolu_monitor_read(&m, reach, sizeof reach - 1, NULL)));
    EXPECT(cuckooormolu_granted(cuckooormolu_monitor_request(&m, 0, 0, 1)));
    EXPECT(cuckooormolu_granted(cuckooormolu_monitor_request(&m, 0, 2, 0)));
    EXPECT(cuckooormolu_granted(cuckooormolu_monitor_look(&m, 1, 0, 1)));
    EXPECT(cuckooormolu_denied(cuckooormolu_monitor_look(&m, 1, 1, 0)));
    memcpy(faulty, reach, sizeof reach);
    *strstr(faulty, "1\t3\t4") = '0';
    EXPECT_REFUSED(
        REACH, cuckooormolu_monitor_read(&m, faulty, sizeof reach - 1, &line));
    EXPECT(line == 8);
}

/* Event 0 is for whoever has two friends; none and 65 cannot be asked for. */
static const char many[] =
    "M\t3\nL\t1\t1\nF\t0\ttop\t0\t0\nF\t1\tmany\t0\t0\t02\nP\t0\t1\n"
    "G\t0\t0\t1\nG\t0\t0\t2\nG\t0\t1\t2\n";

static void counting(void)
{
    size_t line = 77;
    char faulty[sizeof many];
    EXPECT(cuckooormolu_done(
        cuckooormolu_monitor_read(&m, many, sizeof many - 1, NULL)));
    EXPECT(cuckooormolu_granted(cuckooormolu_monitor_look(&m, 0, 0, 1)));
    EXPECT(cuckooormolu_denied(cuckooormolu_monitor_look(&m, 0, 1, 0)));
    memcpy(faulty, many, sizeof many);
    memcpy(strstr(faulty, "02"), "65", 2);
    EXPECT_REFUSED(
        RANGE, cuckooormolu_monitor_read(&m, faulty, sizeof many - 1, &line));
    EXPECT(line == 4);
    memcpy(strstr(faulty, "65"), "00", 2);
    EXPECT_REFUSED(
        RANGE, cuckooormolu_monitor_read(&m, faulty, sizeof many - 1, &line));
    EXPECT(line == 4);
}

/* Event 0 is never granted, and kept; event 1 is for whoever once asked for
 * it. */
static const char tries[] =
    "M\t3\nL\t1\t2\nF\t0\ttop\t0\t0\nF\t1\tnot\t0\t0\nF\t2\tout\t3\t0\n"
    "F\t3\tsince\t0\t2\nP\t0\t1\nP\t1\t3\nK\t0\nE\t0\tadd\t0\tfwd\n";

/* A denied request of a kept event makes a moment, and nothing else that is
 * denied or refused does. */
static void kept_denials(void)
{
    const size_t event_word = CUCKOOORMOLU_STATE_WORDS - 1;
    size_t line = 77;
    char faulty[sizeof tries];
    EXPECT(cuckooormolu_done(
        cuckooormolu_monitor_read(&m, tries, sizeof tries - 1, NULL)));
    memset(m.scratch, 5, sizeof m.scratch);
    struct cuckooormolu before = m;
    EXPECT(cuckooormolu_denied(cuckooormolu_monitor_look(&m, 0, 0, 1)));
    EXPECT(cuckooormolu_denied(cuckooormolu_monitor_request(&m, 1, 0, 1)));
    EXPECT_REFUSED(NAME, cuckooormolu_monitor_request(&m, 0, 0, 3));
    EXPECT(memcmp(&before, &m, sizeof m) == 0);
    EXPECT(cuckooormolu_denied(cuckooormolu_monitor_request(&m, 0, 0, 1)));
    EXPECT(m.state[event_word] == 1 + 16 * 4096 + 1);
    EXPECT(m.state[0] == 0);
    EXPECT(m.scratch[0] == 0);
    EXPECT(m.scratch[CUCKOOORMOLU_SCRATCH_WORDS - 1] == 0);
    EXPECT(cuckooormolu_granted(cuckooormolu_monitor_look(&m, 1, 0, 2)));
    EXPECT(cuckooormolu_denied(cuckooormolu_monitor_look(&m, 1, 2, 0)));
    EXPECT_REFUSED(FRESH, cuckooormolu_monitor_size(&m, NULL));
    m.state[event_word] = 1 + 18 * 4096;
    EXPECT_REFUSED(STATE, cuckooormolu_monitor_check(&m));
    m.terms[CUCKOOORMOLU_TERMS_WORDS - 16] = 2;
    EXPECT_REFUSED(TERMS, cuckooormolu_monitor_check(&m));
    memcpy(faulty, tries, sizeof tries);
    memcpy(strstr(faulty, "K\t0"), "K\t2", 3);
    EXPECT_REFUSED(
        RANGE, cuckooormolu_monitor_read(&m, faulty, sizeof tries - 1, &line));
    EXPECT(line == 9);
}

/* What is stored is read into other memory, where it goes on. */
static void storing(void)
{
    static struct cuckooormolu other;
    size_t count = 77;
    size_t stored = 77;
    size_t line = 77;
    EXPECT(cuckooormolu_done(
        cuckooormolu_monitor_read(&m, reach, sizeof reach - 1, NULL)));
    EXPECT(cuckooormolu_granted(cuckooormolu_monitor_request(&m, 0, 0, 1)));
    EXPECT(cuckooormolu_done(cuckooormolu_monitor_store_size(&m, &count)));
    EXPECT(count == sizeof reach - 1 + strlen("S\t2\n") +
                        strlen("T\t0\t0\t1\n") + strlen("V\t0\t0\t1\n"));
    char *output = (char *)malloc(count);
    EXPECT_REFUSED(SHORT,
                   cuckooormolu_monitor_store(&m, output, count - 1, &stored));
    EXPECT(stored == 0);
    EXPECT(cuckooormolu_done(
        cuckooormolu_monitor_store(&m, output, count, &stored)));
    EXPECT(stored == count && memcmp(output, "S\t2\nM\t3\n", 8) == 0);
    EXPECT(cuckooormolu_done(
        cuckooormolu_monitor_read(&other, output, count, &line)));
    EXPECT(memcmp(m.terms, other.terms, sizeof m.terms) == 0);
    EXPECT(memcmp(m.state, other.state, sizeof m.state) == 0);
    EXPECT(cuckooormolu_granted(cuckooormolu_monitor_look(&other, 1, 0, 1)));
    output[2] = '1';
    EXPECT_REFUSED(RANGE,
                   cuckooormolu_monitor_read(&other, output, count, &line));
    EXPECT(line == 1);
    free(output);
}

/* One bit of two in a table without a free variable. */
static void partly_filled(void)
{
    static const char partly[] =
        "S\t2\nM\t2\nL\t0\t1\nF\t0\ttop\t0\t0\nF\t1\tprev\t0\t0\nP\t0\t1\n"
        "T\t0\t0\t0\nT\t0\t0\t1\nT\t0\t1\t1\n";
    size_t line = 77;
    EXPECT_REFUSED(TABLE, cuckooormolu_monitor_read(&m, partly,
                                                    sizeof partly - 1, &line));
    EXPECT(line == 9);
}

/* An output of the size that is told takes the whole text, a byte less none
 * of it. */
static void size(void)
{
    size_t count = 0;
    size_t written = 77;
    EXPECT(
        cuckooormolu_done(cuckooormolu_monitor_read(&m, text, length, NULL)));
    EXPECT(cuckooormolu_done(cuckooormolu_monitor_size(&m, &count)));
    EXPECT(count == length);
    char *output = (char *)malloc(count);
    EXPECT_REFUSED(
        SHORT, cuckooormolu_monitor_write(&m, output, count - 1, &written));
    EXPECT(written == 0);
    EXPECT(cuckooormolu_done(
        cuckooormolu_monitor_write(&m, output, count, &written)));
    EXPECT(written == count && memcmp(output, text, count) == 0);
    free(output);
}

/* A null pointer is an empty memory or a number that nobody wants. */
static void nulls(void)
{
    size_t line = 77;
    size_t count = 77;
    char output[sizeof text];
    EXPECT_REFUSED(SHORT,
                   cuckooormolu_monitor_read(NULL, text, length, &line));
    EXPECT(line == 0);
    EXPECT_REFUSED(SHORT, cuckooormolu_monitor_size(NULL, &count));
    EXPECT(count == 0);
    EXPECT_REFUSED(SHORT, cuckooormolu_monitor_write(NULL, output, 1, NULL));
    EXPECT_REFUSED(SHORT, cuckooormolu_monitor_store_size(NULL, &count));
    EXPECT_REFUSED(SHORT, cuckooormolu_monitor_store(NULL, output, 1, NULL));
    EXPECT_REFUSED(SHORT, cuckooormolu_monitor_check(NULL));
    EXPECT_REFUSED(SHORT, cuckooormolu_monitor_open(NULL));
    EXPECT_REFUSED(SHORT, cuckooormolu_monitor_look(NULL, 0, 0, 0));
    EXPECT_REFUSED(SHORT, cuckooormolu_monitor_request(NULL, 0, 0, 0));

    EXPECT_REFUSED(FORM, cuckooormolu_monitor_read(&m, NULL, 0, &line));
    EXPECT(line == 1);
    EXPECT_REFUSED(FORM, cuckooormolu_monitor_read(&m, NULL, unseen(9), NULL));
    EXPECT(
        cuckooormolu_done(cuckooormolu_monitor_read(&m, text, length, NULL)));
    EXPECT(cuckooormolu_done(cuckooormolu_monitor_size(&m, NULL)));
    EXPECT_REFUSED(SHORT, cuckooormolu_monitor_write(&m, NULL, 0, NULL));
    EXPECT_REFUSED(
        SHORT, cuckooormolu_monitor_write(&m, NULL, unseen(99), &count));
    EXPECT(cuckooormolu_done(cuckooormolu_monitor_store_size(&m, NULL)));
    EXPECT_REFUSED(
        SHORT, cuckooormolu_monitor_store(&m, NULL, unseen(999), &count));
    EXPECT(cuckooormolu_done(
        cuckooormolu_monitor_write(&m, output, sizeof output, NULL)));

    EXPECT_REFUSED(SHORT, cuckooormolu_request(
                              m.terms, CUCKOOORMOLU_TERMS_WORDS, m.state,
                              CUCKOOORMOLU_STATE_WORDS, NULL, 0, 0, 0, 0));
    EXPECT_REFUSED(SHORT,
                   cuckooormolu_look(m.terms, CUCKOOORMOLU_TERMS_WORDS, NULL,
                                     CUCKOOORMOLU_STATE_WORDS, m.scratch,
                                     CUCKOOORMOLU_SCRATCH_WORDS, 0, 0, 0));
    EXPECT_REFUSED(
        SHORT, cuckooormolu_open(NULL, 0, m.state, CUCKOOORMOLU_STATE_WORDS));
}

/* Lengths that are not the named ones. */
static void lengths(void)
{
    struct cuckooormolu before = m;
    EXPECT_REFUSED(SHORT,
                   cuckooormolu_check(m.terms, CUCKOOORMOLU_TERMS_WORDS - 1,
                                      m.state, CUCKOOORMOLU_STATE_WORDS));
    EXPECT_REFUSED(
        SHORT, cuckooormolu_request(m.terms, CUCKOOORMOLU_TERMS_WORDS, m.state,
                                    CUCKOOORMOLU_STATE_WORDS, m.scratch,
                                    CUCKOOORMOLU_SCRATCH_WORDS - 1, 0, 0, 0));
    EXPECT(memcmp(&before, &m, sizeof m) == 0);
}

/* What a request may cost: a row of the policy, and one of each member of its
 * operand. */
static void efforts(void)
{
    static struct cuckooormolu far;
    static const char steps[] = "M\t3\nL\t1\t1\nF\t0\tvar\t0\t0\n"
                                "F\t1\tout\t0\t0\nF\t2\tout\t0\t1\nP\t0\t2\n";
    EXPECT(cuckooormolu_done(
        cuckooormolu_monitor_read(&far, steps, sizeof steps - 1, NULL)));
    EXPECT(cuckooormolu_effort(far.terms, CUCKOOORMOLU_TERMS_WORDS) == 4);
    EXPECT(cuckooormolu_monitor_effort(&far) == 4);
    far.terms[3] = 257;
    EXPECT(cuckooormolu_effort(far.terms, CUCKOOORMOLU_TERMS_WORDS) ==
           CUCKOOORMOLU_MOST_EFFORT);
    EXPECT(cuckooormolu_effort(far.terms, 4) == CUCKOOORMOLU_MOST_EFFORT);
    EXPECT(cuckooormolu_effort(NULL, 5) == CUCKOOORMOLU_MOST_EFFORT);
    EXPECT(cuckooormolu_monitor_effort(NULL) == CUCKOOORMOLU_MOST_EFFORT);
}

int main(void)
{
    codes();
    version();
    zeroed();
    calls();
    reaching();
    counting();
    kept_denials();
    storing();
    partly_filled();
    size();
    nulls();
    lengths();
    efforts();
    return failed;
}
