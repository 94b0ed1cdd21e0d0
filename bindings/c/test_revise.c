/*
 * New terms while playing: what is carried over, what starts, what is refused
 * and what is left alone. It is compiled as C and as C++, and prints nothing
 * where all of it holds.
 */
#include "cuckooormolu.h"
#include "expect.h"

#include <string.h>

#define TERMS CUCKOOORMOLU_TERMS_WORDS
#define STATE CUCKOOORMOLU_STATE_WORDS

/* Event 0 makes an edge, event 1 takes it away. Entry 2, table 0, holds where
 * there has been an edge; event 1 is for those. */
static const char old_terms[] =
    "M 3\nL 1 2\nF 0 top 0 0\nF 1 out 0 0\nF 2 since 0 1\nP 0 0\nP 1 2\n"
    "E 0 add 0 fwd\nE 1 del 0 fwd\n";

/* Table 0 is a prev, table 1 the old entry 2 (event 0 is for those), and table
 * 2 holds where an edge has led to (event 1). */
static const char new_terms[] =
    "M 3\nL 1 2\nF 0 top 0 0\nF 1 prev 0 0\nF 2 out 0 0\nF 3 since 0 2\n"
    "F 4 in 0 0\nF 5 since 0 4\nP 0 3\nP 1 5\n";

/* Event 0 is for whoever has been granted event 1, event 1 for whoever has
 * been denied event 0. */
static const char event_terms[] =
    "M 3\nL 1 2\nF 0 top 0 0\nF 1 out 2 0\nF 2 since 0 1\nF 3 out 3 0\n"
    "F 4 since 0 3\nP 0 2\nP 1 4\n";

static struct cuckooormolu m, next;

/* Reads a text whose tabs are written as spaces. */
static void read_into(struct cuckooormolu *into, const char *text)
{
    char tabs[512];
    size_t length = strlen(text);
    for (size_t i = 0; i < length; i++)
        tabs[i] = text[i] == ' ' ? '\t' : text[i];
    EXPECT(cuckooormolu_done(
        cuckooormolu_monitor_read(into, tabs, length, NULL)));
}

static bool granted(size_t event, size_t from, size_t to)
{
    return cuckooormolu_granted(
        cuckooormolu_monitor_request(&m, event, from, to));
}

static bool would_grant(size_t event, size_t from, size_t to)
{
    return cuckooormolu_granted(
        cuckooormolu_monitor_look(&next, event, from, to));
}

/* Revises m to terms in next, and looks at what every revision leaves. */
static void revised(const char *text)
{
    const size_t relations = 1024 * sizeof m.state[0];
    read_into(&next, text);
    memset(next.scratch, 5, sizeof next.scratch);
    const struct cuckooormolu before = m, read = next;
    EXPECT(cuckooormolu_done(cuckooormolu_monitor_revise(&m, &next)));
    EXPECT(memcmp(&before, &m, sizeof m) == 0);
    EXPECT(memcmp(read.terms, next.terms, sizeof next.terms) == 0);
    EXPECT(memcmp(read.scratch, next.scratch, sizeof next.scratch) == 0);
    EXPECT(memcmp(m.state, next.state, relations) == 0);
    EXPECT(m.state[STATE - 1] == next.state[STATE - 1]);
    EXPECT(cuckooormolu_done(cuckooormolu_monitor_check(&next)));
}

/* An entry at another place takes its table along; a since starts with what its
 * second operand is, a prev with nothing. */
static void carried_and_started(void)
{
    read_into(&m, old_terms);
    EXPECT(granted(0, 0, 1) && granted(1, 0, 1) && granted(0, 2, 1));
    revised(new_terms);
    EXPECT(memcmp(m.state + 1024, next.state + 1024 + 64, 64 * 8) == 0);
    EXPECT(would_grant(0, 0, 1));
    EXPECT(would_grant(0, 2, 0));
    EXPECT(!would_grant(0, 1, 0));
    EXPECT(would_grant(1, 1, 0));
    EXPECT(!would_grant(1, 2, 0));
    for (size_t a = 0; a < 64; a++)
        EXPECT(next.state[1024 + a] == 0);
    EXPECT(cuckooormolu_granted(cuckooormolu_monitor_request(&next, 0, 2, 0)));
    EXPECT(next.state[1024] == 7 && next.state[1024 + 3] == 0);
}

/* The event edge of the present counts where an entry starts, also that of a
 * denied request. */
static void event_edge(void)
{
    read_into(&m, old_terms);
    EXPECT(granted(0, 0, 1) && granted(1, 0, 1));
    revised(event_terms);
    EXPECT(would_grant(0, 0, 0) && !would_grant(0, 1, 0));
    EXPECT(!would_grant(1, 0, 0));
    read_into(&m, "M 3\nL 1 2\nF 0 top 0 0\nF 1 not 0 0\nP 0 1\nP 1 0\nK 0\n");
    EXPECT(!granted(0, 2, 1));
    revised(event_terms);
    EXPECT(next.state[STATE - 1] == 1 + 16 * 4096 + 2 * 64 + 1);
    EXPECT(would_grant(1, 2, 0) && !would_grant(1, 0, 0));
    EXPECT(!would_grant(0, 2, 0));
}

static void same_terms(void)
{
    read_into(&m, old_terms);
    EXPECT(granted(0, 0, 1) && granted(1, 0, 2));
    revised(old_terms);
    EXPECT(memcmp(m.state, next.state, sizeof m.state) == 0);
}

/* Words beyond the named ones are no memory of the call. */
static void further_words(void)
{
    static uint16_t terms[2][TERMS + 1];
    static uint64_t state[2][STATE + 1];
    read_into(&m, old_terms);
    EXPECT(granted(0, 0, 1));
    for (size_t i = 0; i < 2; i++) {
        memcpy(terms[i], m.terms, sizeof m.terms);
        memcpy(state[i], m.state, sizeof m.state);
        terms[i][TERMS] = 77;
        state[i][STATE] = 88 + i;
    }
    memset(state[1], 3, sizeof m.state);
    EXPECT(cuckooormolu_done(
        cuckooormolu_revise(terms[0], TERMS + 1, state[0], STATE + 1, terms[1],
                            TERMS + 1, state[1], STATE + 1)));
    EXPECT(memcmp(state[1], m.state, sizeof m.state) == 0);
    EXPECT(state[0][STATE] == 88 && state[1][STATE] == 89);
    EXPECT(terms[0][TERMS] == 77 && terms[1][TERMS] == 77);
}

/* A revision from m to next over memory that is so many words shorter. */
static struct cuckooormolu_result refused(size_t old_terms_less,
                                          size_t old_state_less,
                                          size_t new_terms_less,
                                          size_t state_less)
{
    const struct cuckooormolu before = m, other = next;
    struct cuckooormolu_result result = cuckooormolu_revise(
        m.terms, TERMS - old_terms_less, m.state, STATE - old_state_less,
        next.terms, TERMS - new_terms_less, next.state, STATE - state_less);
    EXPECT(!cuckooormolu_done(result));
    EXPECT(memcmp(&before, &m, sizeof m) == 0);
    EXPECT(memcmp(&other, &next, sizeof next) == 0);
    return result;
}

/* Every check hides those after it, and what is refused changes nothing. */
static void refusals(void)
{
    static const char *const sizes[] = {
        "M 4\nL 1 2\nF 0 top 0 0\nP 0 0\nP 1 0\n",
        "M 3\nL 2 2\nF 0 top 0 0\nP 0 0\nP 1 0\n",
        "M 3\nL 1 1\nF 0 top 0 0\nP 0 0\n"};
    read_into(&m, old_terms);
    EXPECT(granted(0, 0, 1));
    for (size_t i = 0; i < sizeof sizes / sizeof *sizes; i++) {
        read_into(&next, sizes[i]);
        EXPECT_REFUSED(SIZE, refused(0, 0, 0, 0));
    }
    m.state[STATE - 1] = UINT64_MAX;
    EXPECT_REFUSED(STATE, refused(0, 0, 0, 0));
    next.terms[0] = 65;
    EXPECT_REFUSED(TERMS, refused(0, 0, 0, 0));
    EXPECT_REFUSED(SHORT, refused(1, 0, 0, 0));
    EXPECT_REFUSED(SHORT, refused(0, 1, 0, 0));
    EXPECT_REFUSED(SHORT, refused(0, 0, 1, 0));
    EXPECT_REFUSED(SHORT, refused(0, 0, 0, 1));
    EXPECT_REFUSED(SHORT, refused(0, 0, 0, STATE));
    read_into(&next, new_terms);
    EXPECT_REFUSED(STATE, refused(0, 0, 0, 0));
    m.terms[0] = 0;
    EXPECT_REFUSED(TERMS, refused(0, 0, 0, 0));
}

/* A null pointer is an empty memory, and one monitor is not revised to itself. */
static void nulls(void)
{
    read_into(&m, old_terms);
    read_into(&next, new_terms);
    const struct cuckooormolu before = m, other = next;
    EXPECT_REFUSED(SHORT, cuckooormolu_monitor_revise(&m, &m));
    EXPECT_REFUSED(SHORT, cuckooormolu_monitor_revise(&m, NULL));
    EXPECT_REFUSED(SHORT, cuckooormolu_monitor_revise(NULL, &next));
    EXPECT_REFUSED(SHORT, cuckooormolu_monitor_revise(NULL, NULL));
    EXPECT_REFUSED(SHORT,
                   cuckooormolu_revise(NULL, TERMS, m.state, STATE, next.terms,
                                       TERMS, next.state, STATE));
    EXPECT_REFUSED(SHORT,
                   cuckooormolu_revise(m.terms, TERMS, NULL, STATE, next.terms,
                                       TERMS, next.state, STATE));
    EXPECT_REFUSED(SHORT, cuckooormolu_revise(m.terms, TERMS, m.state, STATE,
                                              NULL, TERMS, next.state, STATE));
    EXPECT_REFUSED(SHORT, cuckooormolu_revise(m.terms, TERMS, m.state, STATE,
                                              next.terms, TERMS, NULL, STATE));
    EXPECT(memcmp(&before, &m, sizeof m) == 0);
    EXPECT(memcmp(&other, &next, sizeof next) == 0);
}

int main(void)
{
    carried_and_started();
    event_edge();
    same_terms();
    further_words();
    refusals();
    nulls();
    return failed;
}
