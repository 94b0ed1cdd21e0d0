/*
 * Members renumbered: that everybody keeps what they have, that answers stay,
 * what undoes it, what is refused and what is left alone. It is compiled as C
 * and as C++, and prints nothing where all of it holds.
 */
#include "cuckooormolu.h"
#include "expect.h"

#include <string.h>

#define TERMS CUCKOOORMOLU_TERMS_WORDS
#define STATE CUCKOOORMOLU_STATE_WORDS

enum { MEMBERS = 5, EVENTS = 5 };

/* Event 0 makes an edge, event 1 takes it away, and a denied event 1 counts.
 * Table 0 has one free variable: I have had an edge to it. Table 1 has none: I
 * have had an edge. Table 2 has two: one of them has had an edge to the other.
 * Table 3: I have just asked for event 1 and was denied. */
static const char text[] =
    "M 5\nL 1 5\nF 0 top 0 0\nF 1 var 0 0\nF 2 out 0 1\nF 3 since 0 2\n"
    "F 4 out 0 0\nF 5 since 0 4\nF 6 at 1 2\nF 7 since 0 6\nF 8 bind 1 7\n"
    "F 9 out 7 0\nF 10 prev 9 0\nP 0 0\nP 1 3\nP 2 5\nP 3 8\nP 4 10\nK 1\n"
    "E 0 add 0 fwd\nE 1 del 0 fwd\nG 0 3 4\n";

static const uint8_t forth[MEMBERS] = {2, 0, 4, 1, 3};
static const uint8_t back[MEMBERS] = {1, 3, 0, 4, 2};

static struct cuckooormolu m, next, again;

/* Reads a text whose tabs are written as spaces. */
static void read_into(struct cuckooormolu *into, const char *spaced)
{
    char tabs[512];
    size_t length = strlen(spaced);
    for (size_t i = 0; i < length; i++)
        tabs[i] = spaced[i] == ' ' ? '\t' : spaced[i];
    EXPECT(cuckooormolu_done(
        cuckooormolu_monitor_read(into, tabs, length, NULL)));
}

static bool granted(size_t event, size_t from, size_t to)
{
    return cuckooormolu_granted(
        cuckooormolu_monitor_request(&m, event, from, to));
}

static void played(void)
{
    read_into(&m, text);
    EXPECT(granted(0, 0, 1) && granted(0, 2, 2) && granted(1, 0, 1));
    EXPECT(!granted(1, 4, 1));
}

/* Renumbers m to next, and looks at what every renumbering leaves. */
static void renumbered(const uint8_t *numbers)
{
    memset(&next, 5, sizeof next);
    const struct cuckooormolu before = m, other = next;
    EXPECT(cuckooormolu_done(
        cuckooormolu_monitor_renumber(&m, numbers, MEMBERS, &next)));
    EXPECT(memcmp(&before, &m, sizeof m) == 0);
    EXPECT(memcmp(m.terms, next.terms, sizeof next.terms) == 0);
    EXPECT(memcmp(other.scratch, next.scratch, sizeof next.scratch) == 0);
    EXPECT(cuckooormolu_done(cuckooormolu_monitor_check(&next)));
}

/* Everybody is answered by the new numbers as by the old ones. */
static void same_answers(const uint8_t *numbers)
{
    for (size_t event = 0; event < EVENTS; event++)
        for (size_t from = 0; from < MEMBERS; from++)
            for (size_t to = 0; to < MEMBERS; to++) {
                bool before = cuckooormolu_granted(
                    cuckooormolu_monitor_look(&m, event, from, to));
                bool after = cuckooormolu_granted(cuckooormolu_monitor_look(
                    &next, event, numbers[from], numbers[to]));
                EXPECT(before == after);
            }
}

/* Relations, tables of no, one and two free variables, and the event edge, word
 * for word. */
static void words(void)
{
    const uint64_t everybody = (1 << MEMBERS) - 1;
    played();
    renumbered(forth);
    EXPECT(next.state[1] == 1 << 3 && next.state[4] == 1 << 4);
    EXPECT(next.state[0] == 0 && next.state[2] == 0 && next.state[3] == 0);
    const uint64_t *one = next.state + 1024, *none = one + 64, *two = none + 64;
    EXPECT(one[2] == 1 << 0 && one[4] == 1 << 4 && one[1] == 1 << 3);
    EXPECT(none[2] == everybody && none[4] == everybody);
    EXPECT(none[1] == everybody && none[0] == 0 && none[3] == 0);
    /* Variable 0 stands for whom the edge leads to, variable 1 for whose it is. */
    for (size_t a = 0; a < MEMBERS; a++) {
        EXPECT(two[4 * a] == ((uint64_t)1 << (16 * 3 + 1) | 1 << 2));
        EXPECT(two[4 * a + 1] == 1 << 4);
    }
    EXPECT(next.state[STATE - 1] == 1 + (16 + 1) * 4096 + 3 * 64 + 0);
}

/* The same requests, each by the numbers of its monitor, keep the two in step. */
static void later_requests(void)
{
    static const size_t asked[][3] = {{1, 4, 0}, {0, 1, 3}, {4, 4, 2},
                                      {1, 3, 4}, {3, 1, 3}, {0, 2, 4},
                                      {1, 1, 3}, {2, 3, 3}, {4, 1, 1}};
    played();
    renumbered(forth);
    same_answers(forth);
    for (size_t i = 0; i < sizeof asked / sizeof *asked; i++) {
        size_t event = asked[i][0], from = asked[i][1], to = asked[i][2];
        struct cuckooormolu_result first, second;
        first = cuckooormolu_monitor_request(&m, event, from, to);
        second = cuckooormolu_monitor_request(&next, event, forth[from],
                                              forth[to]);
        EXPECT(cuckooormolu_granted(first) == cuckooormolu_granted(second));
        EXPECT(cuckooormolu_denied(first) == cuckooormolu_denied(second));
        EXPECT(cuckooormolu_done(
            cuckooormolu_monitor_renumber(&m, forth, MEMBERS, &again)));
        EXPECT(memcmp(again.state, next.state, sizeof next.state) == 0);
        same_answers(forth);
    }
    EXPECT_REFUSED(NAME, cuckooormolu_monitor_request(&next, 0, MEMBERS, 0));
}

static void undone(void)
{
    played();
    renumbered(forth);
    EXPECT(memcmp(m.state, next.state, sizeof m.state) != 0);
    EXPECT(cuckooormolu_done(
        cuckooormolu_monitor_renumber(&next, back, MEMBERS, &again)));
    EXPECT(memcmp(m.state, again.state, sizeof m.state) == 0);
    EXPECT(memcmp(m.terms, again.terms, sizeof m.terms) == 0);
}

static void same_numbers(void)
{
    static const uint8_t same[MEMBERS] = {0, 1, 2, 3, 4};
    played();
    renumbered(same);
    EXPECT(memcmp(m.state, next.state, sizeof m.state) == 0);
}

/* A renumbered monitor is stored and read as any other. */
static void stored(void)
{
    static char output[4096];
    size_t size;
    played();
    renumbered(forth);
    EXPECT(cuckooormolu_done(
        cuckooormolu_monitor_store(&next, output, sizeof output, &size)));
    EXPECT(cuckooormolu_done(
        cuckooormolu_monitor_read(&again, output, size, NULL)));
    EXPECT(memcmp(next.state, again.state, sizeof next.state) == 0);
}

/* Words beyond the named ones are no memory of the call. */
static void further_words(void)
{
    static uint16_t terms[TERMS + 1];
    static uint64_t state[STATE + 1], second[STATE + 1];
    played();
    renumbered(forth);
    memcpy(terms, m.terms, sizeof m.terms);
    memcpy(state, m.state, sizeof m.state);
    terms[TERMS] = 77;
    state[STATE] = 88;
    memset(second, 3, sizeof second);
    second[STATE] = 99;
    EXPECT(cuckooormolu_done(
        cuckooormolu_renumber(terms, TERMS + 1, state, STATE + 1, forth,
                              MEMBERS, second, STATE + 1)));
    EXPECT(memcmp(second, next.state, sizeof next.state) == 0);
    EXPECT(terms[TERMS] == 77 && state[STATE] == 88 && second[STATE] == 99);
}

/* A renumbering from m to next over memory that is so many words shorter. */
static struct cuckooormolu_result refused(size_t terms_less,
                                          size_t state_less,
                                          const uint8_t *numbers,
                                          size_t length, size_t second_less)
{
    const struct cuckooormolu before = m, other = next;
    struct cuckooormolu_result result = cuckooormolu_renumber(
        m.terms, TERMS - terms_less, m.state, STATE - state_less, numbers,
        length, next.state, STATE - second_less);
    EXPECT(!cuckooormolu_done(result));
    EXPECT(memcmp(&before, &m, sizeof m) == 0);
    EXPECT(memcmp(&other, &next, sizeof next) == 0);
    return result;
}

/* Every check hides those after it, and what is refused changes nothing. */
static void refusals(void)
{
    static const uint8_t longer[MEMBERS + 1] = {2, 0, 4, 1, 3, 5};
    static const uint8_t twice[MEMBERS] = {2, 0, 4, 1, 1};
    static const uint8_t beyond[MEMBERS] = {2, 0, 5, 1, 3};
    static const uint8_t largest[MEMBERS] = {2, 0, 255, 1, 3};
    static const uint8_t turned[MEMBERS] = {2, 0, 68, 1, 3};
    played();
    memset(&next, 5, sizeof next);
    EXPECT_REFUSED(NUMBERS, refused(0, 0, longer, MEMBERS + 1, 0));
    EXPECT_REFUSED(NUMBERS, refused(0, 0, forth, MEMBERS - 1, 0));
    EXPECT_REFUSED(NUMBERS, refused(0, 0, forth, 0, 0));
    EXPECT_REFUSED(NUMBERS, refused(0, 0, NULL, MEMBERS, 0));
    EXPECT_REFUSED(NUMBERS, refused(0, 0, twice, MEMBERS, 0));
    EXPECT_REFUSED(NUMBERS, refused(0, 0, beyond, MEMBERS, 0));
    EXPECT_REFUSED(NUMBERS, refused(0, 0, largest, MEMBERS, 0));
    EXPECT_REFUSED(NUMBERS, refused(0, 0, turned, MEMBERS, 0));
    m.state[STATE - 1] = UINT64_MAX;
    EXPECT_REFUSED(STATE, refused(0, 0, twice, MEMBERS, 0));
    m.terms[0] = 65;
    EXPECT_REFUSED(TERMS, refused(0, 0, twice, MEMBERS, 0));
    EXPECT_REFUSED(SHORT, refused(1, 0, twice, MEMBERS, 0));
    EXPECT_REFUSED(SHORT, refused(0, 1, twice, MEMBERS, 0));
    EXPECT_REFUSED(SHORT, refused(0, 0, twice, MEMBERS, 1));
    EXPECT_REFUSED(SHORT, refused(0, 0, forth, MEMBERS, STATE));
}

/* A null pointer is an empty memory, and a monitor is not renumbered in place. */
static void nulls(void)
{
    played();
    memset(&next, 5, sizeof next);
    const struct cuckooormolu before = m, other = next;
    EXPECT_REFUSED(SHORT,
                   cuckooormolu_monitor_renumber(&m, forth, MEMBERS, &m));
    EXPECT_REFUSED(SHORT,
                   cuckooormolu_monitor_renumber(&m, forth, MEMBERS, NULL));
    EXPECT_REFUSED(SHORT,
                   cuckooormolu_monitor_renumber(NULL, forth, MEMBERS, &next));
    EXPECT_REFUSED(NUMBERS,
                   cuckooormolu_monitor_renumber(&m, NULL, unseen(MEMBERS), &next));
    EXPECT_REFUSED(SHORT,
                   cuckooormolu_renumber(NULL, TERMS, m.state, STATE, forth,
                                         MEMBERS, next.state, STATE));
    EXPECT_REFUSED(SHORT,
                   cuckooormolu_renumber(m.terms, TERMS, NULL, STATE, forth,
                                         MEMBERS, next.state, STATE));
    EXPECT_REFUSED(SHORT,
                   cuckooormolu_renumber(m.terms, TERMS, m.state, STATE, forth,
                                         MEMBERS, NULL, STATE));
    EXPECT(memcmp(&before, &m, sizeof m) == 0);
    EXPECT(memcmp(&other, &next, sizeof next) == 0);
}

int main(void)
{
    words();
    later_requests();
    undone();
    same_numbers();
    stored();
    further_words();
    refusals();
    nulls();
    return failed;
}
