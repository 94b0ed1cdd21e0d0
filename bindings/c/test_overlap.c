/*
 * Memory that overlaps other memory which is written: refused with 6, and all of
 * it is as lent. It is compiled as C and as C++, and prints nothing where all of
 * it holds.
 */
#include "cuckooormolu.h"
#include "expect.h"

#include <string.h>

#define TERMS CUCKOOORMOLU_TERMS_WORDS
#define STATE CUCKOOORMOLU_STATE_WORDS
#define SCRATCH CUCKOOORMOLU_SCRATCH_WORDS

static const char text[] = "M\t2\nL\t0\t1\nF\t0\ttop\t0\t0\nP\t0\t0\n";

/* Room for two states one after another, and for anything else in them. */
static uint64_t room[2 * STATE];
static uint64_t before[2 * STATE];

static struct cuckooormolu m;

/* A sound monitor, its state in the room too; what was refused has not changed
 * the room. */
static void begin(void)
{
    EXPECT(cuckooormolu_done(
        cuckooormolu_monitor_read(&m, text, sizeof text - 1, NULL)));
    memset(room, 0, sizeof room);
    memcpy(before, room, sizeof room);
}

static void expect_unchanged(void)
{
    EXPECT(memcmp(before, room, sizeof room) == 0);
}

static void apart(void)
{
    const char *a = text;
    EXPECT(cuckooormolu_apart(a, 4, a + 4, 4));
    EXPECT(cuckooormolu_apart(a + 4, 4, a, 4));
    EXPECT(!cuckooormolu_apart(a, 5, a + 4, 4));
    EXPECT(!cuckooormolu_apart(a + 4, 4, a, 5));
    EXPECT(!cuckooormolu_apart(a, 9, a + 4, 1));
    EXPECT(!cuckooormolu_apart(a + 4, 1, a, 9));
    EXPECT(!cuckooormolu_apart(a, 1, a, 1));
    EXPECT(cuckooormolu_apart(a, 0, a, 9));
    EXPECT(cuckooormolu_apart(a + 4, 0, a, 9));
    EXPECT(cuckooormolu_apart(a, 9, a + 4, 0));
}

static void requests(void)
{
    begin();
    EXPECT_REFUSED(SHORT, cuckooormolu_request(m.terms, TERMS, room, STATE,
                                               room, SCRATCH, 0, 0, 1));
    EXPECT_REFUSED(SHORT,
                   cuckooormolu_request(m.terms, TERMS, room, STATE,
                                        room + STATE - 1, SCRATCH, 0, 0, 1));
    EXPECT_REFUSED(SHORT,
                   cuckooormolu_request((const uint16_t *)room, TERMS, room,
                                        STATE, m.scratch, SCRATCH, 0, 0, 1));
    EXPECT_REFUSED(SHORT,
                   cuckooormolu_request((const uint16_t *)room, TERMS, m.state,
                                        STATE, room, SCRATCH, 0, 0, 1));
    expect_unchanged();
    EXPECT(cuckooormolu_granted(cuckooormolu_request(
        m.terms, TERMS, room, STATE, room + STATE, SCRATCH, 0, 0, 1)));
}

/* Records that overlap nothing are left without an answer, others as lent. */
static void lists(void)
{
    struct cuckooormolu_record one = {0, 0, 1, {1}};
    struct cuckooormolu_record *inside = (struct cuckooormolu_record *)room;
    begin();
    EXPECT_REFUSED(SHORT, cuckooormolu_set_list(m.terms, TERMS, room, STATE,
                                                room, SCRATCH, &one, 1, NULL));
    EXPECT(!cuckooormolu_answer_granted(one.answer));
    EXPECT_REFUSED(SHORT,
                   cuckooormolu_set_list(m.terms, TERMS, room, STATE,
                                         m.scratch, SCRATCH, inside, 1, NULL));
    EXPECT_REFUSED(SHORT,
                   cuckooormolu_set_list(m.terms, TERMS, m.state, STATE, room,
                                         SCRATCH, inside, 1, NULL));
    EXPECT_REFUSED(SHORT, cuckooormolu_set_list((const uint16_t *)room, TERMS,
                                                m.state, STATE, m.scratch,
                                                SCRATCH, inside, 1, NULL));
    expect_unchanged();
    EXPECT(cuckooormolu_done(cuckooormolu_set_list(
        m.terms, TERMS, room, STATE, m.scratch, SCRATCH, inside, 0, NULL)));
}

static void texts(void)
{
    size_t number = 77;
    begin();
    memcpy(room, text, sizeof text);
    memcpy(before, room, sizeof room);
    uint8_t *bytes = (uint8_t *)room;
    EXPECT_REFUSED(SHORT, cuckooormolu_read(bytes, sizeof text - 1, m.terms,
                                            TERMS, room, STATE, &number));
    EXPECT(number == 0);
    EXPECT_REFUSED(SHORT,
                   cuckooormolu_read(bytes, sizeof text - 1, (uint16_t *)room,
                                     TERMS, m.state, STATE, NULL));
    EXPECT_REFUSED(SHORT, cuckooormolu_read((const uint8_t *)text,
                                            sizeof text - 1, (uint16_t *)room,
                                            TERMS, room, STATE, NULL));
    memset(room, 0, sizeof room);
    memcpy(before, room, sizeof room);
    number = 77;
    EXPECT_REFUSED(SHORT, cuckooormolu_write(m.terms, TERMS, room, STATE,
                                             bytes, sizeof room, &number));
    EXPECT_REFUSED(SHORT, cuckooormolu_store(m.terms, TERMS, room, STATE,
                                             bytes, sizeof room, NULL));
    EXPECT_REFUSED(SHORT,
                   cuckooormolu_store((const uint16_t *)room, TERMS, m.state,
                                      STATE, bytes, sizeof room, NULL));
    EXPECT(number == 0);
    expect_unchanged();
}

static void states(void)
{
    begin();
    EXPECT_REFUSED(
        SHORT, cuckooormolu_open((const uint16_t *)room, TERMS, room, STATE));
    EXPECT_REFUSED(SHORT, cuckooormolu_revise(m.terms, TERMS, room, STATE,
                                              m.terms, TERMS, room, STATE));
    EXPECT_REFUSED(SHORT,
                   cuckooormolu_revise(m.terms, TERMS, room, STATE, m.terms,
                                       TERMS, room + 1, STATE));
    EXPECT_REFUSED(SHORT,
                   cuckooormolu_revise((const uint16_t *)room, TERMS, m.state,
                                       STATE, m.terms, TERMS, room, STATE));
    EXPECT_REFUSED(SHORT, cuckooormolu_revise(m.terms, TERMS, m.state, STATE,
                                              (const uint16_t *)room, TERMS,
                                              room, STATE));
    expect_unchanged();
    EXPECT(cuckooormolu_done(cuckooormolu_revise(
        m.terms, TERMS, room, STATE, m.terms, TERMS, room + STATE, STATE)));
}

/* Numbers may lie in what is only read, and not in the second state. */
static void renumberings(void)
{
    const uint8_t swapped[] = {1, 0};
    begin();
    memcpy(room, swapped, sizeof swapped);
    memcpy(before, room, sizeof room);
    const uint8_t *inside = (const uint8_t *)room;
    EXPECT_REFUSED(SHORT, cuckooormolu_renumber(m.terms, TERMS, room, STATE,
                                                swapped, 2, room, STATE));
    EXPECT_REFUSED(SHORT, cuckooormolu_renumber(m.terms, TERMS, room, STATE,
                                                swapped, 2, room + 1, STATE));
    EXPECT_REFUSED(SHORT,
                   cuckooormolu_renumber((const uint16_t *)room, TERMS,
                                         m.state, STATE, swapped, 2, room,
                                         STATE));
    EXPECT_REFUSED(SHORT, cuckooormolu_renumber(m.terms, TERMS, m.state, STATE,
                                                inside, 2, room, STATE));
    EXPECT_REFUSED(SHORT,
                   cuckooormolu_renumber(m.terms, TERMS, m.state, STATE,
                                         inside + 24584 - 1, 2, room, STATE));
    expect_unchanged();
    EXPECT(cuckooormolu_done(cuckooormolu_renumber(
        m.terms, TERMS, m.state, STATE, inside, 2, room + STATE, STATE)));
}

/* What is only read may overlap, and the same terms may be lent twice. */
static void readers(void)
{
    begin();
    EXPECT(cuckooormolu_granted(cuckooormolu_look(m.terms, TERMS, room, STATE,
                                                  room, SCRATCH, 0, 0, 1)));
    EXPECT(cuckooormolu_done(cuckooormolu_check(m.terms, TERMS, room, STATE)));
    EXPECT_REFUSED(
        TERMS, cuckooormolu_check((const uint16_t *)room, TERMS, room, STATE));
    expect_unchanged();
}

/* A number that is wanted inside the memory is put there after the call, and
 * not during it. */
static void numbers(void)
{
    static union {
        uint64_t words[STATE];
        size_t number;
    } state;
    begin();
    EXPECT(cuckooormolu_done(cuckooormolu_store_size(
        m.terms, TERMS, state.words, STATE, &state.number)));
    EXPECT(state.number == sizeof text - 1 + strlen("S\t2\n"));
}

int main(void)
{
    apart();
    requests();
    lists();
    texts();
    states();
    renumberings();
    readers();
    numbers();
    return failed;
}
