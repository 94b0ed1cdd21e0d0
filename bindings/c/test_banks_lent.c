/*
 * Two banks over separately lent memory: every memory that is too short, missing
 * or overlaps another is refused with 6, and all of it is as lent; words beyond
 * the named ones are not touched. It is compiled as C and as C++, and prints
 * nothing where all of it holds.
 */
#include "cuckooormolu.h"
#include "expect.h"

#include <string.h>

#define TERMS CUCKOOORMOLU_TERMS_WORDS
#define RELATIONS CUCKOOORMOLU_RELATION_WORDS
#define OWN CUCKOOORMOLU_OWN_WORDS
#define SCRATCH CUCKOOORMOLU_SCRATCH_WORDS
#define MOST 8

/* Event 0 makes an edge. */
static const char text[] =
    "M\t3\nL\t1\t1\nF\t0\ttop\t0\t0\nF\t1\tout\t1\t0\nF\t2\tsince\t0\t1\n"
    "P\t0\t0\nE\t0\tadd\t0\tfwd\n";

/* Room for two of the longest memories one after another, for each memory. */
static union room {
    uint8_t bytes[2 * 8 * OWN];
    uint16_t halves[2 * 4 * OWN];
    uint64_t words[2 * OWN];
} rooms[MOST], before[MOST];

/* A memory as it is lent: where, how many, and the bytes of each. */
struct memory {
    void *at;
    size_t length;
    size_t bytes;
};

static struct memory lent[MOST];
static struct cuckooormolu_record one;

#define HALVES(i) (uint16_t *)lent[i].at, lent[i].length
#define WORDS(i) (uint64_t *)lent[i].at, lent[i].length
#define OF_A_CALL HALVES(0), WORDS(1), WORDS(2), WORDS(3), WORDS(4), WORDS(5)

static struct cuckooormolu_result look(void)
{
    return cuckooormolu_banks_look(OF_A_CALL, 0, 0, 1);
}

static struct cuckooormolu_result request(void)
{
    return cuckooormolu_banks_request(OF_A_CALL, 0, 0, 1);
}

static struct cuckooormolu_result set_list(void)
{
    size_t count = 77;
    one.answer = cuckooormolu_record_of(0, 0, 0).answer;
    struct cuckooormolu_result result =
        cuckooormolu_banks_set_list(OF_A_CALL, &one, 1, &count);
    EXPECT(count == (size_t)cuckooormolu_done(result));
    EXPECT(cuckooormolu_answer_granted(one.answer) ==
           cuckooormolu_done(result));
    return result;
}

static struct cuckooormolu_result open_both(void)
{
    return cuckooormolu_banks_open(HALVES(0), WORDS(1), WORDS(2), WORDS(3));
}

static struct cuckooormolu_result read_both(void)
{
    size_t line = 77;
    struct cuckooormolu_result result = cuckooormolu_banks_read(
        (const uint8_t *)lent[4].at, lent[4].length, HALVES(0), WORDS(1),
        WORDS(2), WORDS(3), &line);
    EXPECT(line == (lent[4].at == NULL));
    return result;
}

static struct cuckooormolu_result revise(void)
{
    return cuckooormolu_banks_revise(HALVES(0), WORDS(1), WORDS(2), WORDS(3),
                                     HALVES(4), WORDS(5), WORDS(6), WORDS(7));
}

/* A call, and the memories that it takes. */
static const struct kind {
    struct cuckooormolu_result (*call)(void);
    size_t memories;
    size_t lengths[MOST];
} kinds[] = {
    {look, 6, {TERMS, RELATIONS, OWN, OWN, SCRATCH, SCRATCH}},
    {request, 6, {TERMS, RELATIONS, OWN, OWN, SCRATCH, SCRATCH}},
    {set_list, 6, {TERMS, RELATIONS, OWN, OWN, SCRATCH, SCRATCH}},
    {open_both, 4, {TERMS, RELATIONS, OWN, OWN}},
    {read_both, 5, {TERMS, RELATIONS, OWN, OWN, sizeof text - 1}},
    {revise, 8, {TERMS, RELATIONS, OWN, OWN, TERMS, RELATIONS, OWN, OWN}},
};

static bool is_text(const struct kind *kind, size_t i)
{
    return kind->call == read_both && i == 4;
}

static bool is_terms(const struct kind *kind, size_t i)
{
    return i == 0 || (kind->call == revise && i == 4);
}

/* Good memory for a call, each in a room of its own, filled beyond it. */
static void lend(const struct kind *kind)
{
    static struct cuckooormolu_banks banks;
    EXPECT(cuckooormolu_done(
        cuckooormolu_both_read(&banks, text, sizeof text - 1, NULL)));
    EXPECT(cuckooormolu_granted(cuckooormolu_left_request(&banks, 0, 1, 2)));
    memset(rooms, 5, sizeof rooms);
    memcpy(rooms[0].halves, banks.terms, sizeof banks.terms);
    memcpy(rooms[1].words, banks.relations, sizeof banks.relations);
    memcpy(rooms[2].words, banks.left, sizeof banks.left);
    memcpy(rooms[3].words, banks.right, sizeof banks.right);
    if (kind->call == read_both)
        memcpy(rooms[4].bytes, text, sizeof text - 1);
    if (kind->call == revise)
        memcpy(rooms[4].halves, banks.terms, sizeof banks.terms);
    for (size_t i = 0; i < kind->memories; i++) {
        lent[i].at = &rooms[i];
        lent[i].length = kind->lengths[i];
        lent[i].bytes = is_text(kind, i) ? 1 : is_terms(kind, i) ? 2 : 8;
    }
    memcpy(before, rooms, sizeof rooms);
}

static bool succeeds(const struct kind *kind)
{
    struct cuckooormolu_result result = kind->call();
    return cuckooormolu_granted(result) || cuckooormolu_done(result);
}

static void expect_refused(const struct kind *kind)
{
    EXPECT_REFUSED(SHORT, kind->call());
    EXPECT(memcmp(before, rooms, sizeof rooms) == 0);
}

/* Each memory a word too short, empty, or none at all. */
static void lengths(const struct kind *kind)
{
    for (size_t i = 0; i < kind->memories; i++) {
        if (is_text(kind, i))
            continue;
        lend(kind);
        lent[i].length--;
        expect_refused(kind);
        lent[i].length = 0;
        expect_refused(kind);
        lent[i].length = kind->lengths[i];
        lent[i].at = NULL;
        expect_refused(kind);
    }
}

/* Each two memories the same, or the last word of one in the other. The same
 * terms may be lent twice. */
static void overlaps(const struct kind *kind)
{
    for (size_t i = 0; i < kind->memories; i++)
        for (size_t j = 0; j < kind->memories; j++) {
            if (i == j || (is_terms(kind, i) && is_terms(kind, j)))
                continue;
            lend(kind);
            lent[j].at = lent[i].at;
            expect_refused(kind);
            size_t last = (lent[i].length * lent[i].bytes - 1) / 8 * 8;
            lent[j].at = rooms[i].bytes + last;
            expect_refused(kind);
        }
}

static void same_terms(void)
{
    const struct kind *kind = &kinds[5];
    lend(kind);
    lent[4].at = lent[0].at;
    EXPECT(succeeds(kind));
    EXPECT(memcmp(rooms[2].words, rooms[6].words, OWN * 8) == 0);
    EXPECT(memcmp(rooms[3].words, rooms[7].words, OWN * 8) == 0);
}

/* Whatever lies beyond the named words stays, whether or not it is lent. */
static void further_words(const struct kind *kind)
{
    for (size_t more = 0; more < 2; more++) {
        lend(kind);
        for (size_t i = 0; i < kind->memories; i++)
            lent[i].length += is_text(kind, i) ? 0 : more;
        EXPECT(succeeds(kind));
        for (size_t i = 0; i < MOST; i++) {
            size_t named = i < kind->memories
                               ? kind->lengths[i] * lent[i].bytes
                               : 0;
            EXPECT(memcmp(rooms[i].bytes + named, before[i].bytes + named,
                          sizeof rooms[i] - named) == 0);
        }
    }
}

/* Records that overlap nothing are left without an answer, others as lent. */
static void records(void)
{
    const struct kind *kind = &kinds[2];
    lend(kind);
    one = cuckooormolu_record_of(0, 0, 1);
    EXPECT(cuckooormolu_done(set_list()));
    EXPECT(cuckooormolu_answer_granted(one.answer));
    lend(kind);
    for (size_t i = 0; i < kind->memories; i++)
        EXPECT_REFUSED(SHORT,
                       cuckooormolu_banks_set_list(
                           OF_A_CALL, (struct cuckooormolu_record *)lent[i].at,
                           1, NULL));
    lent[3].at = lent[2].at;
    EXPECT_REFUSED(SHORT,
                   cuckooormolu_banks_set_list(OF_A_CALL, &one, 1, NULL));
    EXPECT(!cuckooormolu_answer_granted(one.answer));
    EXPECT(memcmp(before, rooms, sizeof rooms) == 0);
}

/* The bank that is called is the one that comes first. */
static void order(void)
{
    const struct kind *kind = &kinds[1];
    lend(kind);
    EXPECT(succeeds(kind));
    EXPECT(rooms[2].words[OWN - 1] == 2 && rooms[3].words[OWN - 1] == 0);
    struct memory first = lent[2];
    lent[2] = lent[3];
    lent[3] = first;
    EXPECT(succeeds(kind));
    EXPECT(rooms[2].words[OWN - 1] == 0 && rooms[3].words[OWN - 1] == 2);
}

static void no_text(void)
{
    const struct kind *kind = &kinds[4];
    lend(kind);
    lent[4].at = NULL;
    EXPECT_REFUSED(FORM, kind->call());
    EXPECT(memcmp(before, rooms, sizeof rooms) == 0);
}

int main(void)
{
    for (size_t i = 0; i < sizeof kinds / sizeof *kinds; i++) {
        lengths(&kinds[i]);
        overlaps(&kinds[i]);
        further_words(&kinds[i]);
    }
    same_terms();
    records();
    order();
    no_text();
    return failed;
}
