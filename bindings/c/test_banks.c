/*
 * Two banks over one circle: what they share, what each has of its own, and what
 * is refused. It is compiled as C and as C++, and prints nothing where all of it
 * holds.
 */
#include "cuckooormolu.h"
#include "expect.h"

#include <string.h>

#define RELATIONS CUCKOOORMOLU_RELATION_WORDS
#define EVENT_WORD (CUCKOOORMOLU_OWN_WORDS - 1)

/* Event 0 makes an edge, event 1 takes one away and is for whoever has one.
 * Event 2 is for whoever has done event 0, event 3 for nobody, and kept, and
 * event 4 for whoever was denied it the moment before. */
static const char text[] =
    "M 3\nL 1 5\nF 0 top 0 0\nF 1 out 0 0\nF 2 out 1 0\nF 3 since 0 2\n"
    "F 4 not 0 0\nF 5 out 9 0\nF 6 prev 5 0\nP 0 0\nP 1 1\nP 2 3\nP 3 4\n"
    "P 4 6\nK 3\nE 0 add 0 fwd\nE 1 del 0 fwd\n";

/* Of the same size. Event 2 is for whoever has had an edge since now, event 3
 * for whoever has done event 0, at another table than before. */
static const char new_text[] =
    "M 3\nL 1 5\nF 0 top 0 0\nF 1 out 0 0\nF 2 since 0 1\nF 3 out 1 0\n"
    "F 4 since 0 3\nP 0 0\nP 1 0\nP 2 2\nP 3 4\nP 4 0\n";

static struct cuckooormolu_banks b, next;
static struct cuckooormolu m;

/* A text with its spaces as tabs. */
static const char *tabs(const char *spaced)
{
    static char copy[512];
    for (size_t i = 0; i <= strlen(spaced); i++)
        copy[i] = spaced[i] == ' ' ? '\t' : spaced[i];
    return copy;
}

static void read_into(struct cuckooormolu_banks *into, const char *spaced)
{
    EXPECT(cuckooormolu_done(
        cuckooormolu_both_read(into, tabs(spaced), strlen(spaced), NULL)));
}

/* Fresh banks, and a monitor of the same terms. */
static void begin(void)
{
    read_into(&b, text);
    EXPECT(cuckooormolu_done(
        cuckooormolu_monitor_read(&m, tabs(text), strlen(text), NULL)));
}

static bool left_grants(size_t event, size_t from, size_t to)
{
    return cuckooormolu_granted(cuckooormolu_left_look(&b, event, from, to));
}

static bool right_grants(size_t event, size_t from, size_t to)
{
    return cuckooormolu_granted(cuckooormolu_right_look(&b, event, from, to));
}

/* Whether relations and a bank's own words are the words of a state. */
static bool has_state(const struct cuckooormolu_banks *banks,
                      const uint64_t *own, const uint64_t *state)
{
    return memcmp(banks->relations, state, sizeof banks->relations) == 0 &&
           memcmp(own, state + RELATIONS, sizeof banks->left) == 0;
}

static bool unchanged(const struct cuckooormolu_banks *before)
{
    return memcmp(before, &b, sizeof b) == 0;
}

/* Both banks start at the moment 0 of a monitor. */
static void reading(void)
{
    size_t line = 77;
    memset(&b, 5, sizeof b);
    begin();
    EXPECT(memcmp(b.terms, m.terms, sizeof m.terms) == 0);
    EXPECT(has_state(&b, b.left, m.state) && has_state(&b, b.right, m.state));
    EXPECT(b.left_scratch[0] != 0 && b.right_scratch[0] != 0);
    const struct cuckooormolu_banks before = b;
    EXPECT_REFUSED(FORM, cuckooormolu_both_read(&b, "M\t3\nL\t", 6, &line));
    EXPECT(line == 2);
    EXPECT_REFUSED(FORM, cuckooormolu_both_read(&b, "S\t2\nM\t3\n", 8, &line));
    EXPECT(line == 1);
    EXPECT_REFUSED(FORM, cuckooormolu_both_read(&b, NULL, unseen(9), &line));
    EXPECT(line == 1 && unchanged(&before));
    EXPECT_REFUSED(SHORT, cuckooormolu_both_read(NULL, text, 1, &line));
    EXPECT(line == 0);
}

/* Edges are of both banks, events of the bank in which they were granted. */
static void sharing(void)
{
    begin();
    EXPECT(!right_grants(1, 0, 1) && !left_grants(2, 0, 0));
    EXPECT(cuckooormolu_granted(cuckooormolu_left_request(&b, 0, 0, 1)));
    EXPECT(b.relations[0] == 2);
    EXPECT(b.left[EVENT_WORD] == 2 && b.right[EVENT_WORD] == 0);
    EXPECT(left_grants(1, 0, 1) && right_grants(1, 0, 1));
    EXPECT(left_grants(2, 0, 0) && !right_grants(2, 0, 0));
    EXPECT(cuckooormolu_granted(cuckooormolu_right_request(&b, 1, 0, 1)));
    EXPECT(b.relations[0] == 0);
    EXPECT(b.left[EVENT_WORD] == 0 && b.right[EVENT_WORD] == 1 + 4096 + 1);
    EXPECT(!left_grants(1, 0, 1) && left_grants(2, 0, 0));
}

/* A moment in one bank is one in the other: what was the present there is the
 * moment before. A denial that is kept makes such a moment, too. */
static void moments_of_the_other(void)
{
    begin();
    EXPECT(cuckooormolu_denied(cuckooormolu_left_request(&b, 3, 2, 1)));
    EXPECT(b.left[EVENT_WORD] == 1 + (16 + 3) * 4096 + 2 * 64 + 1);
    EXPECT(b.right[EVENT_WORD] == 0 && b.relations[2] == 0);
    EXPECT(!left_grants(4, 2, 0));
    EXPECT(cuckooormolu_granted(cuckooormolu_right_request(&b, 0, 0, 2)));
    EXPECT(left_grants(4, 2, 0) && !left_grants(4, 0, 0));
    EXPECT(!right_grants(4, 2, 0));
    EXPECT(cuckooormolu_denied(cuckooormolu_right_request(&b, 3, 1, 1)));
    EXPECT(b.left[EVENT_WORD] == 0 && !left_grants(4, 2, 0));
}

static bool same(struct cuckooormolu_result one, struct cuckooormolu_result two)
{
    return strcmp(cuckooormolu_words(one), cuckooormolu_words(two)) == 0;
}

/* Requests: in which bank, event, initiator and target. */
static const size_t calls[][4] = {{0, 0, 0, 1}, {1, 3, 2, 0}, {0, 2, 0, 1},
                                  {1, 0, 2, 1}, {0, 4, 2, 0}, {1, 4, 2, 0},
                                  {0, 1, 0, 1}, {0, 3, 1, 1}, {1, 9, 0, 0}};

/* The other way round, each bank has what the other had. */
static void left_and_right(void)
{
    static struct cuckooormolu_banks swapped;
    begin();
    swapped = b;
    for (size_t i = 0; i < sizeof calls / sizeof *calls; i++) {
        const size_t *c = calls[i];
        struct cuckooormolu_banks *left = c[0] == 0 ? &b : &swapped;
        struct cuckooormolu_banks *right = c[0] == 0 ? &swapped : &b;
        EXPECT(same(cuckooormolu_left_request(left, c[1], c[2], c[3]),
                    cuckooormolu_right_request(right, c[1], c[2], c[3])));
    }
    EXPECT(memcmp(b.left, b.right, sizeof b.left) != 0);
    EXPECT(memcmp(b.left, swapped.right, sizeof b.left) == 0);
    EXPECT(memcmp(b.right, swapped.left, sizeof b.left) == 0);
    EXPECT(memcmp(b.relations, swapped.relations, sizeof b.relations) == 0);
}

/* Where one bank alone is called, it is a monitor. */
static void one_bank_alone(void)
{
    begin();
    for (size_t i = 0; i < sizeof calls / sizeof *calls; i++) {
        const size_t *c = calls[i];
        EXPECT(same(cuckooormolu_monitor_request(&m, c[1], c[2], c[3]),
                    cuckooormolu_right_request(&b, c[1], c[2], c[3])));
        EXPECT(has_state(&b, b.right, m.state));
    }
    EXPECT(b.left[EVENT_WORD] == 0);
}

/* A moment leaves both scratches 0; all else leaves all. */
static void scratches(void)
{
    static const uint64_t zeros[CUCKOOORMOLU_SCRATCH_WORDS] = {0};
    begin();
    memset(b.left_scratch, 5, sizeof b.left_scratch);
    memset(b.right_scratch, 6, sizeof b.right_scratch);
    const struct cuckooormolu_banks before = b;
    EXPECT(cuckooormolu_granted(cuckooormolu_left_look(&b, 0, 0, 1)));
    EXPECT(cuckooormolu_denied(cuckooormolu_left_look(&b, 3, 0, 1)));
    EXPECT(cuckooormolu_denied(cuckooormolu_left_request(&b, 1, 0, 1)));
    EXPECT_REFUSED(NAME, cuckooormolu_right_request(&b, 5, 0, 1));
    EXPECT_REFUSED(NAME, cuckooormolu_right_request(&b, 0, 3, 1));
    EXPECT_REFUSED(NAME, cuckooormolu_left_look(&b, 0, 0, 3));
    EXPECT(unchanged(&before));
    EXPECT(cuckooormolu_denied(cuckooormolu_left_request(&b, 3, 0, 1)));
    EXPECT(memcmp(b.left_scratch, zeros, sizeof zeros) == 0);
    EXPECT(memcmp(b.right_scratch, zeros, sizeof zeros) == 0);
}

/* A set list is its requests in that bank, one after another. */
static void set_lists(void)
{
    struct cuckooormolu_record records[] = {cuckooormolu_record_of(2, 0, 0),
                                            cuckooormolu_record_of(0, 0, 1),
                                            cuckooormolu_record_of(9, 0, 0),
                                            cuckooormolu_record_of(3, 0, 1),
                                            cuckooormolu_record_of(2, 0, 0)};
    size_t count = 77;
    begin();
    struct cuckooormolu_banks single = b;
    EXPECT(cuckooormolu_done(
        cuckooormolu_right_set_list(&b, records, 5, &count)));
    EXPECT(count == 2);
    for (size_t i = 0; i < 5; i++) {
        const struct cuckooormolu_record *r = &records[i];
        struct cuckooormolu_result alone =
            cuckooormolu_right_request(&single, r->event, r->from, r->to);
        EXPECT(strcmp(cuckooormolu_words(alone),
                      cuckooormolu_answer_words(r->answer)) == 0);
    }
    EXPECT(unchanged(&single));
    EXPECT(cuckooormolu_done(cuckooormolu_left_set_list(&b, records, 1, NULL)));
    EXPECT(cuckooormolu_answer_denied(records[0].answer));
    EXPECT(unchanged(&single));
    EXPECT(cuckooormolu_done(
        cuckooormolu_left_set_list(&b, NULL, unseen(9), &count)));
    EXPECT(count == 0);
}

/* A list that is refused leaves no old answer. */
static void refused_lists(void)
{
    struct cuckooormolu_record one = cuckooormolu_record_of(0, 0, 1);
    size_t count = 77;
    begin();
    EXPECT(cuckooormolu_done(cuckooormolu_left_set_list(&b, &one, 1, NULL)));
    EXPECT(cuckooormolu_answer_granted(one.answer));
    b.right[EVENT_WORD] = UINT64_MAX;
    const struct cuckooormolu_banks before = b;
    EXPECT_REFUSED(STATE, cuckooormolu_left_set_list(&b, &one, 1, &count));
    EXPECT(count == 0 && !cuckooormolu_answer_granted(one.answer));
    EXPECT_REFUSED(STATE, cuckooormolu_right_set_list(&b, NULL, 0, NULL));
    EXPECT_REFUSED(SHORT, cuckooormolu_right_set_list(NULL, &one, 1, NULL));
    EXPECT(unchanged(&before));
}

/* What is opened is at moment 0 in both banks, and keeps its relations. */
static void opening(void)
{
    begin();
    EXPECT(cuckooormolu_granted(cuckooormolu_left_request(&b, 0, 0, 1)));
    EXPECT(cuckooormolu_granted(cuckooormolu_right_request(&b, 0, 2, 1)));
    EXPECT(cuckooormolu_done(cuckooormolu_both_open(&b)));
    EXPECT(b.relations[0] == 2 && b.relations[2] == 2);
    EXPECT(!left_grants(2, 0, 0) && !right_grants(2, 2, 0));
    memcpy(m.state, b.relations, sizeof b.relations);
    EXPECT(cuckooormolu_done(cuckooormolu_monitor_open(&m)));
    EXPECT(has_state(&b, b.left, m.state) && has_state(&b, b.right, m.state));
    b.relations[0] = UINT64_MAX;
    const struct cuckooormolu_banks before = b;
    EXPECT_REFUSED(STATE, cuckooormolu_both_open(&b));
    EXPECT_REFUSED(SHORT, cuckooormolu_both_open(NULL));
    EXPECT(unchanged(&before));
}

/* Each bank is revised as a monitor of its state. */
static void revising(void)
{
    begin();
    EXPECT(cuckooormolu_granted(cuckooormolu_left_request(&b, 0, 0, 1)));
    EXPECT(cuckooormolu_granted(cuckooormolu_right_request(&b, 0, 2, 1)));
    read_into(&next, new_text);
    const struct cuckooormolu_banks before = b, read = next;
    EXPECT(cuckooormolu_done(cuckooormolu_both_revise(&b, &next)));
    EXPECT(unchanged(&before));
    EXPECT(memcmp(read.terms, next.terms, sizeof next.terms) == 0);
    for (size_t i = 0; i < 2; i++) {
        static struct cuckooormolu revised;
        memcpy(m.state, b.relations, sizeof b.relations);
        memcpy(m.state + RELATIONS, i == 0 ? b.left : b.right, sizeof b.left);
        memcpy(revised.terms, next.terms, sizeof next.terms);
        EXPECT(cuckooormolu_done(cuckooormolu_monitor_revise(&m, &revised)));
        EXPECT(has_state(&next, i == 0 ? next.left : next.right,
                         revised.state));
    }
    b = next;
    EXPECT(left_grants(3, 0, 0) && !left_grants(3, 2, 0));
    EXPECT(right_grants(3, 2, 0) && !right_grants(3, 0, 0));
    EXPECT(left_grants(2, 0, 0) && right_grants(2, 0, 0));
    EXPECT(!right_grants(2, 1, 0));
}

/* What is refused leaves the banks, and the next ones, as they were. */
static void refused_revisions(void)
{
    begin();
    read_into(&next, "M 4\nL 1 5\nF 0 top 0 0\nP 0 0\nP 1 0\nP 2 0\nP 3 0\n"
                     "P 4 0\n");
    const struct cuckooormolu_banks other = next;
    struct cuckooormolu_banks before = b;
    EXPECT_REFUSED(SIZE, cuckooormolu_both_revise(&b, &next));
    EXPECT_REFUSED(SHORT, cuckooormolu_both_revise(&b, &b));
    EXPECT_REFUSED(SHORT, cuckooormolu_both_revise(&b, NULL));
    EXPECT_REFUSED(SHORT, cuckooormolu_both_revise(NULL, &next));
    EXPECT(unchanged(&before));
    b.left[EVENT_WORD] = UINT64_MAX;
    before = b;
    EXPECT_REFUSED(STATE, cuckooormolu_both_revise(&b, &next));
    b.terms[0] = 65;
    before = b;
    EXPECT_REFUSED(TERMS, cuckooormolu_both_revise(&b, &next));
    EXPECT(unchanged(&before));
    EXPECT(memcmp(&other, &next, sizeof next) == 0);
}

/* Zeroed banks decide nothing, and damage in one bank stops both. */
static void checked(void)
{
    memset(&b, 0, sizeof b);
    EXPECT_REFUSED(TERMS, cuckooormolu_left_request(&b, 0, 0, 0));
    EXPECT_REFUSED(TERMS, cuckooormolu_right_look(&b, 0, 0, 0));
    begin();
    b.right[EVENT_WORD] = UINT64_MAX;
    EXPECT_REFUSED(STATE, cuckooormolu_left_request(&b, 0, 0, 0));
    EXPECT_REFUSED(STATE, cuckooormolu_left_look(&b, 9, 0, 0));
    EXPECT_REFUSED(STATE, cuckooormolu_right_request(&b, 9, 0, 0));
    b.terms[0] = 65;
    EXPECT_REFUSED(TERMS, cuckooormolu_right_request(&b, 9, 0, 0));
    EXPECT_REFUSED(SHORT, cuckooormolu_left_look(NULL, 0, 0, 0));
    EXPECT_REFUSED(SHORT, cuckooormolu_right_look(NULL, 0, 0, 0));
    EXPECT_REFUSED(SHORT, cuckooormolu_left_request(NULL, 0, 0, 0));
    EXPECT_REFUSED(SHORT, cuckooormolu_right_request(NULL, 0, 0, 0));
}

int main(void)
{
    reading();
    sharing();
    moments_of_the_other();
    left_and_right();
    one_bank_alone();
    scratches();
    set_lists();
    refused_lists();
    opening();
    revising();
    refused_revisions();
    checked();
    return failed;
}
