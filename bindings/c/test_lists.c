/*
 * Set lists: answers, what a refused list leaves, and the numbers of answers. It
 * is compiled as C and as C++, and prints nothing where all of it holds.
 */
#include "cuckooormolu.h"
#include "expect.h"

#include <string.h>

/* Event 0 makes an edge from initiator to target, event 1 asks for one. */
static const char text[] = "M\t3\nL\t1\t2\nF\t0\tvar\t0\t0\nF\t1\tout\t0\t0\n"
                           "F\t2\ttop\t0\t0\nP\t0\t2\nP\t1\t1\n"
                           "E\t0\tadd\t0\tfwd\n";

static struct cuckooormolu m;

static bool said(struct cuckooormolu_answer answer, const char *words)
{
    return strcmp(cuckooormolu_answer_words(answer), words) == 0;
}

static bool unanswered(struct cuckooormolu_record record)
{
    return !cuckooormolu_answer_granted(record.answer) &&
           !cuckooormolu_answer_denied(record.answer) &&
           !cuckooormolu_answer_refused(record.answer) &&
           said(record.answer, "not answered");
}

static void read_text(void)
{
    EXPECT(cuckooormolu_done(
        cuckooormolu_monitor_read(&m, text, sizeof text - 1, NULL)));
}

/* An answer is what its number says, and nothing where it is no answer's. */
static void answers(void)
{
    for (uint32_t number = 0; number < 1000; number++) {
        const struct cuckooormolu_answer answer = {number};
        EXPECT(cuckooormolu_answer_granted(answer) == (number == 1));
        EXPECT(cuckooormolu_answer_denied(answer) == (number == 0));
        EXPECT(cuckooormolu_answer_refused(answer) == (number == 9));
        EXPECT(said(answer, "not answered") ==
               (number != 0 && number != 1 && number != 9));
    }
    const struct cuckooormolu_record record = cuckooormolu_record_of(1, 2, 3);
    EXPECT(record.event == 1 && record.from == 2 && record.to == 3);
    EXPECT(unanswered(record));
}

/* A set list answers as single requests one after another, and leaves the
 * same memory. */
static void set_list(void)
{
    struct cuckooormolu_record records[] = {
        cuckooormolu_record_of(1, 0, 2),
        cuckooormolu_record_of(0, 0, 2),
        cuckooormolu_record_of(2, 0, 2),
        cuckooormolu_record_of(1, 0, 2),
        cuckooormolu_record_of(0, 3, 0),
        cuckooormolu_record_of(1, 2, 0),
        cuckooormolu_record_of(0, 0, UINT32_MAX)};
    const char *none = "no such event or member";
    const char *const wanted[] = {"denied", "granted", none, "granted",
                                  none,     "denied",  none};
    const size_t length = sizeof records / sizeof *records;
    size_t count = 77;
    read_text();
    struct cuckooormolu single = m;
    EXPECT(cuckooormolu_done(
        cuckooormolu_monitor_set_list(&m, records, length, &count)));
    EXPECT(count == 2);
    for (size_t i = 0; i < length; i++) {
        const struct cuckooormolu_record *r = &records[i];
        struct cuckooormolu_result alone =
            cuckooormolu_monitor_request(&single, r->event, r->from, r->to);
        EXPECT(said(r->answer, wanted[i]));
        EXPECT(cuckooormolu_granted(alone) ==
               cuckooormolu_answer_granted(r->answer));
        EXPECT(cuckooormolu_denied(alone) ==
               cuckooormolu_answer_denied(r->answer));
        EXPECT((cuckooormolu_refusal(alone) == CUCKOOORMOLU_REFUSED_NAME) ==
               cuckooormolu_answer_refused(r->answer));
    }
    EXPECT(records[6].event == 0 && records[6].from == 0);
    EXPECT(records[6].to == UINT32_MAX);
    EXPECT(memcmp(&single, &m, sizeof m) == 0);
}

/* An empty list is checked, too. */
static void empty_list(void)
{
    size_t count = 77;
    read_text();
    EXPECT(
        cuckooormolu_done(cuckooormolu_monitor_set_list(&m, NULL, 0, &count)));
    EXPECT(count == 0);
    EXPECT(cuckooormolu_done(
        cuckooormolu_monitor_set_list(&m, NULL, unseen(9), NULL)));
    m.terms[0] = 0;
    EXPECT_REFUSED(TERMS, cuckooormolu_monitor_set_list(&m, NULL, 0, &count));
    EXPECT_REFUSED(SHORT, cuckooormolu_monitor_set_list(NULL, NULL, 0, NULL));
}

/* A record that an earlier list has granted. */
static struct cuckooormolu_record granted(void)
{
    struct cuckooormolu_record record = cuckooormolu_record_of(0, 0, 1);
    EXPECT(cuckooormolu_done(
        cuckooormolu_monitor_set_list(&m, &record, 1, NULL)));
    EXPECT(cuckooormolu_answer_granted(record.answer));
    return record;
}

/* A list whose checks fail changes no memory, and leaves no old answer. */
static void refused_list(void)
{
    size_t count = 77;
    read_text();
    const struct cuckooormolu_record old = granted();
    struct cuckooormolu_record one = old;
    struct cuckooormolu before = m;
    EXPECT_REFUSED(
        SHORT, cuckooormolu_set_list(m.terms, CUCKOOORMOLU_TERMS_WORDS,
                                     m.state, CUCKOOORMOLU_STATE_WORDS,
                                     m.scratch, CUCKOOORMOLU_SCRATCH_WORDS - 1,
                                     &one, 1, &count));
    EXPECT(count == 0 && unanswered(one));
    EXPECT(one.event == 0 && one.from == 0 && one.to == 1);
    one = old;
    EXPECT_REFUSED(SHORT, cuckooormolu_monitor_set_list(NULL, &one, 1, NULL));
    EXPECT(unanswered(one));
    EXPECT(memcmp(&before, &m, sizeof m) == 0);
    m.state[CUCKOOORMOLU_STATE_WORDS - 1] = UINT64_MAX;
    before = m;
    one = old;
    EXPECT_REFUSED(STATE, cuckooormolu_monitor_set_list(&m, &one, 1, &count));
    EXPECT(unanswered(one));
    EXPECT_REFUSED(STATE, cuckooormolu_monitor_set_list(&m, &one, 0, &count));
    EXPECT(memcmp(&before, &m, sizeof m) == 0);
}

/* What the raw function needs, and the others do by themselves. */
static void unanswering(void)
{
    read_text();
    struct cuckooormolu_record records[] = {granted(), granted(), granted()};
    cuckooormolu_unanswer(records, 2);
    EXPECT(unanswered(records[0]) && unanswered(records[1]));
    EXPECT(cuckooormolu_answer_granted(records[2].answer));
}

int main(void)
{
    answers();
    set_list();
    empty_list();
    refused_list();
    unanswering();
    return failed;
}
