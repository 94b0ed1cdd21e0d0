/*
 * What the library says of the test's requests: see expected.h.
 */
#include "expected.h"
#include "../cuckooormolu.h"

#include <stdio.h>

/* The preset. Load, event 2, is kept; event 3 asks for the same and is not. */
const char terms_text[] =
    "M\t3\nL\t1\t4\nF\t0\tvar\t1\t0\nF\t1\tout\t1\t0\nF\t2\tout\t2\t0\n"
    "F\t3\tnot\t2\t0\nF\t4\tsince\t3\t1\nF\t5\tin\t0\t4\nF\t6\tat\t0\t5\n"
    "F\t7\tbind\t1\t6\nF\t8\ttop\t0\t0\nP\t0\t8\nP\t1\t8\nP\t2\t7\nP\t3\t7\n"
    "K\t2\nE\t2\tadd\t0\tfwd\nG\t0\t0\t2\n";
const size_t terms_size = sizeof terms_text - 1;

/* Grants, kept denials, others, and refusals. */
const request requests[REQUESTS] = {
    {2, 1, 2}, {0, 0, 1}, {3, 2, 0}, {2, 1, 2}, {9, 0, 0},
    {1, 0, 1}, {2, 1, 2}, {2, 0, 1}, {0, 1, 0},
};
const request probe[1] = {{0, 2, 2}};

struct bytes stored[REQUESTS + 1];
struct bytes probed[REQUESTS + 1];
char told[REQUESTS * 16];
size_t told_length[REQUESTS + 1];

static struct cuckooormolu_result asked(struct cuckooormolu *m,
                                        const request asks)
{
    return cuckooormolu_monitor_request(m, asks[0], asks[1], asks[2]);
}

static bool store(const struct cuckooormolu *m, struct bytes *to)
{
    return cuckooormolu_done(
        cuckooormolu_monitor_store(m, to->data, MOST_BYTES, &to->length));
}

/* The line that tells an answer; gives its length. */
static size_t line_of(struct cuckooormolu_result result, char *line)
{
    if (cuckooormolu_granted(result))
        return (size_t)sprintf(line, "grant\n");
    if (cuckooormolu_denied(result))
        return (size_t)sprintf(line, "deny\n");
    return (size_t)sprintf(line, "refuse\t%zu\n",
                           cuckooormolu_refusal(result));
}

bool expect_all(void)
{
    static struct cuckooormolu m, later;
    if (!cuckooormolu_done(
            cuckooormolu_monitor_read(&m, terms_text, terms_size, NULL)))
        return false;
    for (size_t i = 0; i <= REQUESTS; i++) {
        later = m;
        if (!store(&m, &stored[i]) ||
            !cuckooormolu_granted(asked(&later, probe[0])) ||
            !store(&later, &probed[i]))
            return false;
        if (i < REQUESTS)
            told_length[i + 1] =
                told_length[i] +
                line_of(asked(&m, requests[i]), told + told_length[i]);
    }
    return true;
}
