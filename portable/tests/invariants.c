/*
 * An input is a terms text of either form, a byte 0, and calls of four bytes
 * each: what to do, and in which of two banks, an event, an initiator and a
 * target. Only the archive's own functions are called, on memory of the exact
 * length.
 */
#include "invariants.h"

#include "banks.h"
#include "memory.h"
#include "renumbered.h"

/* Time grows with the members to the power of nested binds, so a text with more
 * of them is left alone. */
#define MOST_BINDS 4
#define MOST_CALLS 40

#define GAME (CUCKOOORMOLU_PLAN_WORDS + BEYOND)
#define FIRST_POLICY 1028

#define LENT(m) (m).terms, TERMS, (m).state, STATE
#define ALL_LENT(m) LENT(m), (m).scratch, SCRATCH

uint64_t digest = 1;

/* Keeps to 31 bits of each factor, so that no product leaves its 64 bits. */
void tell(uint64_t number)
{
    for (int half = 0; half < 2; half++) {
        uint64_t mixed = (digest >> 32 ^ (number >> 32 * half)) & INT32_MAX;
        digest = ((digest & INT32_MAX) * UINT64_C(1103515245) + mixed * UINT64_C(69069) + 12345) & INT64_MAX;
    }
}

static void tell_state(struct memory m)
{
    for (size_t i = 0; i < CUCKOOORMOLU_STATE_WORDS; i++)
        if (m.state[i] != 0) {
            tell(i);
            tell(m.state[i]);
        }
}

static size_t check(struct memory m)
{
    struct memory before = copied(m);
    size_t code = cuckooormolu_raw_check(LENT(m));
    HOLDS(same(before, m));
    released(before);
    tell(code);
    return code;
}

/* A request is answered as a look, which leaves all memory. A grant, or a denial
 * of a kept event, makes a moment and leaves scratch 0; all else leaves all. */
static size_t request(struct memory m, const uint8_t *call)
{
    struct memory before = copied(m);
    size_t looked = cuckooormolu_raw_look(ALL_LENT(m), call[1], call[2], call[3]);
    HOLDS(same(before, m));
    if (looked == CUCKOOORMOLU_GRANTED || looked == CUCKOOORMOLU_DENIED) {
        size_t told = cuckooormolu_raw_tell(LENT(m), m.terms[FIRST_POLICY + call[1]], call[2], call[3]);
        HOLDS(told == (looked == CUCKOOORMOLU_GRANTED ? CUCKOOORMOLU_HOLDS : CUCKOOORMOLU_FAILS));
    }
    size_t code = cuckooormolu_raw_request(ALL_LENT(m), call[1], call[2], call[3]);
    HOLDS(code == looked);
    bool granted = code == CUCKOOORMOLU_GRANTED;
    bool denied = code == CUCKOOORMOLU_DENIED;
    HOLDS(granted || denied || (code >= CUCKOOORMOLU_REFUSED_SHORT && code <= CUCKOOORMOLU_REFUSED_NAME));
    if (granted || (denied && m.terms[KEPT_MARKS + call[1]] == 1)) {
        uint64_t event = (uint64_t)call[1] + (granted ? 0u : 16u);
        HOLDS(m.state[EVENT_WORD] == 1 + 4096 * event + UINT64_C(64) * call[2] + call[3]);
        HOLDS(same_terms(before, m) && (granted || same_relations(before, m)));
        for (size_t i = 0; i < CUCKOOORMOLU_SCRATCH_WORDS; i++)
            HOLDS(m.scratch[i] == 0);
        HOLDS(check(m) == CUCKOOORMOLU_DONE && stays_beyond(m));
    } else {
        HOLDS(same(before, m));
    }
    released(before);
    tell(code);
    return code;
}

/* A set list answers as single requests, and leaves the same. A record is four
 * words: event, initiator, target and answer. */
static void set_list(struct memory m, const uint8_t *calls, size_t length)
{
    struct memory single = copied(m);
    uint32_t *words = (uint32_t *)lent(NULL, length * 4 * sizeof *words);
    for (size_t i = 0; i < length * 4; i++)
        words[i] = i % 4 == 3 ? FILLED : calls[i + 1];
    size_t count = FILLED, grants = 0;
    size_t code = cuckooormolu_raw_set_list(ALL_LENT(m), (struct cuckooormolu_record *)(void *)words, length, &count);
    HOLDS(code == check(single));
    for (size_t i = 0; i < length; i++) {
        const uint8_t *call = calls + 4 * i;
        const uint32_t *record = words + 4 * i;
        HOLDS(record[0] == call[1] && record[1] == call[2] && record[2] == call[3]);
        uint32_t wanted = FILLED;
        if (code == CUCKOOORMOLU_DONE) {
            size_t answer = request(single, call);
            wanted = answer == CUCKOOORMOLU_GRANTED ? 1 : answer == CUCKOOORMOLU_DENIED ? 0 : (uint32_t)answer;
            grants += answer == CUCKOOORMOLU_GRANTED;
        }
        HOLDS(record[3] == wanted);
    }
    HOLDS(count == grants && same(single, m));
    tell(count);
    free(words);
    released(single);
}

/* A plan by numbers: so many of its moves. */
struct plan {
    uint64_t moves[8];
    size_t length, planner, rival, goal, first, second;
};

/* Whether the goal holds after one of the planner's moves, where the rival
 * replies to each with one request, or with a pass where there is none. */
static bool won(struct memory m, struct plan p, const uint8_t *reply)
{
    struct memory played = copied(m);
    bool holds = false;
    for (size_t i = 0; i < p.length; i += 2) {
        if (i > 0 && reply != NULL)
            (void)cuckooormolu_raw_request(ALL_LENT(played), reply[1], p.rival, reply[3]);
        (void)cuckooormolu_raw_request(ALL_LENT(played), p.moves[i] & 255, p.planner, p.moves[i + 1] & 255);
        size_t told = cuckooormolu_raw_tell(LENT(played), p.goal, p.first, p.second);
        HOLDS(told == CUCKOOORMOLU_HOLDS || told == CUCKOOORMOLU_FAILS);
        holds = holds || told == CUCKOOORMOLU_HOLDS;
    }
    released(played);
    return holds;
}

/* What is accepted is won where the rival passes, and where it replies with any
 * request; a plan of one move is accepted where it is won, and only there. A
 * verdict leaves the game 0, a refusal as lent, and both all else. The first call
 * has planner, rival and goal, a policy or any entry, the second the pair and the
 * plan's length, the others its moves. */
static void planned(struct memory m, const uint8_t *calls, size_t count)
{
    size_t goal = calls[3] < 128 ? calls[3] : m.terms[FIRST_POLICY + calls[3] % 16];
    size_t length = 2 * (calls[7] % 4u) + (calls[7] >= 128);
    struct plan p = {{0}, length, calls[1], calls[2], goal, calls[5], calls[6]};
    struct memory before = copied(m);
    for (size_t i = 0; i < 4 && i + 2 < count; i++) {
        p.moves[2 * i] = calls[8 + 4 * i + 1];
        p.moves[2 * i + 1] = calls[8 + 4 * i + 3];
    }
    uint64_t *moves = (uint64_t *)lent(p.moves, p.length * sizeof *moves);
    uint64_t *game = (uint64_t *)lent(NULL, GAME * sizeof *game);
    for (size_t i = 0; i < GAME; i++)
        game[i] = FILLED;
    HOLDS(cuckooormolu_raw_plan(LENT(m), game, CUCKOOORMOLU_PLAN_WORDS - 1, moves, p.length, p.planner, p.rival,
                                p.goal, p.first, p.second) == CUCKOOORMOLU_REFUSED_SHORT);
    size_t code = cuckooormolu_raw_plan(LENT(m), game, GAME, moves, p.length, p.planner, p.rival, p.goal, p.first,
                                        p.second);
    bool accepted = code == CUCKOOORMOLU_ACCEPTED, decided = accepted || code == CUCKOOORMOLU_REJECTED;
    HOLDS(decided || code == CUCKOOORMOLU_REFUSED_PLAN || code == CUCKOOORMOLU_REFUSED_NAME);
    for (size_t i = 0; i < GAME; i++)
        HOLDS(game[i] == (decided && i < CUCKOOORMOLU_PLAN_WORDS ? 0 : FILLED));
    HOLDS(same(before, m));
    if (decided) {
        bool alone = won(m, p, NULL);
        HOLDS(!accepted || (alone && won(m, p, calls)));
        HOLDS(p.length > 2 || accepted == alone);
    }
    tell(code);
    free(game);
    free(moves);
    released(before);
}

typedef size_t sizing(const uint16_t *, size_t, const uint64_t *, size_t, size_t *);
typedef size_t writing(const uint16_t *, size_t, const uint64_t *, size_t, uint8_t *, size_t, size_t *);

/* The size that is told is written, a byte less is refused and leaves the
 * output, and what is written gives the same words when it is read. */
static size_t written(struct memory m, sizing *size_of, writing *write)
{
    struct memory before = copied(m), other = filled();
    size_t size = FILLED, count = FILLED, line = FILLED;
    size_t code = size_of(LENT(m), &size);
    HOLDS(code == CUCKOOORMOLU_DONE ? size > 0 : size == 0);
    uint8_t *text = (uint8_t *)lent(NULL, size);
    if (code == CUCKOOORMOLU_DONE) {
        memset(text, 0xff, size);
        HOLDS(write(LENT(m), text, size - 1, &count) == CUCKOOORMOLU_REFUSED_SHORT && count == 0);
        for (size_t i = 0; i < size; i++)
            HOLDS(text[i] == 0xff);
    }
    HOLDS(write(LENT(m), text, size, &count) == code && count == size);
    if (code == CUCKOOORMOLU_DONE) {
        HOLDS(cuckooormolu_raw_read(text, size, LENT(other), &line) == code && line == 0);
        HOLDS(same_kept(m, other));
    }
    HOLDS(same(before, m));
    tell(size);
    free(text);
    released(other);
    released(before);
    return code;
}

/* What is opened is a fresh start: it is accepted and can be written. */
static void opened(struct memory m)
{
    struct memory once = copied(m);
    size_t code = cuckooormolu_raw_open(LENT(once));
    if (code == CUCKOOORMOLU_DONE) {
        HOLDS(same_terms(m, once) && same_relations(m, once) && once.state[EVENT_WORD] == 0);
        HOLDS(check(once) == code && stays_beyond(once));
        HOLDS(written(once, cuckooormolu_raw_size, cuckooormolu_raw_write) == code);
        tell_state(once);
    } else {
        HOLDS(same(m, once));
    }
    tell(code);
    released(once);
}

/* Memory that is a word too short is refused and left. */
static void shortened(struct memory m)
{
    const size_t terms = CUCKOOORMOLU_TERMS_WORDS, state = CUCKOOORMOLU_STATE_WORDS;
    const size_t scratch = CUCKOOORMOLU_SCRATCH_WORDS;
    for (unsigned which = 0; which < 3; which++) {
        size_t t = terms - (which == 0), s = state - (which == 1), c = scratch - (which == 2), line = FILLED;
        struct memory part = {(uint16_t *)lent(m.terms, t * sizeof *m.terms),
                              (uint64_t *)lent(m.state, s * sizeof *m.state),
                              (uint64_t *)lent(m.scratch, c * sizeof *m.scratch)};
        HOLDS(cuckooormolu_raw_request(part.terms, t, part.state, s, part.scratch, c, 0, 0, 0) ==
              CUCKOOORMOLU_REFUSED_SHORT);
        HOLDS(which == 2 || (cuckooormolu_raw_read((const uint8_t *)"", 0, part.terms, t, part.state, s, &line) ==
                             CUCKOOORMOLU_REFUSED_SHORT && line == 0));
        HOLDS(memcmp(part.terms, m.terms, t * sizeof *m.terms) == 0);
        HOLDS(memcmp(part.state, m.state, s * sizeof *m.state) == 0);
        HOLDS(memcmp(part.scratch, m.scratch, c * sizeof *m.scratch) == 0);
        released(part);
    }
}

/* New terms over an old state: relations and event edge are carried over, and
 * what is refused is left. */
static size_t revised(struct memory old, struct memory revision)
{
#ifdef REVISE
    struct memory before = copied(revision);
    size_t code = cuckooormolu_raw_revise(LENT(old), LENT(revision));
    if (code == CUCKOOORMOLU_DONE) {
        HOLDS(same_terms(before, revision) && same_relations(old, revision) && stays_beyond(revision));
        HOLDS(old.state[EVENT_WORD] == revision.state[EVENT_WORD] && check(revision) == code);
        tell_state(revision);
    } else {
        HOLDS(same(before, revision));
    }
    tell(code);
    released(before);
    return code;
#else
    (void)old, (void)revision;
    return CUCKOOORMOLU_DONE;
#endif
}

/* One bit is changed, and all is asked of what this gives. */
static void damaged(struct memory m, const uint8_t *call)
{
    struct memory other = copied(m), second = copied(m);
    size_t word = (size_t)(call[1] + 256u * call[2]);
    if (call[3] >= 64)
        other.terms[word % CUCKOOORMOLU_TERMS_WORDS] ^= (uint16_t)(1u << call[3] % 16);
    else
        other.state[word % CUCKOOORMOLU_STATE_WORDS] ^= UINT64_C(1) << call[3];
    memcpy(second.terms, other.terms, TERMS * sizeof *m.terms);
    (void)revised(m, second);
    size_t code = check(other);
    HOLDS(written(other, cuckooormolu_raw_store_size, cuckooormolu_raw_store) == code);
    opened(other);
    hold_renumbered(other, call);
    size_t answer = request(other, call);
    HOLDS(code == CUCKOOORMOLU_DONE ? answer >= CUCKOOORMOLU_REFUSED_NAME : answer == code);
    released(second);
    released(other);
}

static bool is_slow(const uint8_t *text, size_t length)
{
    size_t binds = 0;
    for (size_t i = 0; i + 4 <= length; i++)
        binds += memcmp(text + i, "bind", 4) == 0;
    return binds > MOST_BINDS;
}

/* Makes the calls. `played` says that the state was not read from a stored
 * text: then revising to the same terms gives the same words. */
static void make(struct memory m, const uint8_t *calls, size_t length, bool played)
{
    for (size_t i = 0; i < length; i++) {
        const uint8_t *call = calls + 4 * i;
        size_t rest = length - i - 1;
        struct memory second = copied(m);
        switch (call[0] % 8) {
        default:
            (void)request(m, call);
            break;
        case 1:
            hold_renumbered(m, call);
            break;
        case 2:
            if (rest > 0)
                planned(m, call, rest + 1);
            break;
        case 3:
            rest = rest < call[1] % 16u ? rest : call[1] % 16u;
            set_list(m, call + 4, rest);
            i += rest;
            break;
        case 4:
            HOLDS(written(m, cuckooormolu_raw_store_size, cuckooormolu_raw_store) == CUCKOOORMOLU_DONE);
            (void)written(m, cuckooormolu_raw_size, cuckooormolu_raw_write);
            opened(m);
            break;
        case 5:
            damaged(m, call);
            break;
        case 6:
            shortened(m);
            break;
        case 7:
            HOLDS(revised(m, second) == CUCKOOORMOLU_DONE && (!played || same_kept(m, second)));
            break;
        }
        released(second);
    }
    tell_state(m);
}

int LLVMFuzzerTestOneInput(const uint8_t *input, size_t length)
{
    const uint8_t *end = length == 0 ? NULL : (const uint8_t *)memchr(input, 0, length);
    size_t text_length = end == NULL ? length : (size_t)(end - input);
    const uint8_t *first = end == NULL ? input : end + 1;
    size_t calls = end == NULL ? 0 : (length - text_length - 1) / 4;
    if (is_slow(input, text_length))
        return 0;
    uint8_t *text = (uint8_t *)lent(input, text_length);
    struct memory m = filled(), before = filled();
    size_t line = FILLED;
    size_t code = cuckooormolu_raw_read(text, text_length, LENT(m), &line);
    tell(code);
    tell(line);
    HOLDS(stays_beyond(m));
    calls = calls < MOST_CALLS ? calls : MOST_CALLS;
    hold_banks(text, text_length, m, code, line, first, calls);
    if (code == CUCKOOORMOLU_DONE) {
        HOLDS(line == 0 && check(m) == code);
        make(m, first, calls, text[0] != 'S');
    } else {
        HOLDS(line > 0 && code != CUCKOOORMOLU_REFUSED_SHORT && same(before, m));
    }
    released(before);
    released(m);
    free(text);
    return 0;
}
