/*
 * Relations followed by a bank's own words are a state. So each call of a bank
 * is held to the same call of that state; and what the other bank has of a
 * moment is a state without an event edge.
 */
#include "banks.h"

#include "invariants.h"

#define RELATIONS (CUCKOOORMOLU_RELATION_WORDS + BEYOND)
#define OWN (CUCKOOORMOLU_OWN_WORDS + BEYOND)
#define OWN_EVENT (CUCKOOORMOLU_OWN_WORDS - 1)

/* The memory of two banks; left is 0 and right is 1. */
struct banks {
    uint16_t *terms;
    uint64_t *relations;
    uint64_t *own[2];
    uint64_t *scratch[2];
};

#define LENT(m) (m).terms, TERMS, (m).state, STATE
#define ALL_LENT(m) LENT(m), (m).scratch, SCRATCH
#define BOTH_LENT(b) (b).terms, TERMS, (b).relations, RELATIONS, (b).own[0], OWN, (b).own[1], OWN
#define BANK_LENT(b, bank)                                                                   \
    (b).terms, TERMS, (b).relations, RELATIONS, (b).own[bank], OWN, (b).own[1 - (bank)], OWN, \
        (b).scratch[bank], SCRATCH, (b).scratch[1 - (bank)], SCRATCH

static uint64_t *words(const uint64_t *from, size_t count)
{
    uint64_t *copy = (uint64_t *)lent(from, count * sizeof *copy);
    for (size_t i = 0; from == NULL && i < count; i++)
        copy[i] = FILLED;
    return copy;
}

static struct banks copied_banks(struct banks b)
{
    struct banks copy = {(uint16_t *)lent(b.terms, TERMS * sizeof *b.terms),
                         words(b.relations, RELATIONS),
                         {words(b.own[0], OWN), words(b.own[1], OWN)},
                         {words(b.scratch[0], SCRATCH), words(b.scratch[1], SCRATCH)}};
    for (size_t i = 0; b.terms == NULL && i < TERMS; i++)
        copy.terms[i] = FILLED;
    return copy;
}

static struct banks filled_banks(void)
{
    struct banks none = {NULL, NULL, {NULL, NULL}, {NULL, NULL}};
    return copied_banks(none);
}

static void released_banks(struct banks b)
{
    free(b.terms);
    free(b.relations);
    for (size_t i = 0; i < 2; i++) {
        free(b.own[i]);
        free(b.scratch[i]);
    }
}

static bool same_words(const uint64_t *a, const uint64_t *b, size_t count)
{
    return memcmp(a, b, count * sizeof *a) == 0;
}

static bool same_banks(struct banks a, struct banks b)
{
    bool is_same = memcmp(a.terms, b.terms, TERMS * sizeof *a.terms) == 0 &&
                   same_words(a.relations, b.relations, RELATIONS);
    for (size_t i = 0; i < 2; i++)
        is_same = is_same && same_words(a.own[i], b.own[i], OWN) && same_words(a.scratch[i], b.scratch[i], SCRATCH);
    return is_same;
}

/* The words beyond the named ones are as they were filled. */
static bool stay_beyond(struct banks b)
{
    bool stay = true;
    for (size_t i = 1; i <= BEYOND; i++) {
        stay = stay && b.terms[TERMS - i] == FILLED && b.relations[RELATIONS - i] == FILLED;
        for (size_t bank = 0; bank < 2; bank++)
            stay = stay && b.own[bank][OWN - i] == FILLED && b.scratch[bank][SCRATCH - i] == FILLED;
    }
    return stay;
}

/* A bank as a state with its terms and scratch. */
static struct memory state_of(struct banks b, size_t bank)
{
    struct memory m = filled();
    memcpy(m.terms, b.terms, TERMS * sizeof *m.terms);
    memcpy(m.state, b.relations, RELATION_WORDS * sizeof *m.state);
    memcpy(m.state + RELATION_WORDS, b.own[bank], CUCKOOORMOLU_OWN_WORDS * sizeof *m.state);
    memcpy(m.scratch, b.scratch[bank], SCRATCH * sizeof *m.scratch);
    return m;
}

static bool is_state_of(struct banks b, size_t bank, struct memory m)
{
    return same_words(m.state, b.relations, RELATION_WORDS) &&
           same_words(m.state + RELATION_WORDS, b.own[bank], CUCKOOORMOLU_OWN_WORDS);
}

static size_t checked(struct banks b, size_t bank)
{
    struct memory m = state_of(b, bank);
    size_t code = cuckooormolu_raw_check(LENT(m));
    released(m);
    return code;
}

static void tell_banks(struct banks b)
{
    for (size_t bank = 0; bank < 2; bank++)
        for (size_t i = 0; i < CUCKOOORMOLU_OWN_WORDS; i++)
            if (b.own[bank][i] != 0) {
                tell(i);
                tell(b.own[bank][i]);
            }
}

/* A request of a bank is that of its state, where the other bank is sound, and
 * is answered as a look. What makes a moment makes it in both, without an event
 * edge in the other, and leaves both scratches 0; all else leaves all. */
static size_t request(struct banks b, size_t bank, const uint8_t *call)
{
    struct banks before = copied_banks(b);
    struct memory single = state_of(b, bank);
    size_t wanted = checked(b, 1 - bank);
    if (wanted == CUCKOOORMOLU_DONE)
        wanted = cuckooormolu_raw_request(ALL_LENT(single), call[1], call[2], call[3]);
    HOLDS(cuckooormolu_raw_banks_look(BANK_LENT(b, bank), call[1], call[2], call[3]) == wanted);
    HOLDS(same_banks(before, b));
    size_t code = cuckooormolu_raw_banks_request(BANK_LENT(b, bank), call[1], call[2], call[3]);
    HOLDS(code == wanted && stay_beyond(b));
    bool denied = code == CUCKOOORMOLU_DENIED;
    if (code == CUCKOOORMOLU_GRANTED || (denied && b.terms[KEPT_MARKS + call[1]] == 1)) {
        HOLDS(is_state_of(b, bank, single) && b.own[1 - bank][OWN_EVENT] == 0);
        for (size_t i = 0; i < CUCKOOORMOLU_SCRATCH_WORDS; i++)
            HOLDS(b.scratch[0][i] == 0 && b.scratch[1][i] == 0);
        HOLDS(checked(b, 1 - bank) == CUCKOOORMOLU_DONE);
        tell_banks(b);
    } else {
        HOLDS(same_banks(before, b));
    }
    released(single);
    released_banks(before);
    tell(code);
    return code;
}

/* A set list of a bank answers as its single requests, and leaves the same. */
static void set_list(struct banks b, size_t bank, const uint8_t *calls, size_t length)
{
    struct banks single = copied_banks(b);
    uint32_t *records = (uint32_t *)lent(NULL, length * 4 * sizeof *records);
    for (size_t i = 0; i < length * 4; i++)
        records[i] = i % 4 == 3 ? FILLED : calls[i + 1];
    size_t count = FILLED, grants = 0;
    size_t code = cuckooormolu_raw_banks_set_list(BANK_LENT(b, bank), (struct cuckooormolu_record *)(void *)records,
                                                  length, &count);
    HOLDS(code == CUCKOOORMOLU_DONE);
    for (size_t i = 0; i < length; i++) {
        size_t answer = request(single, bank, calls + 4 * i);
        HOLDS(records[4 * i + 3] == (answer == CUCKOOORMOLU_GRANTED  ? 1u
                                     : answer == CUCKOOORMOLU_DENIED ? 0u
                                                                     : (uint32_t)answer));
        grants += answer == CUCKOOORMOLU_GRANTED;
    }
    HOLDS(count == grants && same_banks(single, b));
    tell(count);
    free(records);
    released_banks(single);
}

/* Opened, each bank is the opened state of the relations. */
static void opened(struct banks b)
{
    struct banks once = copied_banks(b);
    struct memory single = state_of(b, 0);
    size_t code = cuckooormolu_raw_banks_open(BOTH_LENT(once));
    HOLDS(code == cuckooormolu_raw_open(LENT(single)) && stay_beyond(once));
    if (code == CUCKOOORMOLU_DONE)
        HOLDS(is_state_of(once, 0, single) && is_state_of(once, 1, single));
    else
        HOLDS(same_banks(b, once));
    tell(code);
    released(single);
    released_banks(once);
}

/* Revised, each bank is its revised state. */
static void revised(struct banks b, struct banks revision)
{
    struct banks before = copied_banks(revision);
    size_t code = cuckooormolu_raw_banks_revise(BOTH_LENT(b), BOTH_LENT(revision));
    size_t wanted = CUCKOOORMOLU_DONE;
    HOLDS(stay_beyond(revision));
    for (size_t bank = 0; bank < 2; bank++) {
        struct memory single = state_of(b, bank), second = state_of(before, bank);
        size_t alone = cuckooormolu_raw_revise(LENT(single), LENT(second));
        HOLDS(code != CUCKOOORMOLU_DONE || is_state_of(revision, bank, second));
        /* 7 and 13 are of the terms, which both have; 8 is of either. */
        if (wanted == CUCKOOORMOLU_DONE || alone == CUCKOOORMOLU_REFUSED_STATE)
            wanted = alone;
        released(second);
        released(single);
    }
    HOLDS(code == wanted && (code == CUCKOOORMOLU_DONE || same_banks(before, revision)));
    tell(code);
    released_banks(before);
}

/* One bit is changed, in the terms or in a bank, and all is asked of that. */
static void damaged(struct banks b, size_t bank, const uint8_t *call)
{
    struct banks other = copied_banks(b), second = copied_banks(b);
    size_t word = (size_t)(call[1] + 256u * call[2]) % CUCKOOORMOLU_STATE_WORDS;
    if (call[3] >= 64)
        other.terms[word % CUCKOOORMOLU_TERMS_WORDS] ^= (uint16_t)(1u << call[3] % 16);
    else if (word < RELATION_WORDS)
        other.relations[word] ^= UINT64_C(1) << call[3];
    else
        other.own[bank][word - RELATION_WORDS] ^= UINT64_C(1) << call[3];
    revised(other, second);
    memcpy(second.terms, other.terms, TERMS * sizeof *b.terms);
    revised(b, second);
    opened(other);
    (void)request(other, bank, call);
    (void)request(other, 1 - bank, call);
    released_banks(second);
    released_banks(other);
}

/* Memory that is a word too short is refused and left. */
static void shortened(struct banks b)
{
    const uint64_t *whole[] = {b.relations, b.own[0], b.own[1], b.scratch[0], b.scratch[1]};
    for (size_t which = 0; which < 6; which++) {
        size_t n[] = {RELATIONS, OWN, OWN, SCRATCH, SCRATCH}, t = TERMS, line = FILLED;
        uint64_t *part[5];
        for (size_t i = 0; i < 5; i++)
            n[i] -= which == i ? BEYOND + 1 : 0;
        t -= which == 5 ? BEYOND + 1 : 0;
        uint16_t *terms = (uint16_t *)lent(b.terms, t * sizeof *terms);
        for (size_t i = 0; i < 5; i++)
            part[i] = words(whole[i], n[i]);
        HOLDS(cuckooormolu_raw_banks_request(terms, t, part[0], n[0], part[1], n[1], part[2], n[2], part[3], n[3],
                                             part[4], n[4], 0, 0, 0) == CUCKOOORMOLU_REFUSED_SHORT);
        if (which < 3 || which == 5) {
            HOLDS(cuckooormolu_raw_banks_open(terms, t, part[0], n[0], part[1], n[1], part[2], n[2]) ==
                  CUCKOOORMOLU_REFUSED_SHORT);
            HOLDS(cuckooormolu_raw_banks_read((const uint8_t *)"", 0, terms, t, part[0], n[0], part[1], n[1], part[2],
                                              n[2], &line) == CUCKOOORMOLU_REFUSED_SHORT);
            HOLDS(line == 0);
        }
        HOLDS(memcmp(terms, b.terms, t * sizeof *terms) == 0);
        for (size_t i = 0; i < 5; i++) {
            HOLDS(same_words(part[i], whole[i], n[i]));
            free(part[i]);
        }
        free(terms);
    }
}

static void make(struct banks b, const uint8_t *calls, size_t length)
{
    for (size_t i = 0; i < length; i++) {
        const uint8_t *call = calls + 4 * i;
        size_t rest = length - i - 1, bank = call[0] / 8 % 2;
        struct banks second = copied_banks(b);
        switch (call[0] % 8) {
        default:
            (void)request(b, bank, call);
            break;
        case 3:
            rest = rest < call[1] % 16u ? rest : call[1] % 16u;
            set_list(b, bank, call + 4, rest);
            i += rest;
            break;
        case 4:
            opened(b);
            break;
        case 5:
            damaged(b, bank, call);
            break;
        case 6:
            shortened(b);
            break;
        case 7:
            revised(b, second);
            HOLDS(same_banks(b, second));
            break;
        }
        released_banks(second);
    }
}

void hold_banks(const uint8_t *text, size_t length, struct memory m,
                size_t code, size_t line, const uint8_t *calls, size_t count)
{
    struct banks b = filled_banks(), before = filled_banks();
    size_t at = FILLED;
    size_t got = cuckooormolu_raw_banks_read(text, length, BOTH_LENT(b), &at);
    bool is_stored = length > 0 && text[0] == 'S' && got == CUCKOOORMOLU_REFUSED_FORM && at == 1;
    HOLDS(is_stored || (got == code && at == line));
    HOLDS(stay_beyond(b) && (got == CUCKOOORMOLU_DONE || same_banks(before, b)));
    if (got == CUCKOOORMOLU_DONE) {
        HOLDS(memcmp(b.terms, m.terms, TERMS * sizeof *m.terms) == 0);
        HOLDS(is_state_of(b, 0, m) && is_state_of(b, 1, m));
        make(b, calls, count);
        tell_banks(b);
    }
    tell(got);
    released_banks(before);
    released_banks(b);
}
