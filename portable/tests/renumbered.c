/*
 * Members renumbered, whatever is lent. A list of numbers has exactly the length
 * that is lent, as all memory here.
 */
#include "renumbered.h"

#include "invariants.h"

#define LENT(m) (m).terms, TERMS, (m).state, STATE
#define ALL_LENT(m) LENT(m), (m).scratch, SCRATCH

/* Numbers from 0 on in an order made of a call's bytes, and what undoes it. */
struct order {
    size_t members;
    uint8_t *forth, *back;
};

static struct order order_of(size_t members, const uint8_t *call)
{
    struct order o = {members, (uint8_t *)lent(NULL, members), (uint8_t *)lent(NULL, members)};
    uint32_t turn = call[1] + 256u * call[2];
    for (size_t i = 0; i < members; i++)
        o.forth[i] = (uint8_t)i;
    for (size_t i = members; i > 1; i--) {
        turn = (turn * 69u + call[3] + 1) % 65521u;
        size_t j = turn % i;
        uint8_t last = o.forth[i - 1];
        o.forth[i - 1] = o.forth[j];
        o.forth[j] = last;
    }
    for (size_t i = 0; i < members; i++)
        o.back[o.forth[i]] = (uint8_t)i;
    return o;
}

/* A state that is filled, and whether it still is. */
static uint64_t *filled_state(void)
{
    uint64_t *state = (uint64_t *)lent(NULL, STATE * sizeof *state);
    for (size_t i = 0; i < STATE; i++)
        state[i] = FILLED;
    return state;
}

static bool is_filled(const uint64_t *state, size_t from)
{
    for (size_t i = from; i < STATE; i++)
        if (state[i] != FILLED)
            return false;
    return true;
}

/* A list is refused by that number, and the second state is left. */
static void refused(struct memory m, const uint8_t *numbers, size_t length, size_t words, size_t wanted)
{
    uint8_t *list = (uint8_t *)lent(numbers, length);
    uint64_t *second = filled_state();
    HOLDS(cuckooormolu_raw_renumber(LENT(m), list, length, second, words) == wanted);
    HOLDS(is_filled(second, 0) && memcmp(list, numbers, length) == 0);
    free(second);
    free(list);
}

/* Lists that are too short, too long, or lack a number. */
static void refused_lists(struct memory m, struct order o, const uint8_t *call)
{
    uint8_t *list = (uint8_t *)lent(NULL, o.members + 1);
    memcpy(list, o.forth, o.members);
    list[o.members] = call[3];
    refused(m, list, o.members - 1, STATE, CUCKOOORMOLU_REFUSED_NUMBERS);
    refused(m, list, o.members + 1, STATE, CUCKOOORMOLU_REFUSED_NUMBERS);
    size_t at = call[1] % o.members;
    if (list[at] != call[2]) {
        list[at] = call[2];
        refused(m, list, o.members, STATE, CUCKOOORMOLU_REFUSED_NUMBERS);
    }
    free(list);
}

/* A member by the new number; what is no member stays. */
static size_t number(struct order o, size_t member)
{
    return member < o.members ? o.forth[member] : member;
}

/* The same memory with renumbered members: accepted, nothing beyond it touched,
 * and undone by the other list. */
static struct memory renumbered(struct memory m, struct order o)
{
    struct memory before = copied(m), after = copied(m);
    uint64_t *again = filled_state();
    memset(after.state, 0x5a, CUCKOOORMOLU_STATE_WORDS * sizeof *after.state);
    HOLDS(cuckooormolu_raw_renumber(LENT(m), o.forth, o.members, after.state, STATE) == CUCKOOORMOLU_DONE);
    HOLDS(same(before, m) && stays_beyond(after));
    HOLDS(cuckooormolu_raw_check(LENT(after)) == CUCKOOORMOLU_DONE);
    HOLDS(cuckooormolu_raw_renumber(LENT(after), o.back, o.members, again, STATE) == CUCKOOORMOLU_DONE);
    HOLDS(memcmp(again, m.state, CUCKOOORMOLU_STATE_WORDS * sizeof *again) == 0);
    HOLDS(is_filled(again, CUCKOOORMOLU_STATE_WORDS));
    for (size_t i = 0; i < CUCKOOORMOLU_STATE_WORDS; i++)
        if (after.state[i] != 0) {
            tell(i);
            tell(after.state[i]);
        }
    free(again);
    released(before);
    return after;
}

/* A request by the new numbers is answered as that by the old ones, and leaves
 * the same, renumbered. */
static void answered(struct memory m, struct order o, const uint8_t *call)
{
    struct memory first = copied(m), second = renumbered(m, o);
    size_t from = number(o, call[2]), to = number(o, call[3]);
    size_t code = cuckooormolu_raw_request(ALL_LENT(first), call[1], call[2], call[3]);
    HOLDS(cuckooormolu_raw_request(ALL_LENT(second), call[1], from, to) == code);
    struct memory later = renumbered(first, o);
    HOLDS(same_kept(later, second));
    tell(code);
    released(later);
    released(second);
    released(first);
}

void hold_renumbered(struct memory m, const uint8_t *call)
{
    size_t code = cuckooormolu_raw_check(LENT(m));
    struct order o = order_of(code == CUCKOOORMOLU_DONE ? m.terms[0] : 1u + call[3] % 64u, call);
    refused(m, o.forth, o.members, CUCKOOORMOLU_STATE_WORDS - 1, CUCKOOORMOLU_REFUSED_SHORT);
    if (code == CUCKOOORMOLU_DONE) {
        refused_lists(m, o, call);
        answered(m, o, call);
    } else {
        refused(m, o.forth, o.members, STATE, code);
    }
    free(o.back);
    free(o.forth);
}
