/*
 * Plans against a rival, and entries that are asked about: what is accepted,
 * rejected and refused, and what is left alone. It is compiled as C and as C++,
 * and prints nothing where all of it holds.
 */
#include "cuckooormolu.h"
#include "expect.h"

#include <string.h>

#define TERMS CUCKOOORMOLU_TERMS_WORDS
#define STATE CUCKOOORMOLU_STATE_WORDS
#define PLAN CUCKOOORMOLU_PLAN_WORDS
#define COUNTED(list) (list), sizeof(list) / sizeof *(list)

/* Event 0 takes a target that nobody has, event 1 does nothing, event 2 is never
 * granted and its denials are kept. Entry 5 says that one has the target, entry
 * 8 that one was denied event 2; entry 9 has variable 1. */
static const char taking[] =
    "M 3\nL 1 3\nF 0 top 0 0\nF 1 in 0 0\nF 2 not 1 0\nF 3 at 0 2\n"
    "F 4 var 0 0\nF 5 out 0 4\nF 6 not 0 0\nF 7 out 6 0\nF 8 since 0 7\n"
    "F 9 var 1 0\nP 0 3\nP 1 0\nP 2 6\nK 2\nE 0 add 0 fwd\n";

enum { TAKE, WAIT, TRY };
enum { HAS = 5, TRIED = 8, OF_VARIABLE_1 = 9 };

static struct cuckooormolu m;
static struct cuckooormolu_game game;

/* Reads a text whose tabs are written as spaces. */
static void read_in(const char *text)
{
    char tabs[512];
    size_t length = strlen(text);
    for (size_t i = 0; i < length; i++)
        tabs[i] = text[i] == ' ' ? '\t' : text[i];
    EXPECT(
        cuckooormolu_done(cuckooormolu_monitor_read(&m, tabs, length, NULL)));
}

/* What is said of a plan of member 0 against member 1; a verdict leaves the game
 * 0, a refusal as it was, and neither changes the monitor. */
static struct cuckooormolu_ruling planned(const struct cuckooormolu_move *moves,
                                          size_t count, size_t goal,
                                          size_t first, size_t second)
{
    static struct cuckooormolu before;
    static struct cuckooormolu_game left;
    memcpy(&before, &m, sizeof m);
    memset(&game, 7, sizeof game);
    const struct cuckooormolu_ruling ruling = cuckooormolu_monitor_plan(
        &m, &game, moves, count, 0, 1, goal, first, second);
    memset(&left, cuckooormolu_ruling_refusal(ruling) ? 7 : 0, sizeof left);
    EXPECT(memcmp(&before, &m, sizeof m) == 0);
    EXPECT(memcmp(&left, &game, sizeof game) == 0);
    return ruling;
}

static bool accepted(const struct cuckooormolu_move *moves, size_t count,
                     size_t goal)
{
    const struct cuckooormolu_ruling ruling = planned(moves, count, goal, 0, 2);
    EXPECT(cuckooormolu_accepted(ruling) != cuckooormolu_rejected(ruling));
    return cuckooormolu_accepted(ruling);
}

/* Whoever comes first has it: the rival takes it where the planner waits. */
static void verdicts(void)
{
    const struct cuckooormolu_move at_once[] = {{TAKE, 2}};
    const struct cuckooormolu_move late[] = {{WAIT, 0}, {TAKE, 2}};
    const struct cuckooormolu_move other[] = {{TAKE, 1}, {TAKE, 0}, {TAKE, 2}};
    const struct cuckooormolu_move denied[] = {{TRY, 2}};
    read_in(taking);
    EXPECT(accepted(COUNTED(at_once), HAS));
    EXPECT(!accepted(COUNTED(late), HAS));
    EXPECT(!accepted(COUNTED(other), HAS));
    EXPECT(cuckooormolu_accepted(planned(COUNTED(other), HAS, 0, 1)));
    EXPECT(cuckooormolu_rejected(planned(COUNTED(at_once), HAS, 2, 0)));
    EXPECT(accepted(COUNTED(denied), TRIED));
    EXPECT(accepted(COUNTED(late), cuckooormolu_monitor_policy(&m, WAIT)));
    EXPECT(!accepted(COUNTED(late), cuckooormolu_monitor_policy(&m, TRY)));
    EXPECT(cuckooormolu_granted(cuckooormolu_monitor_request(&m, TAKE, 1, 2)));
    EXPECT(!accepted(COUNTED(at_once), HAS));
}

static void policies(void)
{
    read_in(taking);
    EXPECT(cuckooormolu_monitor_policy(&m, TAKE) == 3);
    EXPECT(cuckooormolu_monitor_policy(&m, TRY) == 6);
    EXPECT(cuckooormolu_monitor_policy(&m, 3) == SIZE_MAX);
    EXPECT(cuckooormolu_monitor_policy(NULL, TAKE) == SIZE_MAX);
    m.terms[2] = UINT16_MAX;
    EXPECT(cuckooormolu_monitor_policy(&m, 16) == SIZE_MAX);
}

static void facts(void)
{
    read_in(taking);
    EXPECT(cuckooormolu_fails(cuckooormolu_monitor_tell(&m, HAS, 0, 2)));
    EXPECT(cuckooormolu_granted(cuckooormolu_monitor_request(&m, TAKE, 0, 2)));
    const struct cuckooormolu before = m;
    const struct cuckooormolu_fact has =
        cuckooormolu_monitor_tell(&m, HAS, 0, 2);
    EXPECT(cuckooormolu_holds(has) && !cuckooormolu_fails(has));
    EXPECT(cuckooormolu_fact_refusal(has) == 0);
    EXPECT(cuckooormolu_fails(cuckooormolu_monitor_tell(&m, HAS, 2, 0)));
    EXPECT(cuckooormolu_fact_refusal(cuckooormolu_monitor_tell(
               &m, OF_VARIABLE_1, 3, 0)) == CUCKOOORMOLU_REFUSED_PLAN);
    EXPECT(cuckooormolu_fact_refusal(cuckooormolu_monitor_tell(
               &m, SIZE_MAX, 0, 0)) == CUCKOOORMOLU_REFUSED_PLAN);
    EXPECT(cuckooormolu_fact_refusal(cuckooormolu_monitor_tell(
               &m, HAS, 3, 0)) == CUCKOOORMOLU_REFUSED_NAME);
    EXPECT(cuckooormolu_fact_refusal(cuckooormolu_monitor_tell(
               &m, HAS, 0, 3)) == CUCKOOORMOLU_REFUSED_NAME);
    EXPECT(memcmp(&before, &m, sizeof m) == 0);
    EXPECT(cuckooormolu_fact_refusal(cuckooormolu_monitor_tell(
               NULL, HAS, 0, 2)) == CUCKOOORMOLU_REFUSED_SHORT);
    m.state[STATE - 1] = UINT64_MAX;
    EXPECT(cuckooormolu_fact_refusal(cuckooormolu_monitor_tell(
               &m, SIZE_MAX, 3, 3)) == CUCKOOORMOLU_REFUSED_STATE);
    m.terms[0] = 0;
    EXPECT(cuckooormolu_fact_refusal(cuckooormolu_monitor_tell(
               &m, SIZE_MAX, 3, 3)) == CUCKOOORMOLU_REFUSED_TERMS);
}

/* The number by which a plan of numbers is refused, over a scratch that is so
 * many words shorter. */
static size_t refused(size_t less, const uint64_t *plan, size_t length,
                      size_t planner, size_t rival, size_t goal, size_t first)
{
    static struct cuckooormolu_game before;
    const struct cuckooormolu monitor = m;
    memset(&game, 7, sizeof game);
    memcpy(&before, &game, sizeof game);
    const struct cuckooormolu_ruling ruling = cuckooormolu_plan(
        m.terms, TERMS, m.state, STATE, game.words, PLAN - less, plan, length,
        planner, rival, goal, first, 2);
    EXPECT(!cuckooormolu_accepted(ruling) && !cuckooormolu_rejected(ruling));
    EXPECT(memcmp(&monitor, &m, sizeof m) == 0);
    EXPECT(memcmp(&before, &game, sizeof game) == 0);
    return cuckooormolu_ruling_refusal(ruling);
}

/* Every check hides those after it, and what is refused changes nothing. */
static void refusals(void)
{
    const uint64_t no_event[] = {WAIT, 0, 3, 2};
    const uint64_t no_target[] = {WAIT, 0, WAIT, 3};
    const uint64_t plan[8] = {TAKE, 2, WAIT, 0, WAIT, 0, WAIT, 0};
    read_in(taking);
    EXPECT(refused(0, no_event, 4, 0, 1, HAS, 0) == 9);
    EXPECT(refused(0, no_target, 4, 0, 1, HAS, 0) == 9);
    EXPECT(refused(0, plan, 2, 3, 1, HAS, 0) == 9);
    EXPECT(refused(0, plan, 2, 0, 3, HAS, 0) == 9);
    EXPECT(refused(0, plan, 2, 0, 1, HAS, 3) == 9);
    EXPECT(refused(0, no_event, 4, 3, 3, HAS, 0) == 14);
    EXPECT(refused(0, no_event, 4, 3, 1, OF_VARIABLE_1, 0) == 14);
    EXPECT(refused(0, no_event, 4, 3, 1, OF_VARIABLE_1 + 1, 0) == 14);
    for (size_t length = 0; length <= 8; length++)
        if (length != 2 && length != 4 && length != 6)
            EXPECT(refused(0, plan, length, 0, 3, HAS, 0) == 14);
    EXPECT(refused(0, NULL, 2, 0, 1, HAS, 0) == 14);
    m.state[STATE - 1] = UINT64_MAX;
    EXPECT(refused(0, plan, 0, 0, 0, HAS, 3) == 8);
    m.terms[0] = 0;
    EXPECT(refused(0, plan, 0, 0, 0, HAS, 3) == 7);
    EXPECT(refused(1, plan, 0, 0, 0, HAS, 3) == 6);
    EXPECT(refused(PLAN, plan, 0, 0, 0, HAS, 3) == 6);
}

/* A game has at most 8 members and 4 events. */
static void sizes(void)
{
    const uint64_t plan[] = {0, 0};
    read_in("M 9\nL 0 1\nF 0 top 0 0\nP 0 0\n");
    EXPECT(refused(0, plan, 2, 0, 1, 0, 0) == 14);
    read_in("M 8\nL 0 5\nF 0 top 0 0\nP 0 0\nP 1 0\nP 2 0\nP 3 0\nP 4 0\n");
    EXPECT(refused(0, plan, 2, 0, 1, 0, 0) == 14);
    read_in("M 8\nL 0 4\nF 0 top 0 0\nP 0 0\nP 1 0\nP 2 0\nP 3 0\n");
    const struct cuckooormolu_move move = {3, 7};
    EXPECT(accepted(&move, 1, 0));
}

/* A null pointer is an empty memory, and too many moves are no plan. */
static void nulls(void)
{
    const struct cuckooormolu_move moves[] = {
        {WAIT, 0}, {WAIT, 0}, {WAIT, 0}, {WAIT, 0}};
    read_in(taking);
    EXPECT(cuckooormolu_ruling_refusal(cuckooormolu_monitor_plan(
               NULL, &game, moves, 1, 0, 1, HAS, 0, 2)) == 6);
    EXPECT(cuckooormolu_ruling_refusal(cuckooormolu_monitor_plan(
               &m, NULL, moves, 1, 0, 1, HAS, 0, 2)) == 6);
    EXPECT(cuckooormolu_ruling_refusal(planned(NULL, 1, HAS, 0, 2)) == 14);
    EXPECT(cuckooormolu_ruling_refusal(planned(moves, 0, HAS, 0, 2)) == 14);
    EXPECT(cuckooormolu_ruling_refusal(planned(moves, 4, HAS, 0, 2)) == 14);
    EXPECT(cuckooormolu_ruling_refusal(
               planned(moves, SIZE_MAX / 2 + 2, HAS, 0, 2)) == 14);
}

/* A scratch that overlaps what is read is refused; words beyond the named ones
 * are no memory of the call. */
static void memories(void)
{
    static uint64_t room[PLAN + STATE];
    const uint64_t plan[] = {TAKE, 2};
    read_in(taking);
    memcpy(room + PLAN, m.state, sizeof m.state);
    EXPECT(cuckooormolu_ruling_refusal(cuckooormolu_plan(
               m.terms, TERMS, room + PLAN, STATE, room, PLAN + 1, plan, 2, 0,
               1, HAS, 0, 2)) == 6);
    EXPECT(cuckooormolu_ruling_refusal(cuckooormolu_plan(
               m.terms, TERMS, room, STATE, room, PLAN, plan, 2, 0, 1, HAS, 0,
               2)) == 6);
    EXPECT(cuckooormolu_ruling_refusal(cuckooormolu_plan(
               (const uint16_t *)room, TERMS, m.state, STATE, room, PLAN, plan,
               2, 0, 1, HAS, 0, 2)) == 6);
    EXPECT(memcmp(room + PLAN, m.state, sizeof m.state) == 0);
    memset(room, 7, sizeof room);
    EXPECT(cuckooormolu_accepted(
        cuckooormolu_plan(m.terms, TERMS, m.state, STATE, room, PLAN + STATE,
                          plan, 2, 0, 1, HAS, 0, 2)));
    EXPECT(room[0] == 0 && room[PLAN - 1] == 0);
    EXPECT(room[PLAN] == 0x0707070707070707);
}

int main(void)
{
    verdicts();
    policies();
    facts();
    refusals();
    sizes();
    nulls();
    memories();
    return failed;
}
