/*
 * The sharing-terms reference monitor, over memory that the host lends.
 *
 * Machine   the archive is machine code for x86-64 Linux. cuckooormolu.c, which
 *           `./amalgamate` writes with a header of its own, is for any machine.
 * RAM       terms 2,504 bytes, state 24,584 bytes, scratch 512 bytes; two
 *           banks 44,504 bytes in all; a plan is lent 74,264 bytes. The library
 *           allocates nothing and has no state of its own.
 * Stack     measured, not proved: look, request, set list, plan, opening and a
 *           revision take 9 KiB, writing a terms text or asking for its size
 *           30 KiB, and each 0.85 KiB more for every level by which entries
 *           nest; reading takes what opening does, and 33 KiB at least; of two
 *           banks it takes 25 KiB more, any other call 3 KiB at most. Where the
 *           terms need a memo (bindings/README.md, Stack), each takes 267 KiB
 *           more, at most 512 KiB with the archive. Renumbering takes 18 KiB,
 *           storing and the other calls 4 KiB. Provide
 *           CUCKOOORMOLU_STACK_BYTES, or what cuckooormolu_stack tells of your
 *           terms.
 * Time      measured, not proved. Entries that share others take no more than
 *           a memo's time, and entries that read one variable N times that, N
 *           the members. What can still take long is three variables or more
 *           that are bound anew in turn, where every level reads all of them:
 *           N times as long with each level. Opening, a revision, and reading or
 *           writing a terms file may take as long as a request; reading a
 *           stored text and storing do not decide anything. cuckooormolu_effort
 *           says how much work a request by given terms may take. A host that
 *           takes untrusted terms refuses those above a bound of its own, before
 *           they are opened: cuckooormolu_monitor_read_terms_within does so. It
 *           does not bound the stack, so such a host needs all of it.
 * Texts     are of two forms. The old form is a terms file, which has terms and
 *           relations and is read as a fresh start. The stored form begins with
 *           a line S 2 and has a whole state, from which it goes on.
 * Kept      terms and state are plain words: they may be copied, kept and
 *           lent again. In a file they have the machine's byte order,
 *           little-endian on x86-64. Scratch need not be kept. A stored text
 *           keeps the same for any machine, and for people.
 * Threads   calls over distinct memory may run at the same time; calls over
 *           the same memory must not, unless none of them may write it. Each
 *           struct cuckooormolu has a scratch of its own, so that two of them
 *           share nothing. Two banks share memory: a call of either is over
 *           that of both.
 *
 * Link target/staticlib/libcuckooormolu.a, which `./archive` writes, or compile
 * cuckooormolu.c. They need nothing but memcpy and memset, and as compilers
 * compile the C file memmove.
 *
 *     static struct cuckooormolu m;
 *     size_t line;
 *     if (!cuckooormolu_done(cuckooormolu_monitor_read(&m, text, length, &line)))
 *         complain(line);
 *     if (cuckooormolu_granted(cuckooormolu_monitor_request(&m, event, from, to)))
 *         load();
 */
#ifndef CUCKOOORMOLU_H
#define CUCKOOORMOLU_H

#include <stdbool.h>
#include <stddef.h>
#include <stdint.h>

#if !defined(__x86_64__) && !defined(CUCKOOORMOLU_AMALGAMATION)
#error "the monitor's archive is for x86-64 only; ./amalgamate writes it in C"
#endif

#ifdef __cplusplus
extern "C" {
#define CUCKOOORMOLU_ASSERT static_assert
#else
#define CUCKOOORMOLU_ASSERT _Static_assert
#endif

/* A result that is not looked at is a mistake. */
#ifdef __GNUC__
#define CUCKOOORMOLU_USED __attribute__((warn_unused_result))
#else
#define CUCKOOORMOLU_USED
#endif

/* Unused sections are left out of a program, but not this one. A memory that is
 * shorter than the count beside it says is a mistake, which gcc finds where it
 * knows both: the places of pointer and count follow. */
#if defined(__has_attribute)
#if __has_attribute(retain)
#define CUCKOOORMOLU_RETAINED __attribute__((retain))
#endif
#if __has_attribute(access)
#define CUCKOOORMOLU_READS(memory, count) \
    __attribute__((access(read_only, memory, count)))
#define CUCKOOORMOLU_WRITES(memory, count) \
    __attribute__((access(write_only, memory, count)))
#define CUCKOOORMOLU_CHANGES(memory, count) \
    __attribute__((access(read_write, memory, count)))
#endif
#endif
#ifndef CUCKOOORMOLU_RETAINED
#define CUCKOOORMOLU_RETAINED
#endif
#ifndef CUCKOOORMOLU_READS
#define CUCKOOORMOLU_READS(memory, count)
#define CUCKOOORMOLU_WRITES(memory, count)
#define CUCKOOORMOLU_CHANGES(memory, count)
#endif

#define CUCKOOORMOLU_VERSION_MAJOR 0
#define CUCKOOORMOLU_VERSION_MINOR 15
#define CUCKOOORMOLU_VERSION_PATCH 0
#define CUCKOOORMOLU_VERSION "0.15.0"

/* The named words of each memory. A bank's state is the relations, which two
 * banks share, and then its own words. */
#define CUCKOOORMOLU_TERMS_WORDS 1252
#define CUCKOOORMOLU_STATE_WORDS 3073
#define CUCKOOORMOLU_RELATION_WORDS 1024
#define CUCKOOORMOLU_OWN_WORDS 2049
#define CUCKOOORMOLU_SCRATCH_WORDS 64

/* The named words of the scratch that a plan is lent. */
#define CUCKOOORMOLU_PLAN_WORDS 9283

/* No text of the old form, a terms file, that is written is longer than this
 * many bytes, and none of the stored form. */
#define CUCKOOORMOLU_TEXT_BYTES 728109
#define CUCKOOORMOLU_STORED_BYTES 2169916

/* More stack than any call was measured to take: with the archive, or with the
 * C file as compilers compile it. */
#ifdef CUCKOOORMOLU_AMALGAMATION
#define CUCKOOORMOLU_STACK_BYTES (1280 * 1024)
#else
#define CUCKOOORMOLU_STACK_BYTES (512 * 1024)
#endif

/*
 * The codes of calls. No code is 0, and a refusal's is below 100; granted and
 * denied differ in five bits. Refusals leave all memory unchanged, with two
 * exceptions: a refused set list clears its answers, and a failed read_within
 * leaves the monitor without terms. Where several fit, reading gives 6, then the
 * first faulty line and in it the lowest number, and 11 only where no line is
 * faulty; the other calls give 6 (terms, state, scratch), 7, 8, 9, 12, 13 or 15,
 * and last 6 for the output; a plan and a telling give 14 after 8 and before 9.
 */
typedef enum cuckooormolu_code {
    /* The form of a line, its place, or a text that ends too soon. A length that
     * is one too long, as with the 0 after a string, has a line too many, which
     * is refused by this number. */
    CUCKOOORMOLU_REFUSED_FORM = 1,
    /* A number out of its range, or too many of something. */
    CUCKOOORMOLU_REFUSED_RANGE = 2,
    /* An operand that is not lower than its entry. */
    CUCKOOORMOLU_REFUSED_OPERAND = 3,
    /* A prev or since with three or more free variables, or with two where
     * there are more than 16 members. */
    CUCKOOORMOLU_REFUSED_PAST = 4,
    /* A policy with a free variable other than 0. */
    CUCKOOORMOLU_REFUSED_POLICY = 5,
    /* A memory shorter than named, a null one too, or an output too short for
     * the text, or memory that overlaps other memory which the call may write. */
    CUCKOOORMOLU_REFUSED_SHORT = 6,
    /* Terms memory that no accepted text yields: zeroed, never read into, or
     * damaged. */
    CUCKOOORMOLU_REFUSED_TERMS = 7,
    /* A state that breaks the layout. */
    CUCKOOORMOLU_REFUSED_STATE = 8,
    /* An event or a member that does not exist. */
    CUCKOOORMOLU_REFUSED_NAME = 9,
    /* A reach whose variable is 0, whose first formula has another free
     * variable, or whose second has that variable free. */
    CUCKOOORMOLU_REFUSED_REACH = 10,
    /* A stored text with a partly filled word in a table without a free
     * variable. */
    CUCKOOORMOLU_REFUSED_TABLE = 11,
    /* The old form is to be written of a state with a history. */
    CUCKOOORMOLU_REFUSED_FRESH = 12,
    /* New terms with another number of members, relations or events. */
    CUCKOOORMOLU_REFUSED_SIZE = 13,
    /* A plan where there are more than 8 members or 4 events, one that is not 1
     * to 3 requests long, or whose planner is the rival; and an entry, a plan's
     * goal too, that does not exist or has a free variable other than 0. */
    CUCKOOORMOLU_REFUSED_PLAN = 14,
    /* A list of members' new numbers that is not as long as there are members,
     * or that lacks one of their numbers. */
    CUCKOOORMOLU_REFUSED_NUMBERS = 15,
    /* A reading, writing, check, opening, revision, renumbering or set list that
     * is done. */
    CUCKOOORMOLU_DONE = 100,
    /* A look or request whose policy does not hold. */
    CUCKOOORMOLU_DENIED = 200,
    /* A look or request whose policy holds. */
    CUCKOOORMOLU_GRANTED = 300,
    /* A plan that the rival can keep from its goal. */
    CUCKOOORMOLU_REJECTED = 400,
    /* A plan that reaches its goal, whatever the rival does. */
    CUCKOOORMOLU_ACCEPTED = 500,
    /* An entry that does not hold. */
    CUCKOOORMOLU_FAILS = 600,
    /* An entry that holds. */
    CUCKOOORMOLU_HOLDS = 700,
    /* Terms by which a request may take more than the host allows, so that they
     * were not opened. Only cuckooormolu_monitor_read_within gives it. */
    CUCKOOORMOLU_COSTLY = 800
} cuckooormolu_code;

/* What a call returns: its code in a struct, so that no call can be tested as
 * a truth value by mistake. Hosts look at it by the functions below, and do not
 * name its field. */
struct cuckooormolu_result {
    size_t cuckooormolu_private;
};

/* The result that a code of the archive's own functions stands for. */
static inline struct cuckooormolu_result cuckooormolu_result_of(size_t code)
{
    struct cuckooormolu_result result = {code};
    return result;
}

/* What is said of a plan, and of an entry that is asked about. They are structs
 * of their own, since neither permits anything: only a request does. */
struct cuckooormolu_ruling {
    size_t cuckooormolu_private;
};

struct cuckooormolu_fact {
    size_t cuckooormolu_private;
};

static inline struct cuckooormolu_ruling cuckooormolu_ruling_of(size_t code)
{
    struct cuckooormolu_ruling ruling = {code};
    return ruling;
}

static inline struct cuckooormolu_fact cuckooormolu_fact_of(size_t code)
{
    struct cuckooormolu_fact fact = {code};
    return fact;
}

/* All the memory of a monitor. Where it is zeroed, or was never read into,
 * every request is refused. */
struct cuckooormolu {
    uint16_t terms[CUCKOOORMOLU_TERMS_WORDS];
    uint64_t state[CUCKOOORMOLU_STATE_WORDS];
    uint64_t scratch[CUCKOOORMOLU_SCRATCH_WORDS];
};

/* All the memory of two banks over one circle. Where it is zeroed, or was never
 * read into, every request is refused. */
struct cuckooormolu_banks {
    uint16_t terms[CUCKOOORMOLU_TERMS_WORDS];
    uint64_t relations[CUCKOOORMOLU_RELATION_WORDS];
    uint64_t left[CUCKOOORMOLU_OWN_WORDS];
    uint64_t right[CUCKOOORMOLU_OWN_WORDS];
    uint64_t left_scratch[CUCKOOORMOLU_SCRATCH_WORDS];
    uint64_t right_scratch[CUCKOOORMOLU_SCRATCH_WORDS];
};

/* The memory of the game that decides a plan. It need not be kept. */
struct cuckooormolu_game {
    uint64_t words[CUCKOOORMOLU_PLAN_WORDS];
};

/* A request of a plan; the planner is its initiator. */
struct cuckooormolu_move {
    uint64_t event;
    uint64_t to;
};

/* The three numbers of a request, each of a type of its own, so that no two can
 * be confused. */
struct cuckooormolu_event_number {
    size_t cuckooormolu_private;
};

struct cuckooormolu_from_number {
    size_t cuckooormolu_private;
};

struct cuckooormolu_to_number {
    size_t cuckooormolu_private;
};

static inline struct cuckooormolu_event_number cuckooormolu_event(size_t event)
{
    struct cuckooormolu_event_number number = {event};
    return number;
}

static inline struct cuckooormolu_from_number cuckooormolu_from(size_t member)
{
    struct cuckooormolu_from_number number = {member};
    return number;
}

static inline struct cuckooormolu_to_number cuckooormolu_to(size_t member)
{
    struct cuckooormolu_to_number number = {member};
    return number;
}

/* The number that a set list writes as the answer of a record. It is no code of
 * a call. */
enum cuckooormolu_answer_number {
    CUCKOOORMOLU_ANSWER_DENY = 0,
    CUCKOOORMOLU_ANSWER_GRANT = 1,
    /* An event or a member that does not exist. */
    CUCKOOORMOLU_ANSWER_REFUSED = 9
};

/* The number of no answer. */
#define CUCKOOORMOLU_UNANSWERED UINT32_MAX

/* The answer of a record, in a struct as a result is: a refusal's number would
 * be true, too. */
struct cuckooormolu_answer {
    uint32_t cuckooormolu_private;
};

/*
 * A record of a set list: a request, and its answer, which the call fills in,
 * whatever it was.
 */
struct cuckooormolu_record {
    uint32_t event;
    uint32_t from;
    uint32_t to;
    struct cuckooormolu_answer answer;
};

/* A record that is not answered yet. */
static inline struct cuckooormolu_record
cuckooormolu_record_of(uint32_t event, uint32_t from, uint32_t to)
{
    struct cuckooormolu_record record = {
        event, from, to, {CUCKOOORMOLU_UNANSWERED}};
    return record;
}

CUCKOOORMOLU_ASSERT(sizeof(struct cuckooormolu_record) == 16,
                    "a record has 16 bytes");
CUCKOOORMOLU_ASSERT(offsetof(struct cuckooormolu_record, event) == 0,
                    "a record begins with its event");
CUCKOOORMOLU_ASSERT(offsetof(struct cuckooormolu_record, from) == 4,
                    "then comes its initiator");
CUCKOOORMOLU_ASSERT(offsetof(struct cuckooormolu_record, to) == 8,
                    "then its target");
CUCKOOORMOLU_ASSERT(offsetof(struct cuckooormolu_record, answer) == 12,
                    "and last its answer");
#ifdef CUCKOOORMOLU_AMALGAMATION
CUCKOOORMOLU_ASSERT(sizeof(size_t) >= 4, "lengths have 32 bits or more");
#else
CUCKOOORMOLU_ASSERT(sizeof(size_t) == 8, "lengths and codes have 64 bits");
#endif
CUCKOOORMOLU_ASSERT(sizeof(struct cuckooormolu) == 2504 + 24584 + 512,
                    "no padding between the memories");
CUCKOOORMOLU_ASSERT(sizeof(struct cuckooormolu_banks) ==
                        2504 + 8192 + 2 * 16392 + 2 * 512,
                    "nor between those of banks");
CUCKOOORMOLU_ASSERT(CUCKOOORMOLU_RELATION_WORDS + CUCKOOORMOLU_OWN_WORDS ==
                        CUCKOOORMOLU_STATE_WORDS,
                    "relations and own words are a state");
CUCKOOORMOLU_ASSERT(sizeof(struct cuckooormolu_game) == 74264,
                    "a game has 9,283 words");
CUCKOOORMOLU_ASSERT(sizeof(struct cuckooormolu_move) == 16 &&
                        offsetof(struct cuckooormolu_move, event) == 0,
                    "a move is two numbers, its event first");
CUCKOOORMOLU_ASSERT(CUCKOOORMOLU_REFUSED_FORM > 0, "no code is 0");
CUCKOOORMOLU_ASSERT(CUCKOOORMOLU_REFUSED_NUMBERS < 100,
                    "refusals are below 100");
CUCKOOORMOLU_ASSERT(CUCKOOORMOLU_DONE >= 100, "done is no refusal");
CUCKOOORMOLU_ASSERT(CUCKOOORMOLU_DENIED > CUCKOOORMOLU_DONE,
                    "denied is neither a refusal nor done");
CUCKOOORMOLU_ASSERT(CUCKOOORMOLU_GRANTED > CUCKOOORMOLU_DENIED,
                    "granted is no other code");
CUCKOOORMOLU_ASSERT(CUCKOOORMOLU_REJECTED > CUCKOOORMOLU_GRANTED &&
                        CUCKOOORMOLU_ACCEPTED > CUCKOOORMOLU_REJECTED,
                    "the codes of a plan are no codes of a request");
CUCKOOORMOLU_ASSERT(CUCKOOORMOLU_FAILS > CUCKOOORMOLU_ACCEPTED &&
                        CUCKOOORMOLU_HOLDS > CUCKOOORMOLU_FAILS,
                    "nor are those of an entry");
CUCKOOORMOLU_ASSERT(CUCKOOORMOLU_COSTLY > CUCKOOORMOLU_HOLDS,
                    "nor is that of costly terms");

CUCKOOORMOLU_USED static inline bool
cuckooormolu_granted(struct cuckooormolu_result result)
{
    return result.cuckooormolu_private == CUCKOOORMOLU_GRANTED;
}

/* False where a call was granted, and where it was refused: only
 * cuckooormolu_granted says that it was granted. */
CUCKOOORMOLU_USED static inline bool
cuckooormolu_denied(struct cuckooormolu_result result)
{
    return result.cuckooormolu_private == CUCKOOORMOLU_DENIED;
}

CUCKOOORMOLU_USED static inline bool
cuckooormolu_done(struct cuckooormolu_result result)
{
    return result.cuckooormolu_private == CUCKOOORMOLU_DONE;
}

/* The terms were not opened, since a request by them may take more than the host
 * allows: neither done nor refused. */
CUCKOOORMOLU_USED static inline bool
cuckooormolu_costly(struct cuckooormolu_result result)
{
    return result.cuckooormolu_private == CUCKOOORMOLU_COSTLY;
}

/* The number by which a call was refused; 0 where it was not, which does not
 * say that it was granted. */
CUCKOOORMOLU_USED static inline size_t
cuckooormolu_refusal(struct cuckooormolu_result result)
{
    size_t code = result.cuckooormolu_private;
    return code < CUCKOOORMOLU_DONE ? code : 0;
}

/* The plan reaches its goal, whatever the rival does. It is no grant: each of
 * its requests is still to be made. */
CUCKOOORMOLU_USED static inline bool
cuckooormolu_accepted(struct cuckooormolu_ruling ruling)
{
    return ruling.cuckooormolu_private == CUCKOOORMOLU_ACCEPTED;
}

/* False where the plan was accepted, and where it was refused. */
CUCKOOORMOLU_USED static inline bool
cuckooormolu_rejected(struct cuckooormolu_ruling ruling)
{
    return ruling.cuckooormolu_private == CUCKOOORMOLU_REJECTED;
}

/* The number by which a plan was refused; 0 where it was not, which does not
 * say that it was accepted. */
CUCKOOORMOLU_USED static inline size_t
cuckooormolu_ruling_refusal(struct cuckooormolu_ruling ruling)
{
    return cuckooormolu_refusal(
        cuckooormolu_result_of(ruling.cuckooormolu_private));
}

CUCKOOORMOLU_USED static inline bool
cuckooormolu_holds(struct cuckooormolu_fact fact)
{
    return fact.cuckooormolu_private == CUCKOOORMOLU_HOLDS;
}

/* False where the entry holds, and where it could not be asked. */
CUCKOOORMOLU_USED static inline bool
cuckooormolu_fails(struct cuckooormolu_fact fact)
{
    return fact.cuckooormolu_private == CUCKOOORMOLU_FAILS;
}

/* The number by which an entry could not be asked; 0 where it could, which does
 * not say that it holds. */
CUCKOOORMOLU_USED static inline size_t
cuckooormolu_fact_refusal(struct cuckooormolu_fact fact)
{
    return cuckooormolu_refusal(
        cuckooormolu_result_of(fact.cuckooormolu_private));
}

/* A result in words. */
static inline const char *cuckooormolu_words(struct cuckooormolu_result result)
{
    switch (result.cuckooormolu_private) {
    case CUCKOOORMOLU_REFUSED_FORM:
        return "unknown kind or word, line out of its order, wrong count of "
               "fields, ill-formed number, no last line feed, or the text "
               "ends too soon; `cuckooormolu check FILE` says which; or a "
               "stored text where a terms file only is taken, as by two banks";
    case CUCKOOORMOLU_REFUSED_RANGE:
        return "number out of its range, non-zero unused field, more than 32 "
               "past-time entries, more than 4 effects, or a label or entry "
               "that doesn't exist; `cuckooormolu check FILE` says which";
    case CUCKOOORMOLU_REFUSED_OPERAND:
        return "operand not lower than its entry";
    case CUCKOOORMOLU_REFUSED_PAST:
        return "prev or since with three or more free variables, or with two "
               "and more than 16 members";
    case CUCKOOORMOLU_REFUSED_POLICY:
        return "policy with a free variable other than 0";
    case CUCKOOORMOLU_REFUSED_SHORT:
        return "memory shorter than its named words, or output too short for "
               "the text, whose size can be asked first; or memory that "
               "overlaps other memory, or a null pointer: each memory of a "
               "call is one of its own";
    case CUCKOOORMOLU_REFUSED_TERMS:
        return "no terms have been read into this monitor, or they were "
               "damaged: read them again";
    case CUCKOOORMOLU_REFUSED_STATE:
        return "state that is not one of these terms, or was damaged: go on "
               "from terms and state that were kept together";
    case CUCKOOORMOLU_REFUSED_NAME:
        return "no such event or member";
    case CUCKOOORMOLU_REFUSED_REACH:
        return "reach whose variable is 0, whose first formula has another "
               "free variable, or whose second has that variable free";
    case CUCKOOORMOLU_REFUSED_TABLE:
        return "partly filled word in a table without a free variable";
    case CUCKOOORMOLU_REFUSED_FRESH:
        return "the monitor has a history, which a terms file cannot hold: "
               "use store";
    case CUCKOOORMOLU_REFUSED_SIZE:
        return "new terms with another number of members, relations or events";
    case CUCKOOORMOLU_REFUSED_PLAN:
        return "plan where there are more than 8 members or 4 events, of no or "
               "more than 3 requests, or whose planner is the rival; or an "
               "entry that doesn't exist or has a free variable other than 0";
    case CUCKOOORMOLU_REFUSED_NUMBERS:
        return "list of new numbers that is not as long as there are members, "
               "or that lacks one of their numbers";
    case CUCKOOORMOLU_DONE:
        return "done";
    case CUCKOOORMOLU_DENIED:
        return "denied";
    case CUCKOOORMOLU_GRANTED:
        return "granted";
    case CUCKOOORMOLU_REJECTED:
        return "rejected";
    case CUCKOOORMOLU_ACCEPTED:
        return "accepted";
    case CUCKOOORMOLU_FAILS:
        return "does not hold";
    case CUCKOOORMOLU_HOLDS:
        return "holds";
    case CUCKOOORMOLU_COSTLY:
        return "terms by which a request may take more than is allowed";
    default:
        return "not a code of the monitor";
    }
}

/* What is said of a plan, in words. */
static inline const char *
cuckooormolu_ruling_words(struct cuckooormolu_ruling ruling)
{
    return cuckooormolu_words(
        cuckooormolu_result_of(ruling.cuckooormolu_private));
}

/* What is said of an entry, in words. */
static inline const char *
cuckooormolu_fact_words(struct cuckooormolu_fact fact)
{
    return cuckooormolu_words(
        cuckooormolu_result_of(fact.cuckooormolu_private));
}

CUCKOOORMOLU_USED static inline bool
cuckooormolu_answer_granted(struct cuckooormolu_answer answer)
{
    return answer.cuckooormolu_private == CUCKOOORMOLU_ANSWER_GRANT;
}

CUCKOOORMOLU_USED static inline bool
cuckooormolu_answer_denied(struct cuckooormolu_answer answer)
{
    return answer.cuckooormolu_private == CUCKOOORMOLU_ANSWER_DENY;
}

CUCKOOORMOLU_USED static inline bool
cuckooormolu_answer_refused(struct cuckooormolu_answer answer)
{
    return answer.cuckooormolu_private == CUCKOOORMOLU_ANSWER_REFUSED;
}

/* The answer of a record in words. */
static inline const char *
cuckooormolu_answer_words(struct cuckooormolu_answer answer)
{
    switch (answer.cuckooormolu_private) {
    case CUCKOOORMOLU_ANSWER_DENY:
        return "denied";
    case CUCKOOORMOLU_ANSWER_GRANT:
        return "granted";
    case CUCKOOORMOLU_ANSWER_REFUSED:
        return "no such event or member";
    default:
        return "not answered";
    }
}

/*
 * Two threads must not share a scratch, nor any memory that a call may write:
 * nothing notices, and the state is silently wrong.
 *
 * The archive's own functions, for other languages. They return a code. What
 * they do stands at the functions of the same names below; but here no pointer
 * may be null, not even where its length is 0, and memory that a call may write,
 * the number behind the last pointer too, must not overlap any other.
 */
size_t cuckooormolu_raw_version_0_15_0(void);
size_t cuckooormolu_raw_read(const uint8_t *text, size_t text_length,
                             uint16_t *terms, size_t terms_length,
                             uint64_t *state, size_t state_length,
                             size_t *line);
size_t cuckooormolu_raw_size(const uint16_t *terms, size_t terms_length,
                             const uint64_t *state, size_t state_length,
                             size_t *count);
size_t cuckooormolu_raw_write(const uint16_t *terms, size_t terms_length,
                              const uint64_t *state, size_t state_length,
                              uint8_t *output, size_t output_length,
                              size_t *count);
size_t cuckooormolu_raw_store_size(const uint16_t *terms, size_t terms_length,
                                   const uint64_t *state, size_t state_length,
                                   size_t *count);
size_t cuckooormolu_raw_store(const uint16_t *terms, size_t terms_length,
                              const uint64_t *state, size_t state_length,
                              uint8_t *output, size_t output_length,
                              size_t *count);
size_t cuckooormolu_raw_check(const uint16_t *terms, size_t terms_length,
                              const uint64_t *state, size_t state_length);
size_t cuckooormolu_raw_open(const uint16_t *terms, size_t terms_length,
                             uint64_t *state, size_t state_length);
size_t cuckooormolu_raw_revise(const uint16_t *old_terms,
                               size_t old_terms_length,
                               const uint64_t *old_state,
                               size_t old_state_length,
                               const uint16_t *new_terms,
                               size_t new_terms_length,
                               uint64_t *state, size_t state_length);
size_t cuckooormolu_raw_renumber(const uint16_t *terms, size_t terms_length,
                                 const uint64_t *state, size_t state_length,
                                 const uint8_t *numbers, size_t numbers_length,
                                 uint64_t *second, size_t second_length);
size_t cuckooormolu_raw_effort(const uint16_t *terms, size_t terms_length);
size_t cuckooormolu_raw_look(const uint16_t *terms, size_t terms_length,
                             const uint64_t *state, size_t state_length,
                             const uint64_t *scratch, size_t scratch_length,
                             size_t event, size_t from, size_t to);
size_t cuckooormolu_raw_request(const uint16_t *terms, size_t terms_length,
                                uint64_t *state, size_t state_length,
                                uint64_t *scratch, size_t scratch_length,
                                size_t event, size_t from, size_t to);
size_t cuckooormolu_raw_set_list(const uint16_t *terms, size_t terms_length,
                                 uint64_t *state, size_t state_length,
                                 uint64_t *scratch, size_t scratch_length,
                                 struct cuckooormolu_record *records,
                                 size_t records_length, size_t *count);
size_t cuckooormolu_raw_plan(const uint16_t *terms, size_t terms_length,
                             const uint64_t *state, size_t state_length,
                             uint64_t *scratch, size_t scratch_length,
                             const uint64_t *plan, size_t plan_length,
                             size_t planner, size_t rival, size_t goal,
                             size_t first, size_t second);
size_t cuckooormolu_raw_tell(const uint16_t *terms, size_t terms_length,
                             const uint64_t *state, size_t state_length,
                             size_t entry, size_t first, size_t second);
size_t cuckooormolu_raw_banks_read(const uint8_t *text, size_t text_length,
                                   uint16_t *terms, size_t terms_length,
                                   uint64_t *relations,
                                   size_t relations_length,
                                   uint64_t *own, size_t own_length,
                                   uint64_t *other, size_t other_length,
                                   size_t *line);
size_t cuckooormolu_raw_banks_open(const uint16_t *terms, size_t terms_length,
                                   const uint64_t *relations,
                                   size_t relations_length,
                                   uint64_t *own, size_t own_length,
                                   uint64_t *other, size_t other_length);
size_t cuckooormolu_raw_banks_revise(
    const uint16_t *old_terms, size_t old_terms_length,
    const uint64_t *old_relations, size_t old_relations_length,
    const uint64_t *old_own, size_t old_own_length,
    const uint64_t *old_other, size_t old_other_length,
    const uint16_t *new_terms, size_t new_terms_length,
    uint64_t *relations, size_t relations_length,
    uint64_t *own, size_t own_length, uint64_t *other, size_t other_length);
size_t cuckooormolu_raw_banks_look(
    const uint16_t *terms, size_t terms_length,
    const uint64_t *relations, size_t relations_length,
    const uint64_t *own, size_t own_length,
    const uint64_t *other, size_t other_length,
    const uint64_t *scratch, size_t scratch_length,
    const uint64_t *spare, size_t spare_length,
    size_t event, size_t from, size_t to);
size_t cuckooormolu_raw_banks_request(
    const uint16_t *terms, size_t terms_length,
    uint64_t *relations, size_t relations_length,
    uint64_t *own, size_t own_length, uint64_t *other, size_t other_length,
    uint64_t *scratch, size_t scratch_length,
    uint64_t *spare, size_t spare_length,
    size_t event, size_t from, size_t to);
size_t cuckooormolu_raw_banks_set_list(
    const uint16_t *terms, size_t terms_length,
    uint64_t *relations, size_t relations_length,
    uint64_t *own, size_t own_length, uint64_t *other, size_t other_length,
    uint64_t *scratch, size_t scratch_length,
    uint64_t *spare, size_t spare_length,
    struct cuckooormolu_record *records, size_t records_length,
    size_t *count);

/* Header and archive belong together: the version stands in a function's name,
 * so that an archive of another version does not link. The function gives it as
 * one number, 15000 for 0.15.0. */
#ifdef __GNUC__
__attribute__((used)) CUCKOOORMOLU_RETAINED static size_t (
    *const cuckooormolu_archive)(void) = cuckooormolu_raw_version_0_15_0;
#endif

/*
 * Two threads must not share a scratch here either. The calls over struct
 * cuckooormolu, which has its own, are below.
 *
 * A memory is lent as a pointer and a count of words (of bytes for a text, of
 * records for a list). The pointer must be aligned and good for that many. A
 * null pointer lends an empty memory, whatever its length. Where memory that the
 * call may write overlaps another, the call is refused with 6. Nothing else is
 * asked of the caller: every content and every length is answered. Memory longer
 * than named is accepted and its further words are not touched.
 */

/* A null pointer stands for an empty memory. */
#define CUCKOOORMOLU_LENT(type, memory, length) \
    type no_##memory = 0;                       \
    if (memory == NULL) {                       \
        memory = &no_##memory;                  \
        length = 0;                             \
    }

/* Whether two memories have no byte in common. */
static inline bool cuckooormolu_apart(const void *a, size_t a_bytes,
                                      const void *b, size_t b_bytes)
{
    uintptr_t first = (uintptr_t)a;
    uintptr_t second = (uintptr_t)b;
    if (a_bytes == 0 || b_bytes == 0)
        return true;
    return first < second ? second - first >= a_bytes
                          : first - second >= b_bytes;
}

#define CUCKOOORMOLU_APART(a, b)                             \
    cuckooormolu_apart((a), a##_length * sizeof *(a), (b),   \
                       b##_length * sizeof *(b))
#define CUCKOOORMOLU_ALL_APART(a, b, c)                      \
    (CUCKOOORMOLU_APART(a, b) && CUCKOOORMOLU_APART(a, c) && \
     CUCKOOORMOLU_APART(b, c))
#define CUCKOOORMOLU_APART_FROM(a, b, c, d)                  \
    (CUCKOOORMOLU_APART(a, b) && CUCKOOORMOLU_APART(a, c) && \
     CUCKOOORMOLU_APART(a, d))

/* A result with its number, where that is wanted. The library is never lent
 * the host's own place for it, which could lie in another memory. */
static inline struct cuckooormolu_result
cuckooormolu_told(size_t code, size_t number, size_t *wanted)
{
    if (wanted != NULL)
        *wanted = number;
    return cuckooormolu_result_of(code);
}

/*
 * Reads a text of the old or of the stored form. Done: the named words of terms
 * and state are filled, and *line is 0; the old form gives the state of moment
 * 0, the stored form the state that was stored. Refused with 1 to 5, 10 or 11:
 * *line is the first faulty line, from 1; where the text ends too soon, or is
 * lent with a byte too many, that is the line after the last. Refused with 6:
 * *line is 0. `line` may be null.
 */
CUCKOOORMOLU_USED static inline struct cuckooormolu_result
cuckooormolu_read(const uint8_t *text, size_t text_length,
                  uint16_t *terms, size_t terms_length,
                  uint64_t *state, size_t state_length, size_t *line)
{
    CUCKOOORMOLU_LENT(uint8_t, text, text_length)
    CUCKOOORMOLU_LENT(uint16_t, terms, terms_length)
    CUCKOOORMOLU_LENT(uint64_t, state, state_length)
    size_t number = 0;
    size_t code = CUCKOOORMOLU_REFUSED_SHORT;
    if (CUCKOOORMOLU_ALL_APART(text, terms, state))
        code = cuckooormolu_raw_read(text, text_length, terms, terms_length,
                                     state, state_length, &number);
    return cuckooormolu_told(code, number, line);
}

/*
 * How many bytes writing the old form takes. Done: *count is that number.
 * Refused with 6, 7, 8 or 12: *count is 0. `count` may be null.
 */
CUCKOOORMOLU_USED static inline struct cuckooormolu_result
cuckooormolu_size(const uint16_t *terms, size_t terms_length,
                  const uint64_t *state, size_t state_length, size_t *count)
{
    CUCKOOORMOLU_LENT(uint16_t, terms, terms_length)
    CUCKOOORMOLU_LENT(uint64_t, state, state_length)
    size_t number = 0;
    size_t code = cuckooormolu_raw_size(terms, terms_length, state,
                                        state_length, &number);
    return cuckooormolu_told(code, number, count);
}

/*
 * Writes the terms with the present relations as a text of the old form, numbers
 * without leading zeros. The state must be a fresh start, that of moment 0 of
 * its own relations, so that nothing is lost. Done: the text stands at the front
 * of output and *count is its count of bytes; the bytes after it are not
 * touched. Refused with 6, 7, 8 or 12: *count is 0. `count` may be null.
 */
CUCKOOORMOLU_WRITES(5, 6)
CUCKOOORMOLU_USED static inline struct cuckooormolu_result
cuckooormolu_write(const uint16_t *terms, size_t terms_length,
                   const uint64_t *state, size_t state_length,
                   uint8_t *output, size_t output_length, size_t *count)
{
    CUCKOOORMOLU_LENT(uint16_t, terms, terms_length)
    CUCKOOORMOLU_LENT(uint64_t, state, state_length)
    CUCKOOORMOLU_LENT(uint8_t, output, output_length)
    size_t number = 0;
    size_t code = CUCKOOORMOLU_REFUSED_SHORT;
    if (CUCKOOORMOLU_APART(output, terms) && CUCKOOORMOLU_APART(output, state))
        code = cuckooormolu_raw_write(terms, terms_length, state, state_length,
                                      output, output_length, &number);
    return cuckooormolu_told(code, number, count);
}

/* How many bytes storing takes: as cuckooormolu_size, and never 12. */
CUCKOOORMOLU_USED static inline struct cuckooormolu_result
cuckooormolu_store_size(const uint16_t *terms, size_t terms_length,
                        const uint64_t *state, size_t state_length,
                        size_t *count)
{
    CUCKOOORMOLU_LENT(uint16_t, terms, terms_length)
    CUCKOOORMOLU_LENT(uint64_t, state, state_length)
    size_t number = 0;
    size_t code = cuckooormolu_raw_store_size(terms, terms_length, state,
                                              state_length, &number);
    return cuckooormolu_told(code, number, count);
}

/*
 * Writes terms and the whole state as a text of the stored form: relations, what
 * the policies need of the past, and the event edge. Read again, into any
 * memory, it gives the same named words, so that the answers go on as if nothing
 * had stopped. Done and refused as cuckooormolu_write, and never with 12.
 */
CUCKOOORMOLU_WRITES(5, 6)
CUCKOOORMOLU_USED static inline struct cuckooormolu_result
cuckooormolu_store(const uint16_t *terms, size_t terms_length,
                   const uint64_t *state, size_t state_length,
                   uint8_t *output, size_t output_length, size_t *count)
{
    CUCKOOORMOLU_LENT(uint16_t, terms, terms_length)
    CUCKOOORMOLU_LENT(uint64_t, state, state_length)
    CUCKOOORMOLU_LENT(uint8_t, output, output_length)
    size_t number = 0;
    size_t code = CUCKOOORMOLU_REFUSED_SHORT;
    if (CUCKOOORMOLU_APART(output, terms) && CUCKOOORMOLU_APART(output, state))
        code = cuckooormolu_raw_store(terms, terms_length, state, state_length,
                                      output, output_length, &number);
    return cuckooormolu_told(code, number, count);
}

/* What cuckooormolu_effort gives where it would be more. */
#define CUCKOOORMOLU_MOST_EFFORT ((size_t)2147483648u)

/*
 * How many rows a request may work out, at most, by terms that are accepted: a
 * row is one entry at one member. It is a bound by the shape of the terms alone,
 * whatever the relations are; a request of two banks takes at most twice as
 * many. On x86-64 some 15 million rows take a second; bindings/README.md tells
 * how to measure another device. It does not bound the stack. Too few words, and
 * words without members, as zeroed ones, give the most; of other words that are
 * no accepted terms it says nothing.
 *
 * Only reading makes terms, and reading the old form opens their state, which
 * may take as long as a request. To ask before that, put the line S 2, the four
 * bytes "S\t2\n", before the text: read as a stored text it gives the same terms
 * and relations, and nothing is opened. Then ask; and then open, which gives the
 * words that reading the old form gives. cuckooormolu_monitor_read_within does
 * all of this.
 */
CUCKOOORMOLU_USED static inline size_t
cuckooormolu_effort(const uint16_t *terms, size_t terms_length)
{
    CUCKOOORMOLU_LENT(uint16_t, terms, terms_length)
    if (terms_length < CUCKOOORMOLU_TERMS_WORDS || terms[0] == 0)
        return CUCKOOORMOLU_MOST_EFFORT;
    return cuckooormolu_raw_effort(terms, terms_length);
}

/* What is left of so many when an entry is decided without a memo, for one member
 * or for many; 0 where it takes more. */
static inline size_t cuckooormolu_left(const uint16_t *terms, size_t entry,
                                       bool many, size_t left)
{
    /* Four times an entry, 2 more under a bind that is decided for many members,
     * 1 more where it is itself. One waits at each level, and one more. */
    size_t waiting[257] = {4 * entry + many};
    size_t count = 1;
    while (count > 0 && left > 0) {
        const size_t next = waiting[--count];
        const size_t flags = next & 3;
        const uint16_t *fields = terms + 4 + next / 4 * 4;
        const size_t cost = flags < 2 ? 1 : 64;
        const size_t a = 4 * (size_t)fields[1];
        const size_t b = 4 * (size_t)fields[2];
        if (fields[0] < 2 || fields[0] == 6 || fields[0] == 7)
            continue; /* a leaf or a past-time entry, which is read */
        if (left < cost || (fields[0] == 8 && flags == 3))
            return 0;
        left -= cost;
        if (fields[0] == 2 || fields[0] == 3)
            waiting[count++] = a + flags;
        if (fields[0] == 3 || fields[0] == 10)
            waiting[count++] = b + flags;
        if (fields[0] == 10)
            waiting[count++] = 4 * (size_t)fields[3] + (flags | 1);
        else if (fields[0] == 8)
            waiting[count++] = b + (flags == 0 ? 0 : 2);
        else if (fields[0] > 3)
            waiting[count++] = b + (flags | 1);
    }
    return left;
}

/* Whether some call by these terms takes a memo. */
static inline bool cuckooormolu_takes_memo(const uint16_t *terms)
{
    const size_t entries = terms[3];
    size_t binds = 0;
    size_t left = 1024;
    bool takes = false;
    for (size_t i = 0; i < entries; i++) {
        const uint16_t *fields = terms + 4 + 4 * i;
        binds += fields[0] == 8;
        if (fields[0] == 6 || fields[0] == 7)
            left = cuckooormolu_left(terms, fields[1], true, left);
        if (fields[0] == 7)
            left = cuckooormolu_left(terms, fields[2], true, left);
        takes = takes || cuckooormolu_left(terms, i, false, 1024) == 0;
    }
    return (entries >= 10 || binds > 1) && (takes || left == 0);
}

/* How many levels deep the entries nest; more than there can be where the words
 * are no accepted terms. */
static inline size_t cuckooormolu_depth(const uint16_t *terms)
{
    size_t levels[256] = {0};
    size_t depth = 0;
    if (terms[0] == 0 || terms[3] > 256)
        return SIZE_MAX;
    for (size_t i = 0; i < terms[3]; i++) {
        const uint16_t *fields = terms + 4 + 4 * i;
        const bool first = fields[0] == 2 || fields[0] == 3 ||
                           fields[0] == 6 || fields[0] == 7;
        const bool second = fields[0] > 2 && fields[0] != 6;
        const bool third = fields[0] == 10;
        if (fields[0] > 11 || (first && fields[1] >= i) ||
            (second && fields[2] >= i) || (third && fields[3] >= i))
            return SIZE_MAX;
        if (first && levels[i] < levels[fields[1]])
            levels[i] = levels[fields[1]];
        if (second && levels[i] < levels[fields[2]])
            levels[i] = levels[fields[2]];
        if (third && levels[i] < levels[fields[3]])
            levels[i] = levels[fields[3]];
        levels[i]++;
        if (depth < levels[i])
            depth = levels[i];
    }
    return depth;
}

/*
 * How many bytes of stack any call of one monitor takes by terms that are
 * accepted; two banks take 32 KiB more. It is a bound above what was measured, and
 * not proved. Words that are no accepted terms, and too few, give
 * CUCKOOORMOLU_STACK_BYTES. Asking takes 4 KiB itself.
 */
CUCKOOORMOLU_USED static inline size_t
cuckooormolu_stack(const uint16_t *terms, size_t terms_length)
{
#ifdef CUCKOOORMOLU_AMALGAMATION
    const size_t level = 3584; /* as compiled without optimisation */
#else
    const size_t level = 1024;
#endif
    size_t depth;
    size_t bytes;
    if (terms == NULL || terms_length < CUCKOOORMOLU_TERMS_WORDS)
        return CUCKOOORMOLU_STACK_BYTES;
    depth = cuckooormolu_depth(terms);
    if (depth > 256)
        return CUCKOOORMOLU_STACK_BYTES;
    bytes = 40 * 1024 + level * depth;
    if (cuckooormolu_takes_memo(terms))
        bytes += 272 * 1024;
    return bytes < CUCKOOORMOLU_STACK_BYTES ? bytes : CUCKOOORMOLU_STACK_BYTES;
}

/* Whether terms and state are ones that a call accepts: done, 6, 7 or 8. */
CUCKOOORMOLU_USED static inline struct cuckooormolu_result
cuckooormolu_check(const uint16_t *terms, size_t terms_length,
                   const uint64_t *state, size_t state_length)
{
    CUCKOOORMOLU_LENT(uint16_t, terms, terms_length)
    CUCKOOORMOLU_LENT(uint64_t, state, state_length)
    return cuckooormolu_result_of(
        cuckooormolu_raw_check(terms, terms_length, state, state_length));
}

/*
 * Makes the state of moment 0 of the relations that stand in its first 1,024
 * words; what the other words held is lost. Done, 6, 7 or 8.
 */
CUCKOOORMOLU_USED static inline struct cuckooormolu_result
cuckooormolu_open(const uint16_t *terms, size_t terms_length,
                  uint64_t *state, size_t state_length)
{
    CUCKOOORMOLU_LENT(uint16_t, terms, terms_length)
    CUCKOOORMOLU_LENT(uint64_t, state, state_length)
    size_t code = CUCKOOORMOLU_REFUSED_SHORT;
    if (CUCKOOORMOLU_APART(terms, state))
        code = cuckooormolu_raw_open(terms, terms_length, state, state_length);
    return cuckooormolu_result_of(code);
}

/*
 * Revises terms that are in use: from old terms, the state under them and new
 * terms with as many members, relations and events, fills in the state with
 * which the new terms go on. Relations and event edge are carried over, and a
 * prev or since takes the table of the first old entry with the same formula,
 * spelled out; any other starts now. What `state` held does not count. Done:
 * from then on the new terms are lent with that state. Refused with 6, 7 (either
 * terms), 8 (the old state) or 13: all memory is unchanged.
 */
CUCKOOORMOLU_USED static inline struct cuckooormolu_result
cuckooormolu_revise(const uint16_t *old_terms, size_t old_terms_length,
                    const uint64_t *old_state, size_t old_state_length,
                    const uint16_t *new_terms, size_t new_terms_length,
                    uint64_t *state, size_t state_length)
{
    CUCKOOORMOLU_LENT(uint16_t, old_terms, old_terms_length)
    CUCKOOORMOLU_LENT(uint64_t, old_state, old_state_length)
    CUCKOOORMOLU_LENT(uint16_t, new_terms, new_terms_length)
    CUCKOOORMOLU_LENT(uint64_t, state, state_length)
    size_t code = CUCKOOORMOLU_REFUSED_SHORT;
    if (CUCKOOORMOLU_APART_FROM(state, old_terms, old_state, new_terms))
        code = cuckooormolu_raw_revise(old_terms, old_terms_length, old_state,
                                       old_state_length, new_terms,
                                       new_terms_length, state, state_length);
    return cuckooormolu_result_of(code);
}

/*
 * Gives the members new numbers, byte m of `numbers` being that of member m:
 * fills in the second state, in which everybody has under the new number what
 * they had under the old one, relations, past and event edge. The terms stay.
 * What `second` held does not count. Done: from then on the terms are lent with
 * that state, and requests that name the new numbers are answered as those that
 * named the old ones. The list that undoes it gives the first state back.
 * Refused with 6, 7, 8 or 15: all memory is unchanged. It is for one monitor,
 * and not for two banks, which share relations.
 */
CUCKOOORMOLU_USED static inline struct cuckooormolu_result
cuckooormolu_renumber(const uint16_t *terms, size_t terms_length,
                      const uint64_t *state, size_t state_length,
                      const uint8_t *numbers, size_t numbers_length,
                      uint64_t *second, size_t second_length)
{
    CUCKOOORMOLU_LENT(uint16_t, terms, terms_length)
    CUCKOOORMOLU_LENT(uint64_t, state, state_length)
    CUCKOOORMOLU_LENT(uint8_t, numbers, numbers_length)
    CUCKOOORMOLU_LENT(uint64_t, second, second_length)
    size_t code = CUCKOOORMOLU_REFUSED_SHORT;
    if (CUCKOOORMOLU_APART_FROM(second, terms, state, numbers))
        code = cuckooormolu_raw_renumber(terms, terms_length, state,
                                         state_length, numbers, numbers_length,
                                         second, second_length);
    return cuckooormolu_result_of(code);
}

/*
 * What a request by an event, from its initiator to its target, would be
 * answered; makes no moment and writes nothing. Granted, denied, 6, 7, 8 or 9.
 */
CUCKOOORMOLU_USED static inline struct cuckooormolu_result
cuckooormolu_look(const uint16_t *terms, size_t terms_length,
                  const uint64_t *state, size_t state_length,
                  const uint64_t *scratch, size_t scratch_length,
                  size_t event, size_t from, size_t to)
{
    CUCKOOORMOLU_LENT(uint16_t, terms, terms_length)
    CUCKOOORMOLU_LENT(uint64_t, state, state_length)
    CUCKOOORMOLU_LENT(uint64_t, scratch, scratch_length)
    return cuckooormolu_result_of(
        cuckooormolu_raw_look(terms, terms_length, state, state_length,
                              scratch, scratch_length, event, from, to));
}

/*
 * Answers a request. Granted: the state is that of the next moment and the
 * named words of scratch are 0. Denied: the same, without effects, if the terms
 * have a K line for the event, else all memory is unchanged. Refused with 6, 7, 8
 * or 9: all memory is unchanged.
 */
CUCKOOORMOLU_USED static inline struct cuckooormolu_result
cuckooormolu_request(const uint16_t *terms, size_t terms_length,
                     uint64_t *state, size_t state_length,
                     uint64_t *scratch, size_t scratch_length,
                     size_t event, size_t from, size_t to)
{
    CUCKOOORMOLU_LENT(uint16_t, terms, terms_length)
    CUCKOOORMOLU_LENT(uint64_t, state, state_length)
    CUCKOOORMOLU_LENT(uint64_t, scratch, scratch_length)
    size_t code = CUCKOOORMOLU_REFUSED_SHORT;
    if (CUCKOOORMOLU_ALL_APART(terms, state, scratch))
        code = cuckooormolu_raw_request(terms, terms_length, state,
                                        state_length, scratch, scratch_length,
                                        event, from, to);
    return cuckooormolu_result_of(code);
}

/* Takes the answers of records away, so that an old one is not read as that of
 * a list that is refused. cuckooormolu_set_list does so by itself. */
static inline void cuckooormolu_unanswer(struct cuckooormolu_record *records,
                                         size_t length)
{
    for (size_t i = 0; i < length; i++)
        records[i].answer.cuckooormolu_private = CUCKOOORMOLU_UNANSWERED;
}

/*
 * Answers a list of records in order, each as a single request would be, but
 * checks terms, state and scratch once. Done: every answer is filled in and
 * *count is the number of grants; a record that is refused does not stop the
 * list. Refused with 6, 7 or 8, an empty list too: no record is answered,
 * whatever its answer was before, all other memory is unchanged, and *count is
 * 0. Only records that overlap another memory are unchanged then. `count` may be
 * null, and so may the records, which are then an empty list.
 */
CUCKOOORMOLU_CHANGES(7, 8)
CUCKOOORMOLU_USED static inline struct cuckooormolu_result
cuckooormolu_set_list(const uint16_t *terms, size_t terms_length,
                      uint64_t *state, size_t state_length,
                      uint64_t *scratch, size_t scratch_length,
                      struct cuckooormolu_record *records,
                      size_t records_length, size_t *count)
{
    CUCKOOORMOLU_LENT(uint16_t, terms, terms_length)
    CUCKOOORMOLU_LENT(uint64_t, state, state_length)
    CUCKOOORMOLU_LENT(uint64_t, scratch, scratch_length)
    struct cuckooormolu_record no_records = cuckooormolu_record_of(0, 0, 0);
    if (records == NULL) {
        records = &no_records;
        records_length = 0;
    }
    size_t number = 0;
    size_t code = CUCKOOORMOLU_REFUSED_SHORT;
    if (CUCKOOORMOLU_APART_FROM(records, terms, state, scratch)) {
        cuckooormolu_unanswer(records, records_length);
        if (CUCKOOORMOLU_ALL_APART(terms, state, scratch))
            code = cuckooormolu_raw_set_list(
                terms, terms_length, state, state_length, scratch,
                scratch_length, records, records_length, &number);
    }
    return cuckooormolu_told(code, number, count);
}

/*
 * Whether a rival can keep a member, the planner, from a goal. A plan is 1 to 3
 * requests of the planner, event and target of each in turn, so 2, 4 or 6
 * numbers; between two of them the rival makes a request or passes. Accepted:
 * whatever the rival does, after one of the planner's requests the goal, an
 * entry, holds at the first member with variable 0 standing for the second.
 * Denied requests have the effect that they always have. There are at most 8
 * members and 4 events. Scratch is CUCKOOORMOLU_PLAN_WORDS words, left 0 by
 * either verdict; nothing else is written. Refused with 6, 7, 8, 14 or 9: all
 * memory is unchanged.
 */
CUCKOOORMOLU_USED static inline struct cuckooormolu_ruling
cuckooormolu_plan(const uint16_t *terms, size_t terms_length,
                  const uint64_t *state, size_t state_length,
                  uint64_t *scratch, size_t scratch_length,
                  const uint64_t *plan, size_t plan_length, size_t planner,
                  size_t rival, size_t goal, size_t first, size_t second)
{
    CUCKOOORMOLU_LENT(uint16_t, terms, terms_length)
    CUCKOOORMOLU_LENT(uint64_t, state, state_length)
    CUCKOOORMOLU_LENT(uint64_t, scratch, scratch_length)
    CUCKOOORMOLU_LENT(uint64_t, plan, plan_length)
    size_t code = CUCKOOORMOLU_REFUSED_SHORT;
    if (CUCKOOORMOLU_APART_FROM(scratch, terms, state, plan))
        code = cuckooormolu_raw_plan(terms, terms_length, state, state_length,
                                     scratch, scratch_length, plan,
                                     plan_length, planner, rival, goal, first,
                                     second);
    return cuckooormolu_ruling_of(code);
}

/*
 * Whether an entry holds at the present moment, at the first member with
 * variable 0 standing for the second; writes nothing. Holds, fails, 6, 7, 8, 14
 * or 9.
 */
CUCKOOORMOLU_USED static inline struct cuckooormolu_fact
cuckooormolu_tell(const uint16_t *terms, size_t terms_length,
                  const uint64_t *state, size_t state_length, size_t entry,
                  size_t first, size_t second)
{
    CUCKOOORMOLU_LENT(uint16_t, terms, terms_length)
    CUCKOOORMOLU_LENT(uint64_t, state, state_length)
    return cuckooormolu_fact_of(cuckooormolu_raw_tell(
        terms, terms_length, state, state_length, entry, first, second));
}

/*
 * Two banks over one circle: they share terms and relations, and each has its
 * own words, for past-time tables and event, and its own scratch. A moment made
 * in one is a moment in the other too, without an event edge there. So a call of
 * either takes the memory of both, and two threads must not call them at the
 * same time.
 *
 * The bank that is called is named by the order alone: its own words and scratch
 * come first, then the other's, `other` and `spare`. The calls over struct
 * cuckooormolu_banks, below, cannot confuse them.
 *
 * Here no memory may overlap another, not even one that is only read, else the
 * call is refused with 6; but the old and the new terms may be the same.
 */
#define CUCKOOORMOLU_LENT_BANKS                              \
    CUCKOOORMOLU_LENT(uint16_t, terms, terms_length)         \
    CUCKOOORMOLU_LENT(uint64_t, relations, relations_length) \
    CUCKOOORMOLU_LENT(uint64_t, own, own_length)             \
    CUCKOOORMOLU_LENT(uint64_t, other, other_length)
#define CUCKOOORMOLU_LENT_SCRATCHES                      \
    CUCKOOORMOLU_LENT(uint64_t, scratch, scratch_length) \
    CUCKOOORMOLU_LENT(uint64_t, spare, spare_length)

/* A memory: where it begins, and its bytes. */
struct cuckooormolu_span {
    const void *start;
    size_t bytes;
};

#define CUCKOOORMOLU_SPAN(a) {(a), a##_length * sizeof *(a)}
#define CUCKOOORMOLU_SPANS_OF_BANKS                       \
    CUCKOOORMOLU_SPAN(relations), CUCKOOORMOLU_SPAN(own), \
        CUCKOOORMOLU_SPAN(other)
#define CUCKOOORMOLU_SPANS_OF_A_CALL                       \
    CUCKOOORMOLU_SPAN(terms), CUCKOOORMOLU_SPANS_OF_BANKS, \
        CUCKOOORMOLU_SPAN(scratch), CUCKOOORMOLU_SPAN(spare)

#define CUCKOOORMOLU_COUNTED(spans) (spans), sizeof(spans) / sizeof *(spans)

/* Whether a memory has no byte in common with any of the others. */
static inline bool
cuckooormolu_apart_from_each(struct cuckooormolu_span a,
                             const struct cuckooormolu_span *others,
                             size_t count)
{
    for (size_t i = 0; i < count; i++)
        if (!cuckooormolu_apart(a.start, a.bytes, others[i].start,
                                others[i].bytes))
            return false;
    return true;
}

/* Whether no two memories have a byte in common. */
static inline bool
cuckooormolu_each_apart(const struct cuckooormolu_span *spans, size_t count)
{
    for (size_t i = 1; i < count; i++)
        if (!cuckooormolu_apart_from_each(spans[i], spans, i))
            return false;
    return true;
}

/*
 * Reads a text of the old form into both banks, which start together at moment
 * 0. Done: the named words of terms, of relations and of both banks' own words
 * are filled, and *line is 0. Refused as cuckooormolu_read, and with 1 at line 1
 * where the text begins with an S line: a stored text is one monitor's. `line`
 * may be null.
 */
CUCKOOORMOLU_USED static inline struct cuckooormolu_result
cuckooormolu_banks_read(const uint8_t *text, size_t text_length,
                        uint16_t *terms, size_t terms_length,
                        uint64_t *relations, size_t relations_length,
                        uint64_t *own, size_t own_length,
                        uint64_t *other, size_t other_length, size_t *line)
{
    CUCKOOORMOLU_LENT(uint8_t, text, text_length)
    CUCKOOORMOLU_LENT_BANKS
    const struct cuckooormolu_span spans[] = {CUCKOOORMOLU_SPAN(text),
                                              CUCKOOORMOLU_SPAN(terms),
                                              CUCKOOORMOLU_SPANS_OF_BANKS};
    size_t number = 0;
    size_t code = CUCKOOORMOLU_REFUSED_SHORT;
    if (cuckooormolu_each_apart(CUCKOOORMOLU_COUNTED(spans)))
        code = cuckooormolu_raw_banks_read(
            text, text_length, terms, terms_length, relations,
            relations_length, own, own_length, other, other_length, &number);
    return cuckooormolu_told(code, number, line);
}

/*
 * Makes moment 0 of the relations in both banks; what their own words held is
 * lost. Done, 6, 7 or 8.
 */
CUCKOOORMOLU_USED static inline struct cuckooormolu_result
cuckooormolu_banks_open(const uint16_t *terms, size_t terms_length,
                        const uint64_t *relations, size_t relations_length,
                        uint64_t *own, size_t own_length,
                        uint64_t *other, size_t other_length)
{
    CUCKOOORMOLU_LENT_BANKS
    const struct cuckooormolu_span spans[] = {CUCKOOORMOLU_SPAN(terms),
                                              CUCKOOORMOLU_SPANS_OF_BANKS};
    size_t code = CUCKOOORMOLU_REFUSED_SHORT;
    if (cuckooormolu_each_apart(CUCKOOORMOLU_COUNTED(spans)))
        code = cuckooormolu_raw_banks_open(
            terms, terms_length, relations, relations_length, own, own_length,
            other, other_length);
    return cuckooormolu_result_of(code);
}

/*
 * Revises the terms of both banks together, each as cuckooormolu_revise does:
 * fills in second relations and second own words of each, in the same order.
 * Done: from then on the new terms are lent with those. Refused with 6, 7
 * (either terms), 8 (either bank's old state) or 13: all memory is unchanged.
 */
CUCKOOORMOLU_USED static inline struct cuckooormolu_result
cuckooormolu_banks_revise(
    const uint16_t *old_terms, size_t old_terms_length,
    const uint64_t *old_relations, size_t old_relations_length,
    const uint64_t *old_own, size_t old_own_length,
    const uint64_t *old_other, size_t old_other_length,
    const uint16_t *new_terms, size_t new_terms_length,
    uint64_t *relations, size_t relations_length,
    uint64_t *own, size_t own_length, uint64_t *other, size_t other_length)
{
    CUCKOOORMOLU_LENT(uint16_t, old_terms, old_terms_length)
    CUCKOOORMOLU_LENT(uint64_t, old_relations, old_relations_length)
    CUCKOOORMOLU_LENT(uint64_t, old_own, old_own_length)
    CUCKOOORMOLU_LENT(uint64_t, old_other, old_other_length)
    CUCKOOORMOLU_LENT(uint16_t, new_terms, new_terms_length)
    CUCKOOORMOLU_LENT(uint64_t, relations, relations_length)
    CUCKOOORMOLU_LENT(uint64_t, own, own_length)
    CUCKOOORMOLU_LENT(uint64_t, other, other_length)
    const struct cuckooormolu_span before = CUCKOOORMOLU_SPAN(old_terms);
    const struct cuckooormolu_span after = CUCKOOORMOLU_SPAN(new_terms);
    const struct cuckooormolu_span spans[] = {
        CUCKOOORMOLU_SPAN(old_relations), CUCKOOORMOLU_SPAN(old_own),
        CUCKOOORMOLU_SPAN(old_other), CUCKOOORMOLU_SPANS_OF_BANKS};
    size_t code = CUCKOOORMOLU_REFUSED_SHORT;
    if (cuckooormolu_each_apart(CUCKOOORMOLU_COUNTED(spans)) &&
        cuckooormolu_apart_from_each(before, CUCKOOORMOLU_COUNTED(spans)) &&
        cuckooormolu_apart_from_each(after, CUCKOOORMOLU_COUNTED(spans)))
        code = cuckooormolu_raw_banks_revise(
            old_terms, old_terms_length, old_relations, old_relations_length,
            old_own, old_own_length, old_other, old_other_length, new_terms,
            new_terms_length, relations, relations_length, own, own_length,
            other, other_length);
    return cuckooormolu_result_of(code);
}

/*
 * What a request of the bank would be answered; makes no moment and writes
 * nothing. Granted, denied, 6, 7, 8 or 9.
 */
CUCKOOORMOLU_USED static inline struct cuckooormolu_result
cuckooormolu_banks_look(const uint16_t *terms, size_t terms_length,
                        const uint64_t *relations, size_t relations_length,
                        const uint64_t *own, size_t own_length,
                        const uint64_t *other, size_t other_length,
                        const uint64_t *scratch, size_t scratch_length,
                        const uint64_t *spare, size_t spare_length,
                        size_t event, size_t from, size_t to)
{
    CUCKOOORMOLU_LENT_BANKS
    CUCKOOORMOLU_LENT_SCRATCHES
    const struct cuckooormolu_span spans[] = {CUCKOOORMOLU_SPANS_OF_A_CALL};
    size_t code = CUCKOOORMOLU_REFUSED_SHORT;
    if (cuckooormolu_each_apart(CUCKOOORMOLU_COUNTED(spans)))
        code = cuckooormolu_raw_banks_look(
            terms, terms_length, relations, relations_length, own, own_length,
            other, other_length, scratch, scratch_length, spare, spare_length,
            event, from, to);
    return cuckooormolu_result_of(code);
}

/*
 * Answers a request of the bank. Granted: both banks are at the next moment, the
 * other without an event edge, and the named words of both scratches are 0.
 * Denied: the same, without effects, if the terms have a K line for the event,
 * else all memory is unchanged, and where it is refused with 6, 7, 8 or 9.
 */
CUCKOOORMOLU_USED static inline struct cuckooormolu_result
cuckooormolu_banks_request(const uint16_t *terms, size_t terms_length,
                           uint64_t *relations, size_t relations_length,
                           uint64_t *own, size_t own_length,
                           uint64_t *other, size_t other_length,
                           uint64_t *scratch, size_t scratch_length,
                           uint64_t *spare, size_t spare_length,
                           size_t event, size_t from, size_t to)
{
    CUCKOOORMOLU_LENT_BANKS
    CUCKOOORMOLU_LENT_SCRATCHES
    const struct cuckooormolu_span spans[] = {CUCKOOORMOLU_SPANS_OF_A_CALL};
    size_t code = CUCKOOORMOLU_REFUSED_SHORT;
    if (cuckooormolu_each_apart(CUCKOOORMOLU_COUNTED(spans)))
        code = cuckooormolu_raw_banks_request(
            terms, terms_length, relations, relations_length, own, own_length,
            other, other_length, scratch, scratch_length, spare, spare_length,
            event, from, to);
    return cuckooormolu_result_of(code);
}

/*
 * Answers a list of records in order, each as a single request of the bank would
 * be. Done and refused as cuckooormolu_set_list.
 */
CUCKOOORMOLU_CHANGES(13, 14)
CUCKOOORMOLU_USED static inline struct cuckooormolu_result
cuckooormolu_banks_set_list(const uint16_t *terms, size_t terms_length,
                            uint64_t *relations, size_t relations_length,
                            uint64_t *own, size_t own_length,
                            uint64_t *other, size_t other_length,
                            uint64_t *scratch, size_t scratch_length,
                            uint64_t *spare, size_t spare_length,
                            struct cuckooormolu_record *records,
                            size_t records_length, size_t *count)
{
    CUCKOOORMOLU_LENT_BANKS
    CUCKOOORMOLU_LENT_SCRATCHES
    struct cuckooormolu_record no_records = cuckooormolu_record_of(0, 0, 0);
    if (records == NULL) {
        records = &no_records;
        records_length = 0;
    }
    const struct cuckooormolu_span list = CUCKOOORMOLU_SPAN(records);
    const struct cuckooormolu_span spans[] = {CUCKOOORMOLU_SPANS_OF_A_CALL};
    size_t number = 0;
    size_t code = CUCKOOORMOLU_REFUSED_SHORT;
    if (cuckooormolu_apart_from_each(list, CUCKOOORMOLU_COUNTED(spans))) {
        cuckooormolu_unanswer(records, records_length);
        if (cuckooormolu_each_apart(CUCKOOORMOLU_COUNTED(spans)))
            code = cuckooormolu_raw_banks_set_list(
                terms, terms_length, relations, relations_length, own,
                own_length, other, other_length, scratch, scratch_length,
                spare, spare_length, records, records_length, &number);
    }
    return cuckooormolu_told(code, number, count);
}

#undef CUCKOOORMOLU_LENT
#undef CUCKOOORMOLU_APART
#undef CUCKOOORMOLU_ALL_APART
#undef CUCKOOORMOLU_APART_FROM
#undef CUCKOOORMOLU_LENT_BANKS
#undef CUCKOOORMOLU_LENT_SCRATCHES
#undef CUCKOOORMOLU_SPAN
#undef CUCKOOORMOLU_SPANS_OF_BANKS
#undef CUCKOOORMOLU_SPANS_OF_A_CALL
#undef CUCKOOORMOLU_COUNTED

/*
 * The same over a monitor's memory, so that no length is typed. A null monitor
 * is refused with 6.
 */
#define CUCKOOORMOLU_PART(m, part) ((m) == NULL ? NULL : (m)->part)
#define CUCKOOORMOLU_TERMS(m) \
    CUCKOOORMOLU_PART(m, terms), CUCKOOORMOLU_TERMS_WORDS
#define CUCKOOORMOLU_STATE(m) \
    CUCKOOORMOLU_PART(m, state), CUCKOOORMOLU_STATE_WORDS
#define CUCKOOORMOLU_SCRATCH(m) \
    CUCKOOORMOLU_PART(m, scratch), CUCKOOORMOLU_SCRATCH_WORDS

/* Reads a terms file, or a stored text, from which it goes on: cuckooormolu_read.
 * Refused: the monitor is unchanged, with older terms or none. */
CUCKOOORMOLU_READS(2, 3)
CUCKOOORMOLU_USED static inline struct cuckooormolu_result
cuckooormolu_monitor_read(struct cuckooormolu *m, const void *text,
                          size_t length, size_t *line)
{
    return cuckooormolu_read((const uint8_t *)text, length,
                             CUCKOOORMOLU_TERMS(m), CUCKOOORMOLU_STATE(m),
                             line);
}

/* How many rows a request may work out, at most: cuckooormolu_effort. Where the
 * monitor is null, zeroed, or was never read into, it is the most. */
CUCKOOORMOLU_USED static inline size_t
cuckooormolu_monitor_effort(const struct cuckooormolu *m)
{
    return cuckooormolu_effort(CUCKOOORMOLU_TERMS(m));
}

/* How many bytes of stack any call of it takes: cuckooormolu_stack. */
CUCKOOORMOLU_USED static inline size_t
cuckooormolu_monitor_stack(const struct cuckooormolu *m)
{
    return cuckooormolu_stack(CUCKOOORMOLU_TERMS(m));
}

/* Writes a text of the old form into a buffer, with a line S 2 before it, and
 * gives the length; 0 where the buffer is too short or overlaps the text. */
static inline size_t cuckooormolu_as_stored(const uint8_t *text, size_t length,
                                            uint8_t *buffer, size_t room)
{
    const uint8_t line[] = {'S', '\t', '2', '\n'};
    if (buffer == NULL || room < sizeof line || room - sizeof line < length ||
        !cuckooormolu_apart(buffer, room, text, length))
        return 0;
    for (size_t i = 0; i < sizeof line; i++)
        buffer[i] = line[i];
    for (size_t i = 0; i < length; i++)
        buffer[sizeof line + i] = text[i];
    return sizeof line + length;
}

/*
 * Reads a text as cuckooormolu_monitor_read does, if cuckooormolu_effort of its
 * terms is at most `most`; else the result is costly, and nothing was opened. So
 * a text takes no longer than such a request may, whatever it says. The buffer
 * takes a text of the old form and four bytes more, else the call is refused
 * with 6, and so it is where text, buffer and monitor overlap; a stored text
 * needs no buffer, and its state is believed. Where it is not done, `m` has no
 * terms, whatever it had, and refuses every request: lend a monitor of its own,
 * as for a revision. Where it is costly and the text of the old form, the buffer
 * has a stored text of 4 bytes more: read into a monitor that answers nothing,
 * cuckooormolu_monitor_effort says how many rows.
 */
CUCKOOORMOLU_READS(2, 3) CUCKOOORMOLU_WRITES(4, 5)
CUCKOOORMOLU_USED static inline struct cuckooormolu_result
cuckooormolu_monitor_read_within(struct cuckooormolu *m, const void *text,
                                 size_t length, void *buffer, size_t room,
                                 size_t most, size_t *line)
{
    const uint8_t *asked = (const uint8_t *)text;
    size_t asked_length = text == NULL ? 0 : length;
    size_t code = CUCKOOORMOLU_REFUSED_SHORT;
    size_t number = 0;
    if (m == NULL)
        return cuckooormolu_told(code, number, line);
    if (!cuckooormolu_apart(m, sizeof *m, text, asked_length) ||
        !cuckooormolu_apart(m, sizeof *m, buffer, buffer == NULL ? 0 : room)) {
        asked_length = 0;
    } else if (asked_length == 0 || asked[0] != 'S') {
        asked_length = cuckooormolu_as_stored(asked, asked_length,
                                               (uint8_t *)buffer, room);
        asked = (const uint8_t *)buffer;
    }
    if (asked_length > 0) {
        /* A stored text is read and not opened. Where that is refused, so is the
         * text itself. */
        if (cuckooormolu_done(cuckooormolu_monitor_read(
                m, asked, asked_length, NULL)) &&
            cuckooormolu_monitor_effort(m) > most)
            code = CUCKOOORMOLU_COSTLY;
        else
            code = cuckooormolu_monitor_read(m, text, length, &number)
                       .cuckooormolu_private;
    }
    if (code != CUCKOOORMOLU_DONE)
        for (size_t i = 0; i < CUCKOOORMOLU_TERMS_WORDS; i++)
            m->terms[i] = 0;
    return cuckooormolu_told(code, number, line);
}

/*
 * The same for a terms file only: a stored text, which would bring a past of its
 * own, is refused with 1 at line 1. This is how to read untrusted terms.
 */
CUCKOOORMOLU_READS(2, 3) CUCKOOORMOLU_WRITES(4, 5)
CUCKOOORMOLU_USED static inline struct cuckooormolu_result
cuckooormolu_monitor_read_terms_within(struct cuckooormolu *m,
                                       const void *text, size_t length,
                                       void *buffer, size_t room, size_t most,
                                       size_t *line)
{
    if (m == NULL || text == NULL || length == 0 ||
        *(const uint8_t *)text != 'S')
        return cuckooormolu_monitor_read_within(m, text, length, buffer, room,
                                                most, line);
    for (size_t i = 0; i < CUCKOOORMOLU_TERMS_WORDS; i++)
        m->terms[i] = 0;
    return cuckooormolu_told(CUCKOOORMOLU_REFUSED_FORM, 1, line);
}

/* How many bytes cuckooormolu_monitor_write takes. */
CUCKOOORMOLU_USED static inline struct cuckooormolu_result
cuckooormolu_monitor_size(const struct cuckooormolu *m, size_t *count)
{
    return cuckooormolu_size(CUCKOOORMOLU_TERMS(m), CUCKOOORMOLU_STATE(m),
                             count);
}

/* Writes a terms file, of a monitor without a history only, since a terms file
 * cannot hold one. *count is its count of bytes. */
CUCKOOORMOLU_WRITES(2, 3)
CUCKOOORMOLU_USED static inline struct cuckooormolu_result
cuckooormolu_monitor_write(const struct cuckooormolu *m, void *output,
                           size_t length, size_t *count)
{
    return cuckooormolu_write(CUCKOOORMOLU_TERMS(m), CUCKOOORMOLU_STATE(m),
                              (uint8_t *)output, length, count);
}

/* How many bytes cuckooormolu_monitor_store takes. */
CUCKOOORMOLU_USED static inline struct cuckooormolu_result
cuckooormolu_monitor_store_size(const struct cuckooormolu *m, size_t *count)
{
    return cuckooormolu_store_size(CUCKOOORMOLU_TERMS(m),
                                   CUCKOOORMOLU_STATE(m), count);
}

/* Writes a text from which cuckooormolu_monitor_read goes on. *count is its count
 * of bytes: keep it, or a checksum, beside the text, for a text that is cut is
 * often accepted, as another state. */
CUCKOOORMOLU_WRITES(2, 3)
CUCKOOORMOLU_USED static inline struct cuckooormolu_result
cuckooormolu_monitor_store(const struct cuckooormolu *m, void *output,
                           size_t length, size_t *count)
{
    return cuckooormolu_store(CUCKOOORMOLU_TERMS(m), CUCKOOORMOLU_STATE(m),
                              (uint8_t *)output, length, count);
}

/* Whether the monitor would be accepted by a call. */
CUCKOOORMOLU_USED static inline struct cuckooormolu_result
cuckooormolu_monitor_check(const struct cuckooormolu *m)
{
    return cuckooormolu_check(CUCKOOORMOLU_TERMS(m), CUCKOOORMOLU_STATE(m));
}

/* Starts afresh from the present relations: the past is lost. A terms file that
 * is read is open already. */
CUCKOOORMOLU_USED static inline struct cuckooormolu_result
cuckooormolu_monitor_open(struct cuckooormolu *m)
{
    return cuckooormolu_open(CUCKOOORMOLU_TERMS(m), CUCKOOORMOLU_STATE(m));
}

/*
 * The new terms are those that were read into `next`, another monitor. Done: its
 * state is the one with which they go on, and it is used in the place of `m`,
 * which is unchanged. The monitor in force comes first: the other way round, its
 * history would be overwritten by a fresh start. Where both are one monitor, it is
 * refused with 6.
 */
CUCKOOORMOLU_USED static inline struct cuckooormolu_result
cuckooormolu_monitor_revise(const struct cuckooormolu *m,
                            struct cuckooormolu *next)
{
    return cuckooormolu_revise(CUCKOOORMOLU_TERMS(m), CUCKOOORMOLU_STATE(m),
                               CUCKOOORMOLU_TERMS(next),
                               CUCKOOORMOLU_STATE(next));
}

/*
 * The members of `m` get new numbers in `next`, another monitor, which needs no
 * terms of its own. Done: `next` has the terms and the renumbered state, and is
 * used in the place of `m`, which is unchanged. Refused: both are unchanged.
 * Where both are one monitor, it is refused with 6.
 */
CUCKOOORMOLU_READS(2, 3)
CUCKOOORMOLU_USED static inline struct cuckooormolu_result
cuckooormolu_monitor_renumber(const struct cuckooormolu *m,
                              const uint8_t *numbers, size_t length,
                              struct cuckooormolu *next)
{
    struct cuckooormolu_result result = cuckooormolu_renumber(
        CUCKOOORMOLU_TERMS(m), CUCKOOORMOLU_STATE(m), numbers, length,
        CUCKOOORMOLU_STATE(next));
    if (cuckooormolu_done(result))
        for (size_t i = 0; i < CUCKOOORMOLU_TERMS_WORDS; i++)
            next->terms[i] = m->terms[i];
    return result;
}

/* What a request would be answered. It makes no moment, so a granted look permits
 * nothing: make the request. */
CUCKOOORMOLU_USED static inline struct cuckooormolu_result
cuckooormolu_monitor_look(const struct cuckooormolu *m, size_t event,
                          size_t from, size_t to)
{
    return cuckooormolu_look(CUCKOOORMOLU_TERMS(m), CUCKOOORMOLU_STATE(m),
                             CUCKOOORMOLU_SCRATCH(m), event, from, to);
}

/* Answers a request, and makes the next moment where it is granted, or denied and
 * the event has a K line. Keep the state before you act on the answer. */
CUCKOOORMOLU_USED static inline struct cuckooormolu_result
cuckooormolu_monitor_request(struct cuckooormolu *m, size_t event,
                             size_t from, size_t to)
{
    return cuckooormolu_request(CUCKOOORMOLU_TERMS(m), CUCKOOORMOLU_STATE(m),
                                CUCKOOORMOLU_SCRATCH(m), event, from, to);
}

/* The same, by numbers that cannot be confused:
 * cuckooormolu_monitor_ask(&m, cuckooormolu_event(LOAD), cuckooormolu_from(1),
 * cuckooormolu_to(2)). */
CUCKOOORMOLU_USED static inline struct cuckooormolu_result
cuckooormolu_monitor_ask(struct cuckooormolu *m,
                         struct cuckooormolu_event_number event,
                         struct cuckooormolu_from_number from,
                         struct cuckooormolu_to_number to)
{
    return cuckooormolu_monitor_request(m, event.cuckooormolu_private,
                                        from.cuckooormolu_private,
                                        to.cuckooormolu_private);
}

/* Answers so many records, which is not how many bytes they have, each as a
 * request in its place, and fills in their answers. *grants is how many were
 * granted. */
CUCKOOORMOLU_CHANGES(2, 3)
CUCKOOORMOLU_USED static inline struct cuckooormolu_result
cuckooormolu_monitor_set_list(struct cuckooormolu *m,
                              struct cuckooormolu_record *records,
                              size_t count, size_t *grants)
{
    return cuckooormolu_set_list(CUCKOOORMOLU_TERMS(m), CUCKOOORMOLU_STATE(m),
                                 CUCKOOORMOLU_SCRATCH(m), records, count,
                                 grants);
}

/* The entry that is the policy of an event, for a goal; where the terms have no
 * such event, a number that is no entry's. */
CUCKOOORMOLU_USED static inline size_t
cuckooormolu_monitor_policy(const struct cuckooormolu *m, size_t event)
{
    if (m == NULL || event >= m->terms[2] || event >= 16)
        return SIZE_MAX;
    return m->terms[1028 + event];
}

/* A plan as so many moves. A null game is refused with 6. */
CUCKOOORMOLU_READS(3, 4)
CUCKOOORMOLU_USED static inline struct cuckooormolu_ruling
cuckooormolu_monitor_plan(const struct cuckooormolu *m,
                          struct cuckooormolu_game *game,
                          const struct cuckooormolu_move *moves, size_t count,
                          size_t planner, size_t rival, size_t goal,
                          size_t first, size_t second)
{
    size_t length = count <= 3 ? 2 * count : 1; /* 1 is no plan's length */
    return cuckooormolu_plan(CUCKOOORMOLU_TERMS(m), CUCKOOORMOLU_STATE(m),
                             CUCKOOORMOLU_PART(game, words),
                             CUCKOOORMOLU_PLAN_WORDS, (const uint64_t *)moves,
                             length, planner, rival, goal, first, second);
}

/* Whether an entry holds at a pair at present. It permits nothing. */
CUCKOOORMOLU_USED static inline struct cuckooormolu_fact
cuckooormolu_monitor_tell(const struct cuckooormolu *m, size_t entry,
                          size_t first, size_t second)
{
    return cuckooormolu_tell(CUCKOOORMOLU_TERMS(m), CUCKOOORMOLU_STATE(m),
                             entry, first, second);
}

/*
 * The same over the memory of two banks: a call of one bank says left or right,
 * and reading, opening and revising are for both. Null banks are refused with 6.
 */
#define CUCKOOORMOLU_OWN(b, bank) \
    CUCKOOORMOLU_PART(b, bank), CUCKOOORMOLU_OWN_WORDS
#define CUCKOOORMOLU_SHARED(b)                              \
    CUCKOOORMOLU_TERMS(b), CUCKOOORMOLU_PART(b, relations), \
        CUCKOOORMOLU_RELATION_WORDS
#define CUCKOOORMOLU_BOTH(b)                           \
    CUCKOOORMOLU_SHARED(b), CUCKOOORMOLU_OWN(b, left), \
        CUCKOOORMOLU_OWN(b, right)
#define CUCKOOORMOLU_BANK(b, bank, beside)                                  \
    CUCKOOORMOLU_SHARED(b), CUCKOOORMOLU_OWN(b, bank),                      \
        CUCKOOORMOLU_OWN(b, beside), CUCKOOORMOLU_PART(b, bank##_scratch),  \
        CUCKOOORMOLU_SCRATCH_WORDS, CUCKOOORMOLU_PART(b, beside##_scratch), \
        CUCKOOORMOLU_SCRATCH_WORDS

/* Reads a terms file into both; a stored text, which is one monitor's, is refused
 * with 1 at line 1. */
CUCKOOORMOLU_READS(2, 3)
CUCKOOORMOLU_USED static inline struct cuckooormolu_result
cuckooormolu_both_read(struct cuckooormolu_banks *b, const void *text,
                       size_t length, size_t *line)
{
    return cuckooormolu_banks_read((const uint8_t *)text, length,
                                   CUCKOOORMOLU_BOTH(b), line);
}

/* Starts both afresh from the present relations: the past of each is lost. */
CUCKOOORMOLU_USED static inline struct cuckooormolu_result
cuckooormolu_both_open(struct cuckooormolu_banks *b)
{
    return cuckooormolu_banks_open(CUCKOOORMOLU_BOTH(b));
}

/*
 * The new terms are those that were read into `next`, other banks. Done: they go
 * on with what is filled in there, and `next` is used in the place of `b`, which
 * is unchanged. The banks in force come first. Where both are the same banks, it
 * is refused with 6.
 */
CUCKOOORMOLU_USED static inline struct cuckooormolu_result
cuckooormolu_both_revise(const struct cuckooormolu_banks *b,
                         struct cuckooormolu_banks *next)
{
    return cuckooormolu_banks_revise(CUCKOOORMOLU_BOTH(b),
                                     CUCKOOORMOLU_BOTH(next));
}

/* What a request of the bank would be answered; it permits nothing. */
CUCKOOORMOLU_USED static inline struct cuckooormolu_result
cuckooormolu_left_look(const struct cuckooormolu_banks *b, size_t event,
                       size_t from, size_t to)
{
    return cuckooormolu_banks_look(CUCKOOORMOLU_BANK(b, left, right), event,
                                   from, to);
}

CUCKOOORMOLU_USED static inline struct cuckooormolu_result
cuckooormolu_right_look(const struct cuckooormolu_banks *b, size_t event,
                        size_t from, size_t to)
{
    return cuckooormolu_banks_look(CUCKOOORMOLU_BANK(b, right, left), event,
                                   from, to);
}

/* Answers a request of the bank. Where it makes a moment, that is one of both:
 * keep the whole struct before you act on the answer. */
CUCKOOORMOLU_USED static inline struct cuckooormolu_result
cuckooormolu_left_request(struct cuckooormolu_banks *b, size_t event,
                          size_t from, size_t to)
{
    return cuckooormolu_banks_request(CUCKOOORMOLU_BANK(b, left, right), event,
                                      from, to);
}

CUCKOOORMOLU_USED static inline struct cuckooormolu_result
cuckooormolu_right_request(struct cuckooormolu_banks *b, size_t event,
                           size_t from, size_t to)
{
    return cuckooormolu_banks_request(CUCKOOORMOLU_BANK(b, right, left), event,
                                      from, to);
}

/* Answers so many records, as cuckooormolu_monitor_set_list does. */
CUCKOOORMOLU_CHANGES(2, 3)
CUCKOOORMOLU_USED static inline struct cuckooormolu_result
cuckooormolu_left_set_list(struct cuckooormolu_banks *b,
                           struct cuckooormolu_record *records, size_t count,
                           size_t *grants)
{
    return cuckooormolu_banks_set_list(CUCKOOORMOLU_BANK(b, left, right),
                                       records, count, grants);
}

CUCKOOORMOLU_CHANGES(2, 3)
CUCKOOORMOLU_USED static inline struct cuckooormolu_result
cuckooormolu_right_set_list(struct cuckooormolu_banks *b,
                            struct cuckooormolu_record *records, size_t count,
                            size_t *grants)
{
    return cuckooormolu_banks_set_list(CUCKOOORMOLU_BANK(b, right, left),
                                       records, count, grants);
}

#undef CUCKOOORMOLU_PART
#undef CUCKOOORMOLU_TERMS
#undef CUCKOOORMOLU_STATE
#undef CUCKOOORMOLU_SCRATCH
#undef CUCKOOORMOLU_OWN
#undef CUCKOOORMOLU_SHARED
#undef CUCKOOORMOLU_BOTH
#undef CUCKOOORMOLU_BANK
#undef CUCKOOORMOLU_ASSERT
#undef CUCKOOORMOLU_USED
#undef CUCKOOORMOLU_READS
#undef CUCKOOORMOLU_WRITES
#undef CUCKOOORMOLU_CHANGES
#undef CUCKOOORMOLU_RETAINED

#ifdef __cplusplus
}
#endif

#endif
