/*
 * A host that loses nothing when its power goes: terms and state are kept in a
 * file, and no answer is told before the moment that it made is on the disk.
 *
 *     panel FOLDER TERMS    begins: keeps the state that TERMS says
 *     panel FOLDER          goes on: answers the requests of standard input
 *
 * It does not begin with terms of which a request may work out more than MOST_ROWS
 * rows.
 *
 * A request is a line `R` event from to, an answer a line `grant`, `deny` or
 * `refuse` and the number, separated by tabs. The file FOLDER/state is a line with
 * the length and the checksum of what follows, and then a text of the stored
 * form. It is never written in place: the text goes to FOLDER/state.new, that is
 * synced and takes the name `state`, and the folder is synced. So there is always
 * the whole file of before or of after.
 *
 * Exit: 0 at the end of the input, 1 where something could not be kept or told, 2
 * where there is nothing to go on from. After 1 what is in the folder counts, not
 * what was in memory: go on from there.
 */
#define _DEFAULT_SOURCE
#include "cuckooormolu.h"
#include "request_line.h"

#include <errno.h>
#include <fcntl.h>
#include <inttypes.h>
#include <stdarg.h>
#include <stdio.h>
#include <stdlib.h>
#include <string.h>
#include <sys/file.h>
#include <unistd.h>

/* They take less than 0.1 s on x86-64, which is how long a player may wait for an
 * answer. */
#define MOST_ROWS 1000000

#define HEAD_BYTES 64
#define STATE "state"
#define STATE_NEW "state.new"
#define UNKEPT "the state could not be kept"
#define UNTOLD "an answer could not be written"

static struct cuckooormolu monitor;

/* A file's bytes, one more than any has. */
static uint8_t bytes[HEAD_BYTES + CUCKOOORMOLU_STORED_BYTES + 1];

/* Lent while terms are read. */
static uint8_t buffer[sizeof bytes + 4];

/* The folder, open and locked as long as the host runs. */
static int folder;

static int fail(int code, const char *what)
{
    fprintf(stderr, "panel: %s\n", what);
    return code;
}

/* The same of a file or folder that the system does not give. */
static int fail_at(const char *name)
{
    fprintf(stderr, "panel: %s: %s\n", name, strerror(errno));
    return 2;
}

/* CRC-32, that of Ethernet and zip. */
static uint32_t checksum(const uint8_t *text, size_t length)
{
    uint32_t sum = UINT32_MAX;
    for (size_t i = 0; i < length; i++) {
        sum ^= text[i];
        for (int bit = 0; bit < 8; bit++)
            sum = (sum >> 1) ^ (sum & 1 ? UINT32_C(0xedb88320) : 0);
    }
    return ~sum;
}

/* The first line of the file that keeps a text; gives its length. */
static size_t head_of(const uint8_t *text, size_t length, char *head)
{
    return (size_t)snprintf(head, HEAD_BYTES, "panel\t%zu\t%08" PRIx32 "\n",
                            length, checksum(text, length));
}

static bool write_all(int file, const void *from, size_t length)
{
    const uint8_t *at = from;
    while (length > 0) {
        ssize_t count = write(file, at, length);
        if (count < 0 && errno == EINTR)
            continue;
        if (count <= 0)
            return false;
        at += count;
        length -= (size_t)count;
    }
    return true;
}

/* The bytes of a file, at most as many as there is room for; -1 where it can't
 * be read. */
static ssize_t contents(int from, const char *name)
{
    int file = openat(from, name, O_RDONLY | O_CLOEXEC);
    if (file < 0)
        return -1;
    size_t length = 0;
    ssize_t count = 0;
    while (length < sizeof bytes &&
           (count = read(file, bytes + length, sizeof bytes - length)) != 0) {
        if (count < 0 && errno != EINTR)
            break;
        length += count < 0 ? 0 : (size_t)count;
    }
    int error = errno;
    close(file);
    errno = error;
    return count < 0 ? -1 : (ssize_t)length;
}

/* Puts a file with these bytes in the place of FOLDER/state. */
static bool replace(const char *head, size_t head_length, const uint8_t *text,
                    size_t length)
{
    int file = openat(folder, STATE_NEW,
                      O_WRONLY | O_CREAT | O_TRUNC | O_CLOEXEC, 0600);
    if (file < 0)
        return false;
    bool done = write_all(file, head, head_length) &&
                write_all(file, text, length) && fsync(file) == 0;
    if (close(file) != 0)
        done = false;
    return done && renameat(folder, STATE_NEW, folder, STATE) == 0 &&
           fsync(folder) == 0;
}

/* Keeps the monitor as it stands. */
static bool keep(void)
{
    char head[HEAD_BYTES];
    size_t length;
    return cuckooormolu_done(cuckooormolu_monitor_store(
               &monitor, bytes, sizeof bytes, &length)) &&
           replace(head, head_of(bytes, length, head), bytes, length);
}

/* Keeps what TERMS says. A folder that has a state already is left as it is. */
static int begin(const char *terms)
{
    if (faccessat(folder, STATE, F_OK, 0) == 0 || errno != ENOENT)
        return fail(2, "the folder has a state already: go on without TERMS");
    ssize_t length = contents(AT_FDCWD, terms);
    if (length < 0)
        return fail_at(terms);
    size_t line;
    struct cuckooormolu_result result = cuckooormolu_monitor_read_within(
        &monitor, bytes, (size_t)length, buffer, sizeof buffer, MOST_ROWS,
        &line);
    if (cuckooormolu_costly(result)) {
        fprintf(stderr,
                "panel: a request by these terms may work out more than the "
                "limit of %d rows: change the part that `cuckooormolu check` "
                "names\n",
                MOST_ROWS);
        return 2;
    }
    if (!cuckooormolu_done(result)) {
        fprintf(stderr, "panel: %s, line %zu: %s\n", terms, line,
                cuckooormolu_words(result));
        return 2;
    }
    return keep() ? 0 : fail(1, UNKEPT);
}

/* Reads what was kept, of so many bytes. A file that was cut or changed is found
 * by its first line. */
static bool read_kept(size_t length)
{
    char head[HEAD_BYTES];
    const uint8_t *end = memchr(bytes, '\n', length);
    if (end == NULL)
        return false;
    const uint8_t *text = end + 1;
    size_t first = (size_t)(text - bytes);
    size_t rest = length - first;
    return head_of(text, rest, head) == first &&
           memcmp(head, bytes, first) == 0 &&
           cuckooormolu_done(
               cuckooormolu_monitor_read(&monitor, text, rest, NULL));
}

/* Goes on from what was kept. The folder is synced, since a host that was stopped
 * between the last two steps may have left a name that is not on the disk. */
static int resume(void)
{
    ssize_t length = contents(folder, STATE);
    if (length < 0 && errno == ENOENT)
        return fail(2, "the folder has no state: begin with TERMS");
    if (length < 0)
        return fail_at(STATE);
    if (!read_kept((size_t)length))
        return fail(2, "the state was cut or changed: put a copy of the file "
                       "back, or begin in another folder");
    return fsync(folder) == 0 ? 0 : fail_at(STATE);
}

static bool tell(const char *form, ...)
{
    char line[64];
    va_list values;
    va_start(values, form);
    int length = vsnprintf(line, sizeof line, form, values);
    va_end(values);
    return write_all(STDOUT_FILENO, line, (size_t)length);
}

/* Answers a request: first the words change, then the file, then the answer is
 * told. The words change where a moment is made, by a grant or by a denial that
 * the terms keep. */
static int answer(const struct cuckooormolu_record *request)
{
    static uint64_t before[CUCKOOORMOLU_STATE_WORDS];
    memcpy(before, monitor.state, sizeof before);
    struct cuckooormolu_result result = cuckooormolu_monitor_request(
        &monitor, request->event, request->from, request->to);
    if (memcmp(before, monitor.state, sizeof before) != 0 && !keep())
        return fail(1, UNKEPT);
    bool told;
    if (cuckooormolu_granted(result))
        told = tell("grant\n");
    else if (cuckooormolu_denied(result))
        told = tell("deny\n");
    else
        told = tell("refuse\t%zu\n", cuckooormolu_refusal(result));
    return told ? 0 : fail(1, UNTOLD);
}

/* Answers all lines of standard input; one that is no request is refused. */
static int serve(void)
{
    char *line = NULL;
    size_t room = 0;
    ssize_t length;
    int code = 0;
    while (code == 0 && (length = getline(&line, &room, stdin)) > 0) {
        struct cuckooormolu_record request;
        const uint8_t *text = (const uint8_t *)line;
        if (request_line(text, text + length, &request))
            code = answer(&request);
        else if (!tell("refuse\t%d\n", CUCKOOORMOLU_REFUSED_FORM))
            code = fail(1, UNTOLD);
    }
    free(line);
    if (code == 0 && ferror(stdin))
        return fail(1, "the requests can't be read");
    return code;
}

int main(int argc, char **argv)
{
    if (argc < 2 || argc > 3)
        return fail(2, "usage: panel FOLDER [TERMS]");
    folder = open(argv[1], O_RDONLY | O_DIRECTORY | O_CLOEXEC);
    if (folder < 0)
        return fail_at(argv[1]);
    if (flock(folder, LOCK_EX | LOCK_NB) != 0)
        return fail(2, "another host has the folder: stop it first");
    if (argc == 3)
        return begin(argv[2]);
    int code = resume();
    return code == 0 ? serve() : code;
}
