/*
 * Takes the power from a host at every call by which it keeps or tells things,
 * and looks at what comes back.
 *
 *     power HOST STUB FOLDER
 *
 * HOST is a program as panel.c, STUB is stub.c as a library, FOLDER is an empty one
 * of this test's own. What is held to: the monitor that comes back stands before or
 * after the request that was being answered, and after every request whose answer
 * was told.
 */
#define _DEFAULT_SOURCE
#include "disk.h"
#include "expected.h"
#include "run.h"

#include <fcntl.h>
#include <stdio.h>
#include <stdlib.h>
#include <string.h>
#include <sys/file.h>
#include <sys/wait.h>
#include <unistd.h>

static int misses;
static long restarts;

/* Where misses are expected, they are not shown. */
static bool quiet;

static void miss(const char *what)
{
    misses++;
    if (!quiet && misses < 10)
        printf("     %s\n", what);
}

/* How many requests may have been answered. */
struct range {
    size_t least, most;
};

/* From what was told, which must be what the library says. */
static struct range range_of(const struct bytes *lines)
{
    struct range range = {0, 0};
    if (lines->length > told_length[REQUESTS] ||
        memcmp(lines->data, told, lines->length) != 0)
        miss("an answer that is not the library's");
    while (range.least < REQUESTS &&
           told_length[range.least + 1] <= lines->length)
        range.least++;
    range.most = range.least < REQUESTS ? range.least + 1 : REQUESTS;
    return range;
}

/* The monitor that comes back from a folder is in the range: it is asked the
 * probe, and what it then keeps is looked at. */
static void comes_back(const char *where, struct range range)
{
    restarts++;
    if (serve(where, probe, 1, 0, NULL) != 0) {
        miss("nothing comes back");
        return;
    }
    for (size_t i = range.least; i <= range.most; i++)
        if (keeps(where, &probed[i]))
            return;
    miss("another state comes back");
}

static void image_comes_back(void *context, const struct bytes *const *files)
{
    struct range range = *(const struct range *)context;
    if (seen(files, range.least, range.most))
        return;
    fill(image, files);
    comes_back(image, range);
}

static const struct bytes *const no_files[NAMES] = {NULL, NULL};

/* What the host keeps at moment 0. */
static struct bytes state_0;

/* A folder that stands there. */
static void start(void)
{
    const struct bytes *files[NAMES] = {&state_0, NULL};
    fill(folder, files);
    unlink(trace_file);
}

/* The host answers all requests. */
static void whole(void)
{
    static struct bytes lines;
    start();
    must(serve(folder, requests, REQUESTS, 0, "none") == 0, "answers all");
    must(get(output, &lines) && range_of(&lines).least == REQUESTS,
         "the answers");
    must(keeps(folder, &stored[REQUESTS]), "keeps the state");
}

/* The power goes after each call of the whole run: all that the disk may hold. The
 * first two moments, a kept denial and a grant, are cut at every length. Ends at the
 * first miss. */
static void power_goes(void)
{
    static struct disk disk;
    const char *end;
    whole();
    const char *at = trace_of(&end);
    disk_begin(&disk, folder, &state_0);
    do {
        struct range range = range_of(&disk.told);
        disk_images(&disk, range.least < 2 ? 1 : 17, image_comes_back, &range);
    } while (misses == 0 && disk_step(&disk, &at, end));
}

/* While a folder is begun: there is the state of moment 0, or none and it can be
 * begun again. */
static void begins_again(void *context, const struct bytes *const *files)
{
    struct range range = *(const struct range *)context;
    if (seen(files, range.least, range.most))
        return;
    fill(image, files);
    if (files[STATE] == NULL && begin(image, NULL) != 0)
        miss("it can't be begun again");
    comes_back(image, range);
}

static void power_goes_beginning(void)
{
    static struct disk disk;
    struct range range = {0, 0};
    const char *end;
    fill(folder, no_files);
    unlink(trace_file);
    must(begin(folder, "none") == 0, "begins");
    const char *at = trace_of(&end);
    disk_begin(&disk, folder, NULL);
    do
        disk_images(&disk, 1, begins_again, &range);
    while (disk_step(&disk, &at, end));
    must(keeps(folder, &stored[0]), "keeps the state of moment 0");
    must(get(in(folder, "state"), &state_0), "its state");
}

/* A second host sees what the first one left, and answers a request that makes no
 * moment; then the power goes. What it saw has to come back. */
static void goes_on(struct range range)
{
    static struct disk disk;
    static const request nothing[1] = {{15, 0, 0}};
    const char *end;
    if (serve(folder, nothing, 1, 0, "none") != 0) {
        miss("nothing comes back");
        return;
    }
    while (range.least < range.most && !keeps(folder, &stored[range.least]))
        range.least++;
    range.most = range.least;
    if (!keeps(folder, &stored[range.least]))
        miss("another state is kept");
    disk_begin(&disk, folder, &state_0);
    for (const char *at = trace_of(&end); disk_step(&disk, &at, end);)
        continue;
    disk_images(&disk, MOST_BYTES, image_comes_back, &range);
}

/* The host is stopped at a call, or the call fails; false where it makes fewer. */
static bool stopped(long call, const char *how)
{
    static struct bytes lines, files[NAMES];
    const struct bytes *left[NAMES];
    start();
    int status = serve(folder, requests, REQUESTS, call, how);
    must(get(output, &lines), output);
    struct range range = range_of(&lines);
    for (int name = 0; name < NAMES; name++)
        left[name] = get(in(folder, disk_names[name]), &files[name])
                         ? &files[name]
                         : NULL;
    image_comes_back(&range, left);
    goes_on(range);
    return WIFSIGNALED(status);
}

/* At each call in turn; gives how many there are. */
static long stopped_everywhere(void)
{
    static const char *const ways[] = {"after", "half", "short", "fail"};
    long calls = 1;
    while (stopped(calls, "before"))
        calls++;
    for (size_t way = 0; way < sizeof ways / sizeof *ways; way++)
        for (long call = 1; call < calls; call++)
            stopped(call, ways[way]);
    return calls - 1;
}

/* The state itself is cut at every length, or one of its bytes is another:
 * nothing comes back. */
static void damaged(void)
{
    static struct bytes file;
    const struct bytes *files[NAMES] = {&file, NULL};
    for (size_t i = 0; i < 2 * state_0.length; i++) {
        file = state_0;
        if (i < state_0.length)
            file.length = i;
        else
            file.data[i - state_0.length] ^= 1;
        fill(image, files);
        restarts++;
        if (serve(image, probe, 1, 0, NULL) != 2 << 8)
            miss("a damaged state comes back");
    }
}

/* A folder has one host at a time, and is begun once. */
static void alone(void)
{
    start();
    int other = open(folder, O_RDONLY);
    must(other >= 0 && flock(other, LOCK_EX) == 0, folder);
    if (serve(folder, probe, 1, 0, NULL) != 2 << 8)
        miss("two hosts have a folder");
    close(other);
    if (begin(folder, NULL) != 2 << 8 || !keeps(folder, &stored[0]))
        miss("a folder is begun twice");
}

static void judge(const char *what, bool missed)
{
    bool right = (misses > 0) == missed;
    printf("%s %s: %s\n", right ? "ok  " : "FAIL", strrchr(host, '/') + 1, what);
    if (!right)
        exit(1);
    misses = 0;
}

int main(int argc, char **argv)
{
    if (argc != 4 || strchr(argv[1], '/') == NULL) {
        fprintf(stderr, "usage: power HOST STUB FOLDER\n");
        return 2;
    }
    run_with(argv[1], argv[2], argv[3]);
    must(expect_all(), "the library");

    power_goes_beginning();
    judge("the power goes while it begins", false);
    power_goes();
    judge("the power goes after each call", false);
    long calls = stopped_everywhere();
    judge("it is stopped at each call, or each call fails", false);
    damaged();
    judge("a state that was cut or changed is found", false);
    alone();
    judge("a folder has one host, and is begun once", false);

    quiet = true;
    setenv("POWER_DROP", "file", 1);
    power_goes();
    judge("without the sync of the file a state is lost", true);
    setenv("POWER_DROP", "folder", 1);
    power_goes();
    judge("without the sync of the folder a grant is forgotten", true);
    printf("     %ld calls, %ld times on again\n", calls, restarts);
    return 0;
}
