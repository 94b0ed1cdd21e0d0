/*
 * Runs of the host that is tested: see run.h.
 */
#define _DEFAULT_SOURCE
#include "run.h"

#include <errno.h>
#include <fcntl.h>
#include <stdio.h>
#include <stdlib.h>
#include <string.h>
#include <sys/stat.h>
#include <sys/wait.h>
#include <unistd.h>

const char *host, *stub;
char folder[512], image[512], output[512], trace_file[512];
static char input[512];

void run_with(const char *the_host, const char *the_stub, const char *work)
{
    host = the_host;
    stub = the_stub;
    snprintf(folder, sizeof folder, "%s/panel", work);
    snprintf(image, sizeof image, "%s/image", work);
    snprintf(input, sizeof input, "%s/input", work);
    snprintf(output, sizeof output, "%s/output", work);
    snprintf(trace_file, sizeof trace_file, "%s/trace", work);
}

void must(bool fact, const char *what)
{
    if (!fact) {
        printf("FAIL %s: %s (%s)\n", host, what, strerror(errno));
        exit(1);
    }
}

static void set(const char *path, const char *data, size_t length)
{
    int file = open(path, O_WRONLY | O_CREAT | O_TRUNC, 0600);
    must(file >= 0 && write(file, data, length) == (ssize_t)length &&
             close(file) == 0,
         path);
}

bool get(const char *path, struct bytes *bytes)
{
    int file = open(path, O_RDONLY);
    if (file < 0)
        return false;
    ssize_t length = read(file, bytes->data, MOST_BYTES);
    must(length >= 0 && length < MOST_BYTES && close(file) == 0, path);
    bytes->length = (size_t)length;
    return true;
}

const char *in(const char *where, const char *name)
{
    static char path[1024];
    snprintf(path, sizeof path, "%s/%s", where, name);
    return path;
}

void fill(const char *where, const struct bytes *const *files)
{
    must(mkdir(where, 0700) == 0 || errno == EEXIST, where);
    for (int name = 0; name < NAMES; name++) {
        const char *path = in(where, disk_names[name]);
        if (files[name] == NULL)
            unlink(path);
        else
            set(path, files[name]->data, files[name]->length);
    }
}

/* FNV-1a of some bytes, going on from another sum. */
static uint64_t sum_of(uint64_t sum, const void *data, size_t length)
{
    const unsigned char *at = data;
    for (size_t i = 0; i < length; i++)
        sum = (sum ^ at[i]) * UINT64_C(0x100000001b3);
    return sum;
}

bool seen(const struct bytes *const *files, size_t least, size_t most)
{
    static uint64_t sums[1 << 14];
    static size_t count;
    uint64_t sum = UINT64_C(0xcbf29ce484222325);
    sum = sum_of(sum_of(sum, &least, sizeof least), &most, sizeof most);
    for (int name = 0; name < NAMES; name++) {
        size_t length = files[name] == NULL ? SIZE_MAX : files[name]->length;
        sum = sum_of(sum, &length, sizeof length);
        if (files[name] != NULL)
            sum = sum_of(sum, files[name]->data, length);
    }
    for (size_t i = 0; i < count; i++)
        if (sums[i] == sum)
            return true;
    must(count < sizeof sums / sizeof *sums, "room for the images");
    sums[count++] = sum;
    return false;
}

bool keeps(const char *where, const struct bytes *text)
{
    static struct bytes file;
    if (!get(in(where, "state"), &file) || file.length <= text->length)
        return false;
    size_t head = file.length - text->length;
    return memchr(file.data, '\n', file.length) == file.data + head - 1 &&
           memcmp(file.data + head, text->data, text->length) == 0;
}

/* In the child: becomes the host. */
static void become(const char *where, const char *begins, const char *reads,
                   long at, const char *how)
{
    char number[32];
    int files[3] = {open(reads, O_RDONLY),
                    open(output, O_WRONLY | O_CREAT | O_TRUNC, 0600),
                    open("/dev/null", O_WRONLY)};
    for (int i = 0; i < 3; i++) {
        dup2(files[i], i);
        close(files[i]);
    }
    if (how != NULL) {
        snprintf(number, sizeof number, "%ld", at);
        setenv("LD_PRELOAD", stub, 1);
        setenv("POWER_TRACE", trace_file, 1);
        setenv("POWER_AT", number, 1);
        setenv("POWER_HOW", how, 1);
    }
    execl(host, host, where, begins, (char *)NULL);
    _exit(99);
}

static int run(const char *where, const char *begins, const char *reads,
               long at, const char *how)
{
    int status;
    fflush(stdout);
    pid_t child = fork();
    must(child >= 0, "fork");
    if (child == 0)
        become(where, begins, reads, at, how);
    must(waitpid(child, &status, 0) == child, "wait");
    return status;
}

int begin(const char *where, const char *how)
{
    set(input, terms_text, terms_size);
    return run(where, input, "/dev/null", 0, how);
}

int serve(const char *where, const request *first, size_t count, long at,
          const char *how)
{
    char lines[REQUESTS * 32];
    size_t length = 0;
    for (size_t i = 0; i < count; i++)
        length += (size_t)sprintf(lines + length, "R\t%u\t%u\t%u\n",
                                  first[i][0], first[i][1], first[i][2]);
    set(input, lines, length);
    return run(where, NULL, input, at, how);
}

const char *trace_of(const char **end)
{
    static char bytes[1 << 20];
    int file = open(trace_file, O_RDONLY);
    ssize_t count = file < 0 ? 0 : read(file, bytes, sizeof bytes - 1);
    must(count >= 0 && (size_t)count < sizeof bytes - 1, "the trace");
    if (file >= 0)
        close(file);
    bytes[count] = '\0';
    *end = bytes + count;
    return bytes;
}
