/*
 * Runs of the host that is tested, and the files that it is given and leaves.
 */
#ifndef POWER_RUN_H
#define POWER_RUN_H

#include "disk.h"
#include "expected.h"

/* The host, the stub's library, and the files and folders of the test. */
extern const char *host, *stub;
extern char folder[512], image[512], output[512], trace_file[512];

/* Sets all that; the last is an empty folder. */
void run_with(const char *host, const char *stub, const char *work);

/* The test ends where it can't go on. */
void must(bool fact, const char *what);

/* Reads a file; false where there is none. */
bool get(const char *path, struct bytes *bytes);

/* The path of a file in a folder, until the next call. */
const char *in(const char *where, const char *name);

/* Makes a folder that has these files, by their names, and no others. */
void fill(const char *where, const struct bytes *const *files);

/* Whether this was asked of these files and numbers before. */
bool seen(const struct bytes *const *files, size_t least, size_t most);

/* Whether a folder has a text behind the first line of its state. */
bool keeps(const char *where, const struct bytes *text);

/* Runs the host to begin, or to answer some requests; `at` and `how` as in stub.c,
 * which is left out where `how` is null. Gives what the system says of its end. */
int begin(const char *where, const char *how);
int serve(const char *where, const request *first, size_t count, long at,
          const char *how);

/* The calls that were traced since the trace was removed. */
const char *trace_of(const char **end);

#endif
