/*
 * What a disk may hold when the power goes: the calls of a host, as stub.c
 * traced them, carried out on a model of a folder with two files.
 *
 * A sync of a file makes its bytes safe, a sync of the folder its names. What was
 * written since may be there up to any length, or not at all; of the names that
 * were made, moved or removed since, any number of the first may be.
 */
#ifndef POWER_DISK_H
#define POWER_DISK_H

#include <stdbool.h>
#include <stddef.h>

enum { STATE, STATE_NEW, NAMES };
extern const char *const disk_names[NAMES];

#define MOST_FILES 64
#define MOST_BYTES 4096
#define MOST_STEPS 64

struct bytes {
    char data[MOST_BYTES];
    size_t length;
};

/* Which file has a name; -1 none. */
struct names {
    int file[NAMES];
};

struct disk {
    const char *folder;
    struct bytes now[MOST_FILES];
    struct bytes safe[MOST_FILES];
    int files;
    /* What the names were, safely and after each step since. */
    struct names steps[MOST_STEPS];
    int count;
    /* What an open descriptor stands for. */
    int open[MOST_FILES];
    /* What was told on standard output. */
    struct bytes told;
};

/* A folder that has these bytes safely as its state; none where there are none. */
void disk_begin(struct disk *disk, const char *folder, const struct bytes *state);

/* Carries out the record at *trace and goes on to the next; false at the end. */
bool disk_step(struct disk *disk, const char **trace, const char *end);

/* Calls `each` with the files that the disk may hold, by their names; a null
 * pointer is no file. Unsafe bytes are cut at every `stride`th length. */
void disk_images(const struct disk *disk, size_t stride,
                 void each(void *context, const struct bytes *const *files),
                 void *context);

#endif
