/*
 * The model of a disk that loses its power: see disk.h.
 */
#define _DEFAULT_SOURCE
#include "disk.h"

#include <fcntl.h>
#include <stdio.h>
#include <stdlib.h>
#include <string.h>

/* Descriptors that stand for no file of the folder. */
enum { ELSEWHERE = -1, FOLDER = -2 };

const char *const disk_names[NAMES] = {"state", "state.new"};

/* Stops where the model has no room or no name for what a host does. */
static void need(bool fact)
{
    if (!fact) {
        fprintf(stderr, "power: a call that the model of the disk lacks\n");
        exit(2);
    }
}

static int *name_of(struct names *names, const char *path)
{
    const char *slash = strrchr(path, '/');
    const char *last = slash == NULL ? path : slash + 1;
    for (int name = 0; name < NAMES; name++)
        if (strcmp(last, disk_names[name]) == 0)
            return &names->file[name];
    return NULL;
}

static int new_file(struct disk *disk)
{
    need(disk->files < MOST_FILES);
    disk->now[disk->files].length = 0;
    disk->safe[disk->files].length = 0;
    return disk->files++;
}

/* One more step of the names, to be changed. */
static struct names *step(struct disk *disk)
{
    need(disk->count < MOST_STEPS);
    disk->steps[disk->count] = disk->steps[disk->count - 1];
    return &disk->steps[disk->count++];
}

static void put(struct bytes *bytes, const char *data, size_t length)
{
    need(length <= MOST_BYTES - bytes->length);
    memcpy(bytes->data + bytes->length, data, length);
    bytes->length += length;
}

static bool same(const struct bytes *a, const struct bytes *b)
{
    return a->length == b->length && memcmp(a->data, b->data, a->length) == 0;
}

void disk_begin(struct disk *disk, const char *folder, const struct bytes *state)
{
    disk->folder = folder;
    disk->files = 0;
    disk->count = 1;
    disk->told.length = 0;
    for (int name = 0; name < NAMES; name++)
        disk->steps[0].file[name] = -1;
    for (int file = 0; file < MOST_FILES; file++)
        disk->open[file] = ELSEWHERE;
    if (state != NULL) {
        int file = new_file(disk);
        disk->now[file] = disk->safe[file] = *state;
        disk->steps[0].file[STATE] = file;
    }
}

static void opened(struct disk *disk, long descriptor, long flags, const char *path)
{
    int *file = name_of(&disk->steps[disk->count - 1], path);
    if (strcmp(path, disk->folder) == 0) {
        disk->open[descriptor] = FOLDER;
    } else if (file == NULL) {
        need((flags & O_ACCMODE) == O_RDONLY);
        disk->open[descriptor] = ELSEWHERE;
    } else {
        if (*file < 0) {
            int made = new_file(disk);
            file = name_of(step(disk), path);
            *file = made;
        }
        /* Writes go on at the end. */
        need((flags & O_ACCMODE) == O_RDONLY || (flags & O_TRUNC));
        if (flags & O_TRUNC)
            disk->now[*file].length = 0;
        disk->open[descriptor] = *file;
    }
}

static void renamed(struct disk *disk, const char *old, const char *new)
{
    struct names *names = step(disk);
    int *from = name_of(names, old);
    int *to = name_of(names, new);
    need(from != NULL && to != NULL);
    *to = *from;
    *from = -1;
}

static void removed(struct disk *disk, const char *path)
{
    int *file = name_of(step(disk), path);
    need(file != NULL);
    *file = -1;
}

static void synced(struct disk *disk, int file)
{
    if (file == FOLDER) {
        disk->steps[0] = disk->steps[disk->count - 1];
        disk->count = 1;
    } else if (file >= 0) {
        disk->safe[file] = disk->now[file];
    }
}

bool disk_step(struct disk *disk, const char **trace, const char *end)
{
    char kind;
    char name[2][MOST_BYTES] = {"", ""};
    long first, second;
    int head = 0;
    if (*trace == end)
        return false;
    need(sscanf(*trace, "%c\t%ld\t%ld%n", &kind, &first, &second, &head) == 3);
    need(first >= 0 && first < MOST_FILES);
    const char *feed = memchr(*trace, '\n', (size_t)(end - *trace));
    need(feed != NULL);
    sscanf(*trace + head, "\t%4095[^\t\n]\t%4095[^\t\n]", name[0], name[1]);
    *trace = feed + 1;
    int file = disk->open[first];
    switch (kind) {
    case 'O':
        opened(disk, first, second, name[0]);
        break;
    case 'W':
        need(file >= 0 || first == 1 || first == 2);
        if (file >= 0)
            put(&disk->now[file], *trace, (size_t)second);
        else if (first == 1)
            put(&disk->told, *trace, (size_t)second);
        *trace += second;
        break;
    case 'T':
        need(file >= 0 && (size_t)second <= disk->now[file].length);
        disk->now[file].length = (size_t)second;
        break;
    case 'S':
        synced(disk, file);
        break;
    case 'C':
        disk->open[first] = ELSEWHERE;
        break;
    case 'R':
        renamed(disk, name[0], name[1]);
        break;
    case 'U':
        removed(disk, name[0]);
        break;
    default:
        need(false);
    }
    return true;
}

void disk_images(const struct disk *disk, size_t stride,
                 void each(void *context, const struct bytes *const *files),
                 void *context)
{
    static struct bytes cut;
    for (int at = 0; at < disk->count; at++) {
        const struct bytes *files[NAMES];
        for (int name = 0; name < NAMES; name++) {
            int file = disk->steps[at].file[name];
            files[name] = file < 0 ? NULL : &disk->now[file];
        }
        each(context, files);
        for (int name = 0; name < NAMES; name++) {
            int file = disk->steps[at].file[name];
            if (file < 0 || same(&disk->now[file], &disk->safe[file]))
                continue;
            const struct bytes *whole = files[name];
            files[name] = &disk->safe[file];
            each(context, files);
            cut = *whole;
            files[name] = &cut;
            for (cut.length = 0; cut.length < whole->length;
                 cut.length += stride)
                each(context, files);
            files[name] = whole;
        }
    }
}
