/*
 * replay COUNT FILE...: gives the invariants each file and COUNT inputs made of
 * them by small changes, the same ones on every machine, and prints the digest
 * of all that the library said.
 */
#include "invariants.h"

#include <inttypes.h>
#include <stdio.h>
#include <stdlib.h>
#include <string.h>

#define MOST_FILES 64
#define MOST_BYTES 16384
#define MOST_CHANGES 4

static struct input {
    size_t length;
    uint8_t bytes[MOST_BYTES];
} inputs[MOST_FILES];

static uint32_t seed = 1;

/* A number below `bound`. */
static size_t chance(size_t bound)
{
    seed = (uint32_t)((seed * UINT64_C(1664525) + 1013904223) & UINT32_MAX);
    return (size_t)((uint64_t)(seed >> 8) * bound >> 24);
}

/* A digit, a byte of a word, or any byte stands in for another; or a part is
 * left out or said twice. */
static void change(struct input *input)
{
    size_t at = chance(input->length), left = input->length - at;
    size_t part = 1 + chance(left < 16 ? left : 16);
    switch (chance(6)) {
    case 0:
        input->bytes[at] = (uint8_t)chance(256);
        break;
    case 1:
        memmove(input->bytes + at, input->bytes + at + part, left - part);
        input->length -= part;
        break;
    case 2:
        if (input->length + part <= MOST_BYTES) {
            memmove(input->bytes + at + part, input->bytes + at, left);
            input->length += part;
        }
        break;
    default:
        if (input->bytes[at] >= '0' && input->bytes[at] <= '9')
            input->bytes[at] = (uint8_t)('0' + chance(10));
        else if (input->bytes[at] < 16)
            input->bytes[at] = (uint8_t)chance(16);
        break;
    }
}

int main(int argc, char **argv)
{
    static struct input changed;
    size_t files = 0;
    if (argc < 3 || argc - 2 > MOST_FILES) {
        fprintf(stderr, "usage: replay COUNT FILE...\n");
        return 2;
    }
    for (int i = 2; i < argc; i++) {
        struct input *input = &inputs[files++];
        FILE *file = fopen(argv[i], "rb");
        if (file == NULL || (input->length = fread(input->bytes, 1, MOST_BYTES, file)) == 0) {
            fprintf(stderr, "%s: can't be read\n", argv[i]);
            return 2;
        }
        fclose(file);
        LLVMFuzzerTestOneInput(input->bytes, input->length);
    }
    for (long count = strtol(argv[1], NULL, 10); count > 0; count--) {
        changed = inputs[chance(files)];
        for (size_t changes = 1 + chance(MOST_CHANGES); changes > 0 && changed.length > 0; changes--)
            change(&changed);
        LLVMFuzzerTestOneInput(changed.bytes, changed.length);
    }
    printf("%016" PRIx64 "\n", digest);
    return 0;
}
